"""What can be said of a refusal of a source by its bytes, its syntax (S) or the runs of its constructors (E)."""
import pathlib

import building_faults
import source_faults
from building_run import PORT_NAME
from places import line_of
from project_faults import Finding


def source_of(case):
    return pathlib.Path(case.file("SRC")).read_bytes().decode("latin-1")


def written_wrongly(case):
    place = int(case.values["PLACE"])
    cause, keys = source_faults.cause_of(case.code, source_of(case), place)
    return Finding(case.file("SRC"), place, None, cause, keys=keys)


def no_project(case):
    cause, place, keys = source_faults.no_project(source_of(case))
    return Finding(case.file("SRC"), place, None, cause, keys=keys)


def stopped_run(case):
    """Why a constructor's run stopped, as the evaluator says it; nothing where that says another refusal."""
    place = int(case.values["PLACE"])
    built = case.project.built
    if built.line != case.line_said:
        return Finding(case.file("SRC"), place)
    if case.code == "E11" and building_faults.frames_of(built.fault)[0].name == "build":
        name = next(class_.name for class_ in source_faults.source_tree.classes_of(source_of(case)) if not PORT_NAME.fullmatch(class_.name))
        return Finding(case.file("SRC"), place, None, f"the only kernel is `{name}`, and the name of a kernel begins with a letter")
    cause, keys = building_faults.cause_of(built.fault, case.code, case.values) or (None, [])
    return Finding(case.file("SRC"), place, None, cause, calls_of(case, built.fault), keys)


def calls_of(case, fault):
    """The calls of methods that a run had reached when it stopped, the innermost one first."""
    frames = [frame for frame in building_faults.frames_of(fault) if frame.name == "call_method"]
    lines = [f"  called from {line_of(case.file('SRC'), frame['node'].place)}" for frame in frames]
    return list(dict.fromkeys(lines))[:4]


def endless_run(case):
    """The loop or the call in which the steps of a run ran out."""
    fault = case.project.built.fault
    frames = building_faults.frames_of(fault)
    loops = [frame["node"] for frame in frames if frame.name in ("do_while", "do_for")]
    said = "a constructor may take 1,000,000 steps, and this one hasn't ended by then"
    if not loops:
        nodes = [frame["node"] for frame in frames if "node" in frame.has and frame.name.startswith(("do_", "on_"))]
        return Finding(case.file("SRC"), nodes[0].place if nodes else 0, None, said)
    outer = [line_of(case.file("SRC"), node.place) for node in loops[1:4]]
    return Finding(case.file("SRC"), loops[0].place, None, said + "; this loop was running", [f"  inside of {line}" for line in outer])


FINDERS = {**dict.fromkeys(("S1", "S2", "S3", "S4", "S5"), written_wrongly), "S6": no_project, "E7": endless_run,
           **dict.fromkeys([f"E{n}" for n in range(1, 16) if n != 7], stopped_run)}
