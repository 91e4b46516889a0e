"""What can be said of a refusal of a latency table (T), a run file (U, X), a file of words (U3, U4) or a file that is too long (F1)."""
import difflib
import json
import os
import pathlib
import re

import json_places
from project_faults import Finding

OPERATIONS = "add sub mul div neg and or xor not eq ne lt le gt ge mux round".split()
RUN_KEYS = ("ticks", "scalars", "inputs", "outputs", "edges", "pattern", "fill")
NEEDED = ("ticks", "inputs", "outputs", "edges")
MOST = {"edges": 2**40, "pattern": 2**64 - 1}
LIMITS = {"TEXT": 67_108_864}
HEX = re.compile(r"[0-9a-fA-F]{1,32}")


def data_of(case, name):
    return pathlib.Path(case.file(name)).read_bytes()


def quoted(names):
    return ", ".join(f"`{name}`" for name in names)


def whole(value):
    return type(value) is int


def too_long(case):
    path = case.values["FILE"]
    name = next((name for name in case.files if case.file(name) == path), "")
    limit = LIMITS.get(name, 16_777_216)
    return Finding(path, limit, None, f"the file has {os.stat(path).st_size:,} bytes, and its limit is {limit:,}")


def not_json(case):
    """Where a file stops to be a JSON text."""
    name = "TABLE" if case.code == "T1" else "RUN"
    fault = json_places.fault_of(data_of(case, name))
    if not fault:
        return Finding(case.file(name))
    what, place = fault
    return Finding(case.file(name), place, None, f"the file is no JSON text: {what}", remedy="mend the JSON there")


# Latency tables


def table_shape(case):
    """Which key of a table isn't of its form, and how."""
    data, key = data_of(case, "TABLE"), case.values["KEY"]
    table = json.loads(data)
    if not isinstance(table, dict):
        return Finding(case.file("TABLE"), 0, None, "the table is no object", remedy='write an object: `{"add": [[1, 0]], ..}`')
    place = json_places.key_at(data, key)
    if key not in OPERATIONS:
        near = difflib.get_close_matches(key, OPERATIONS, 1, 0.6)
        said = f"`{key}` names no operation" + (f"; the nearest one is `{near[0]}`" if near else "")
        return Finding(case.file("TABLE"), place, None, said, remedy=f"the operations are {quoted(OPERATIONS)}")
    value = table[key]
    bad = [row for row in value if not (isinstance(row, list) and len(row) == 2 and all(map(whole, row)))] if isinstance(value, list) else [value]
    wanted = "a pair of whole numbers" if isinstance(value, list) else "an array of pairs"
    said = f"under `{key}` stands `{json.dumps(bad[0])[:60]}`, and there must be {wanted}"
    return Finding(case.file("TABLE"), place, None, said, remedy=f'write `"{key}": [[1, 0], [33, 1]]`: from which width on, and how many ticks')


def table_range(case):
    data, op = data_of(case, "TABLE"), case.values["OPERATION"]
    before = 0
    for width, ticks in json.loads(data)[op]:
        said = None
        if not 1 <= width <= 128:
            said = f"the width {width} isn't 1 to 128"
        elif width <= before:
            said = f"the width {width} isn't above {before}, that of the row before it"
        elif not 0 <= ticks <= 64:
            said = f"the latency {ticks} isn't 0 to 64"
        if said:
            remedy = "write widths of 1 to 128 that rise from row to row, and latencies of 0 to 64"
            return Finding(case.file("TABLE"), json_places.key_at(data, op), None, f"in the row `[{width}, {ticks}]` of `{op}` {said}", remedy=remedy)
        before = width
    return Finding(case.file("TABLE"), json_places.key_at(data, op))


# Run files


def run_shape(case):
    """What of a run file isn't of its form, or doesn't fit the ports."""
    data, key = data_of(case, "RUN"), case.values["KEY"]
    run, path = json.loads(data), case.file("RUN")
    if not isinstance(run, dict):
        remedy = 'write an object: `{"ticks": .., "inputs": .., "outputs": .., "edges": ..}`'
        return Finding(path, 0, None, "the run file is no object", remedy=remedy)
    place = json_places.key_at(data, key)
    if key not in RUN_KEYS:
        near = difflib.get_close_matches(key, RUN_KEYS, 1, 0.6)
        said = f"`{key}` is a further key" + (f"; the nearest one is `{near[0]}`" if near else "")
        return Finding(path, place, None, said, remedy=f"the keys of a run file are {quoted(RUN_KEYS)}")
    if key not in run:
        if key == "scalars":
            return names_differ(case, data, key, {}, case.ports.scalars)
        return Finding(path, 0, None, f"the key `{key}` is missing", remedy=f"add it, as `{example(key)}`")
    if key in MOST:
        said = f"`{key}` is `{json.dumps(run[key])[:40]}`, and must be a whole number of at most {MOST[key]}"
        return Finding(path, place, None, said, remedy=f"write `{example(key)}`")
    if key == "fill":
        return Finding(path, place, None, "`fill` must be a string of 1 to 32 hexadecimal digits", remedy='write `"fill": "0"`')
    return run_object(case, data, key, run)


def example(key):
    return {"ticks": '"ticks": {"K": 10}', "inputs": '"inputs": {"x": "x.txt"}', "outputs": '"outputs": {"y": "y.txt"}', "edges": '"edges": 1000',
            "pattern": '"pattern": 0', "scalars": '"scalars": {"K.s": "a"}'}.get(key, key)


def run_object(case, data, key, run):
    """What is wrong of one of the objects of a run file: its values, or its names."""
    path, value = case.file("RUN"), run[key]
    place = json_places.key_at(data, key)
    if not isinstance(value, dict):
        return Finding(path, place, None, f"under `{key}` stands no object", remedy=f"write `{example(key)}`")
    for name, what in value.items():
        said = wrong_value(key, what)
        if said:
            remedy = "write hexadecimal digits in quotes: `\"a\"` for 10" if key == "scalars" else f"write `{example(key)}`"
            return Finding(path, json_places.key_at(data, key, name), None, f"under `{key}` the value of `{name}` {said}", remedy=remedy)
    wanted = {"ticks": case.ports.kernels, "scalars": case.ports.scalars, "inputs": case.ports.inputs, "outputs": case.ports.outputs}[key]
    if set(value) != set(wanted):
        return names_differ(case, data, key, value, wanted)
    if key == "outputs":
        return same_file(case, data, run)
    for name, digits in value.items():
        if key == "scalars" and int(digits, 16).bit_length() > wanted[name]:
            said = f"the scalar `{name}` has {wanted[name]} bits, and `{digits}` is a number of {int(digits, 16).bit_length()}"
            return Finding(path, json_places.key_at(data, key, name), None, said)
    return Finding(path, place)


def wrong_value(key, what):
    """What is wrong of a value under a key of a run file, or None."""
    shown = f"is `{json.dumps(what)[:40]}`, and must be "
    if key == "ticks" and not (whole(what) and 0 <= what <= 2**40):
        return shown + "a whole number of at most 2^40"
    if key == "scalars" and not (isinstance(what, str) and HEX.fullmatch(what)):
        return shown + "a string of 1 to 32 hexadecimal digits"
    if key in ("inputs", "outputs") and not isinstance(what, str):
        return shown + "the name of a file"
    return None


def names_differ(case, data, key, value, wanted):
    """The names that are missing under a key, and those that are too much."""
    missing, further = [name for name in wanted if name not in value], [name for name in value if name not in wanted]
    parts = [f"{quoted(missing)} {'is' if len(missing) == 1 else 'are'} missing"] if missing else []
    parts += [f"{quoted(further)} {'is' if len(further) == 1 else 'are'} unknown"] if further else []
    kinds = {"ticks": "kernels", "scalars": "scalars", "inputs": "inputs", "outputs": "outputs"}
    has = f"the {kinds[key]} are {quoted(wanted)}" if wanted else f"there are no {kinds[key]}"
    place = json_places.key_at(data, key, further[0]) if further else json_places.key_at(data, key)
    remedy = f"name under `{key}` exactly what there is: {has}"
    return Finding(case.file("RUN"), place or 0, None, f"under `{key}` {' and '.join(parts)}; {has}", remedy=remedy)


def same_file(case, data, run):
    """Two streams of one file, of which one is an output."""
    files = [(name, file) for name, file in run.get("inputs", {}).items()] if isinstance(run.get("inputs"), dict) else []
    for name, file in run["outputs"].items():
        other = next((other for other, used in files if used == file), None)
        if other is not None:
            said = f"`{name}` and `{other}` have the same file, `{file}`, and an output's file is no other stream's"
            return Finding(case.file("RUN"), json_places.key_at(data, "outputs", name), None, said, remedy="give each stream a file of its own")
        files.append((name, file))
    return Finding(case.file("RUN"), json_places.key_at(data, "outputs"))


def many_words(case):
    data = data_of(case, "RUN")
    ticks = json.loads(data)["ticks"]
    nodes = {kernel.name: kernel.count for kernel in case.project.kernels}
    parts = ", ".join(f"`{name}` {nodes.get(name, 0)} nodes in {count} ticks" for name, count in ticks.items())
    said = f"these are {int(case.values['NUMBER']):,} words, and `expect` takes at most 16,777,216: {parts}"
    return Finding(case.file("RUN"), json_places.key_at(data, "ticks"), None, said)


# Files of words


def word_line(case):
    with open(case.values["FILE"], "rb") as file:
        for number, line in enumerate(file, 1):
            if number == int(case.values["LINE"]):
                return line.decode("latin-1").rstrip("\n")
    return None


def bad_line(case):
    """Why a line says no word."""
    text, line = word_line(case), int(case.values["LINE"])
    digits = "a word is 1 to 32 hexadecimal digits"
    remedy = "write one word a line, in hexadecimal digits, and nothing else"
    if text is None:
        return Finding(case.values["FILE"], None, line, "the file has no such line")
    if not text.strip():
        said = f"the line is empty, and {digits}"
    elif text.endswith("\r"):
        said, remedy = "the line ends with a carriage return, as on Windows", "end lines by a line feed alone: `sed -i 's/\\r$//' FILE`"
    elif text.startswith(("0x", "0X")):
        said, remedy = f"the word begins with `0x`, and {digits} without it", f"write `{text[2:]}`"
    elif text.startswith("-"):
        said = f"the word has a sign, and {digits}"
        remedy = "write the bits of the number: -1 in 8 bits is `ff`"
    elif "." in text:
        said, remedy = f"the word has a point, and {digits}", "write the numerator: 0.5 with 8 bits behind the point is `80`"
    elif text != text.strip() or " " in text.strip():
        said = f"blanks stand in the line, and {digits}"
    elif len(text) > 32:
        said = f"the word has {len(text)} digits, and at most 32"
    else:
        bad = next(mark for mark in text if mark not in "0123456789abcdefABCDEF")
        said = f"`{bad}` is no hexadecimal digit, and {digits}"
    return Finding(case.values["FILE"], None, line, said, remedy=remedy)


def wide_word(case):
    """A word of more bits than those of its stream."""
    text = word_line(case)
    bits = int(text, 16).bit_length()
    inputs = json.loads(data_of(case, "RUN"))["inputs"]
    name = next(name for name, file in inputs.items() if file == case.values["FILE"] and case.ports.inputs.get(name, 0) < bits)
    said = f"`{text}` is a number of {bits} bits, and the words of `{name}` have {case.ports.inputs[name]}; files of words are in hexadecimal digits"
    remedy = f"write a number of at most {case.ports.inputs[name]} bits, in hexadecimal digits"
    return Finding(case.values["FILE"], None, int(case.values["LINE"]), said, remedy=remedy)


FINDERS = {"F1": too_long, "T1": not_json, "T2": table_shape, "T3": table_range, "U1": not_json, "U2": run_shape, "U3": bad_line, "U4": wide_word,
           "X1": many_words}
