"""The calls of a manager's library, as docs/LANGUAGE.md says them."""
from running import Block, Entry, Link, Refusal, of_kinds
from stream_rules import Type


def add_kernel(run, node):
    """`addKernel(new K(makeKernelParameters(name), ..))`."""
    if len(node.parts) != 1:
        raise Refusal("E1", node.place)
    made = node.parts[0]
    if made.kind != "New":
        run.operands(node.parts, node.place)
        raise Refusal("E2", node.place)
    run.step()
    if made.word not in run.kernel_classes or not made.parts:
        raise Refusal("E1", made.place)
    settings, *more = made.parts
    if settings.kind != "Call" or settings.word != "makeKernelParameters" or settings.word in run.methods:
        run.operands(made.parts, made.place)
        raise Refusal("E2", made.place)
    run.step()
    if len(settings.parts) != 1:
        raise Refusal("E1", settings.place)
    (name,) = run.operands(settings.parts, settings.place)
    if type(name) is not str:
        raise Refusal("E2", settings.place)
    run.port_name(name, settings.place)
    arguments = run.operands(more, made.place)
    if not all(type(argument) in (int, bool, Type) for argument in arguments):
        raise Refusal("E2", made.place)
    run.kernels.append((name, run.kernel_classes[made.word], arguments))
    return Block(len(run.kernels) - 1)


def cpu_stream(is_left):
    def done(run, place, *values):
        if not of_kinds(values, str):
            raise Refusal("E2", place)
        run.port_name(values[0], place)
        (run.to_cpu if is_left else run.from_cpu).append(values[0])
        return Link(("CPU", values[0]), is_left)

    return done


def kernel_port(is_left):
    def done(run, place, *values):
        if not of_kinds(values, Block, str):
            raise Refusal("E2", place)
        run.port_name(values[1], place)
        return Link((values[0].number, values[1]), is_left)

    return done


def join(run, place, left, right):
    if not (of_kinds((left, right), Link, Link) and left.is_left and not right.is_left):
        raise Refusal("E2", place)
    run.joins.append((left.end, right.end))


MANAGER_CALLS = {"addStreamFromCPU": Entry((1,), cpu_stream(False)), "addStreamToCPU": Entry((1,), cpu_stream(True))}
# the value before the dot is the first argument
MANAGER_METHODS = {"getInput": Entry((2,), kernel_port(True)), "getOutput": Entry((2,), kernel_port(False))}
