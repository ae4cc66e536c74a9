"""Random kernels: scripts, and random code."""
from drawn_scripts import draw_script
from lowering import lowered
from modelled.kernels import KINDS, NUMBER, PLACE, REGISTER

REGISTERS = (0, 1, 2, 3, 4, 5, 6, 7, 254, 255)
ENDS = ("sync", "halt", "abort")


def with_kernel(values):
    """The values of a document's keys, with a script as a kernel."""
    if "script" not in values:
        return values
    kernel = lowered(values["script"])
    rest = {key: value for key, value in values.items() if key != "script"}
    return {"kernel": kernel.instructions(), "constants": kernel.constants, **rest}


def draw_operand(draw, kind, places):
    if kind == REGISTER:
        return draw.randrange(4) if draw.happens(0.3) else draw.choice(REGISTERS)
    if kind == NUMBER:
        return draw.choice((2**32 - 1, 2**31)) if draw.happens(0.03) else draw.randrange(6)
    assert kind == PLACE
    return draw.randint(0, places)


def draw_instruction(draw, names, places):
    name = draw.choice(names)
    return [name, *(draw_operand(draw, kind, places) for kind in KINDS[name])]


def draw_code(draw):
    """Random instructions behind a superstep that registers the memory, on few processes. Most turns end soon."""
    nprocs, size = draw.count(1, 2, 2, 3), draw.length(*range(5))
    opening = [["memory_len", 0], ["step", 1], ["unless", 1, 4], ["jump", 6], ["push_reg", 255, 0], ["sync"]]
    count = len(opening) + draw.randrange(40)
    names = [name for name in KINDS if name not in ENDS] + list(draw.choice((ENDS, ("halt",), ())))
    names += ["number"] * draw.randrange(12) + ["load", "load_at", "store", "put_block", "take", "send"] * draw.randrange(4)
    code = opening + [draw_instruction(draw, names, count) for _ in range(count - len(opening))]
    keys = {"kernel": code, "constants": draw.words(draw.randrange(4)), "budget": draw.choice((0, 1, 7, 100, 100, 1000))}
    if draw.happens(0.2):
        del keys["constants"]
    return keys, [draw.words(size) for _ in range(nprocs)], [draw.words(draw.randrange(3)) for _ in range(nprocs)]


def draw_kernel(draw):
    """The keys of a kernel, or a script, with the memories and the arguments of its processes."""
    if draw.happens(0.4):
        return draw_code(draw)
    script, memories, args = draw_script(draw)
    return {"script": script}, memories, args
