"""Programs that a document gives as instructions over registers."""
from __future__ import annotations

from dataclasses import dataclass

from modelled.machines import INDEXED, OPERATORS, SOURCES, Blind, Ended, Everywhere, Machine
from modelled.shapes import is_integer
from modelled.turns import HALT, SYNC, Abort, Context, Program, View

BUDGET = 10_000_000  # where a document does not say
LOOKING_BUDGET = 4_000
REGISTER, NUMBER, PLACE = "a register or a count", "a number below 2^32", "a place of the code"

FIVE = (REGISTER,) * 5
KINDS = {
    **{name: (REGISTER,) * 3 for name in OPERATORS},
    **{name: (REGISTER,) for name in (*SOURCES, "charge", "pop_reg", "take", "abort")},
    **{name: (REGISTER,) * 2 for name in (*INDEXED, "copy", "load", "store", "push_reg", "set_tagsize", "print", "print_block", "store_taken")},
    **{name: FIVE for name in ("put", "put_block", "put_constants", "get", "send", "send_block", "send_constants")},
    "load_at": (REGISTER,) * 3,
    "number": (REGISTER, NUMBER),
    "jump": (PLACE,),
    "unless": (REGISTER, PLACE),
    "unless_lt": (REGISTER, REGISTER, PLACE),
    "sync": (),
    "halt": (),
}


def is_instruction(value, places: int) -> bool:
    """A negative number passes, and is refused later."""
    if not isinstance(value, list) or not value or not isinstance(value[0], str) or value[0] not in KINDS:
        return False
    name, *operands = value
    most = {REGISTER: 255, NUMBER: 2**32 - 1, PLACE: min(places, 2**32 - 1)}
    kinds = KINDS[name]
    return len(kinds) == len(operands) and all(is_integer(each) and each <= most[kind] for kind, each in zip(kinds, operands))


def is_code(value) -> bool:
    return isinstance(value, list) and all(is_instruction(each, len(value)) for each in value)


@dataclass(eq=False)
class Kernel(Program):
    """The instructions that each process follows in each superstep, from the first one on."""

    code: list
    constants: list
    budget: int

    def follow_all(self, machine: Machine, budget: int) -> None:
        """Follows so many instructions. Past the last one the turn ends by sync."""
        for _ in range(budget):
            if machine.place >= len(self.code):
                raise Ended("sync")
            name, *operands = self.code[machine.place]
            machine.follow(name, operands)

    def plan(self, view: View):
        """The acts of a turn, and how it ends."""
        machine = Machine(self.constants, view)
        try:
            self.follow_all(machine, self.budget)
        except Ended as ended:
            return machine.acts, ended.how
        return machine.acts, 6

    def step(self, ctx: Context) -> bool:
        acts, how = self.plan(ctx.view)
        for name, *operands in acts:
            getattr(ctx, name)(*operands)
        if how == "sync":
            return SYNC
        if how == "halt":
            return HALT
        raise Abort(how)

    def looks(self, view: View, address: int) -> bool:
        machine = Blind(self.constants, view)
        try:
            self.follow_all(machine, LOOKING_BUDGET)
        except Ended:
            return any(start <= address < start + length for start, length in machine.looked)
        except Everywhere:
            pass
        return True
