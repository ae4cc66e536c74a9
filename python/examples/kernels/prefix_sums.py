"""Prefix sums: process p prints the sum of the words 0 of processes 0 to p. Word 1 receives."""

from itertools import accumulate

from fannulavo import Word, kernel


def distance(s):
    return 1 << min(s, 8) - 1


@kernel
def prefix_sums(p):
    if p.step == 0:
        p.push_reg(0, 2)
        return p.sync()
    if p.step > 1 and p.pid >= distance(p.step - 1):
        p.memory[0] += p.memory[1]
        p.charge(1)
    reach = distance(p.step)
    if reach >= p.nprocs:
        p.print(p.memory[0])
        return p.halt()
    if p.pid + reach < p.nprocs:
        p.put(p.pid + reach, [p.memory[0]], 0, 1)
    return p.sync()


def expected(memory, args):
    """The words that are printed, in plain Python."""
    return [total % 2**64 for total in accumulate(row[0] for row in memory)]


def drawn(rng):
    return {"memory": [[rng.randrange(2**62), 0] for _ in range(rng.randrange(1, 12))]}


example = {"memory": [[1, 0], [2, 0], [3, 0], [4, 0], [5, 0], [6, 0], [7, 0], [8, 0]], "g": 4, "l": 10}
edits = [Word(6, 0, 0)]
