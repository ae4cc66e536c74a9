"""A histogram. Arguments: m, and c. The first m words of a memory are numbers below c * nprocs, and process p counts those
from p * c on. Then there is room for a count of each number."""

from fannulavo import Word, kernel


@kernel
def histogram(p):
    m, c = p.args[0], p.args[1]
    if p.step == 0:
        for i in range(m):
            assert p.memory[i] < c * p.nprocs
            p.memory[m + p.memory[i]] += 1
        p.charge(m)
        for other in range(p.nprocs):
            p.send(other, [], p.memory[m + other * c : m + other * c + c])
        return p.sync()
    for i in range(c):
        p.memory[m + p.pid * c + i] = 0
    for counts in p.messages():
        for i in range(c):
            p.memory[m + p.pid * c + i] += counts[i]
        p.charge(c)
    p.print(p.memory[m + p.pid * c : m + p.pid * c + c])
    return p.halt()


def expected(memory, args):
    """The words that are printed, in plain Python."""
    words = [word for row in memory for word in row[: args[0]]]
    return [words.count(number) for number in range(args[1] * len(memory))]


def drawn(rng):
    nprocs, m, c = rng.randrange(1, 6), rng.randrange(9), rng.randrange(1, 5)
    return {"memory": [[rng.randrange(c * nprocs) for _ in range(m)] + [0] * c * nprocs for _ in range(nprocs)], "args": [m, c]}


example = {"memory": [[0, 1, 1, 5] + [0] * 6, [2, 2, 3, 5] + [0] * 6, [5, 0, 4, 4] + [0] * 6], "args": [4, 2], "g": 4, "l": 10}
edits = [Word(0, 3, 4)]
