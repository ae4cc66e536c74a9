"""The inner product of two vectors that are dealt to the processes: each has its words of one, then those of the other."""

from fannulavo import Word, kernel


@kernel
def inner_product(p):
    m = len(p.memory) // 2
    total = 0
    if p.step == 0:
        for i in range(m):
            total += p.memory[i] * p.memory[m + i]
        p.charge(m)
        p.send(0, [], [total])
        return p.sync()
    for part in p.messages():
        total += part[0]
    if p.pid == 0:
        p.print(total)
    return p.halt()


def expected(memory, args):
    """The words that are printed, in plain Python."""
    return [sum(row[i] * row[len(row) // 2 + i] for row in memory for i in range(len(row) // 2)) % 2**64]


def drawn(rng):
    m = rng.randrange(1, 9)
    return {"memory": [[rng.randrange(2**40) for _ in range(2 * m)] for _ in range(rng.randrange(1, 6))]}


example = {"memory": [[1, 2, 3, 4], [5, 6, 7, 8], [1, 1, 1, 1], [9, 0, 0, 9]], "g": 4, "l": 10}
edits = [Word(2, 0, 5)]
