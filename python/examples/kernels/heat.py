"""Heat in a rod: each cell becomes a quarter of the cell before it, twice itself and the cell behind it, rounded down. The
first and the last word of a memory are the neighbours' cells, or an end of the rod. Argument 0 is the number of steps."""

from fannulavo import Word, kernel


@kernel
def heat(p):
    steps = p.args[0]
    n = len(p.memory)
    if n < 3:
        return p.abort(1)
    if p.step == 0:
        p.push_reg(0, 1)
        p.push_reg(n - 1, 1)
        return p.sync()
    if p.step > 1:
        before = p.memory[0]
        own = p.memory[1]
        for i in range(1, n - 1):
            after = p.memory[i + 1]
            p.memory[i] = (before + 2 * own + after) // 4
            before, own = own, after
        p.charge(n - 2)
    if p.step > steps:
        total = 0
        for i in range(1, n - 1):
            total += p.memory[i]
        p.print(total)
        return p.halt()
    if p.pid > 0:
        p.put(p.pid - 1, [p.memory[1]], n - 1, 0)
    if p.pid + 1 < p.nprocs:
        p.put(p.pid + 1, [p.memory[n - 2]], 0, 0)
    return p.sync()


def expected(memory, args):
    """The words that are printed, in plain Python."""
    rod = [memory[0][0], *(word for row in memory for word in row[1:-1]), memory[-1][-1]]
    for _ in range(args[0]):
        inside = [(rod[i - 1] + 2 * rod[i] + rod[i + 1]) % 2**64 // 4 for i in range(1, len(rod) - 1)]
        rod = [rod[0], *inside, rod[-1]]
    ends = [1 + sum(len(row) - 2 for row in memory[:k]) for k in range(len(memory) + 1)]
    return [sum(rod[a:b]) % 2**64 for a, b in zip(ends, ends[1:])]


def drawn(rng):
    memory = [[rng.randrange(2**40) for _ in range(rng.randrange(3, 8))] for _ in range(rng.randrange(1, 6))]
    return {"memory": memory, "args": [rng.randrange(7)]}


example = {"memory": [[100, 0, 0, 0, 0], [0] * 5, [0] * 5, [0, 0, 0, 0, 400]], "args": [6], "limit": 16, "g": 4, "l": 10}
edits = [Word(0, 2, 50)]
