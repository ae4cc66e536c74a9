"""Conway's Life on a torus. Arguments: the number of generations, and w, the cells of a row. A memory has its rows of cells
with a row of each neighbour around them, and then as many words as room."""

from fannulavo import Word, kernel


@kernel
def life(p):
    generations, w = p.args[0], p.args[1]
    size = len(p.memory) // 2
    rows = size // w - 2
    if p.step == 0:
        p.push_reg(0, size)
        return p.sync()
    if p.step > 1:
        for i in range(w, size - w):
            begin, column = i // w * w, i % w
            left, right = (column + w - 1) % w, (column + 1) % w
            count = p.memory[begin + left] + p.memory[begin + right]
            for j in range(begin - w, begin + w + 1, 2 * w):
                count += p.memory[j + left] + p.memory[j + column] + p.memory[j + right]
            p.memory[size + i] = count == 3 or (count == 2 and p.memory[i] == 1)
        for i in range(w, size - w):
            p.memory[i] = p.memory[size + i]
        p.charge(rows * w)
    if p.step > generations:
        for row in range(1, rows + 1):
            p.print(p.memory[row * w : row * w + w])
        return p.halt()
    p.put((p.pid + p.nprocs - 1) % p.nprocs, p.memory[w : 2 * w], 0, size - w)
    p.put((p.pid + 1) % p.nprocs, p.memory[size - 2 * w : size - w], 0, 0)
    return p.sync()


def expected(memory, args):
    """The words that are printed, in plain Python."""
    w = args[1]
    grid = [row[i : i + w] for row in memory for i in range(w, len(row) // 2 - w, w)]
    for _ in range(args[0]):
        around = [
            [sum(grid[(i + a) % len(grid)][(j + b) % w] for a in (-1, 0, 1) for b in (-1, 0, 1)) for j in range(w)]
            for i in range(len(grid))
        ]
        grid = [[int(s == 3 or (s == 4 and cell)) for s, cell in zip(*rows)] for rows in zip(around, grid)]
    return sum(grid, [])


def drawn(rng, cells=None):
    nprocs, rows, w = rng.randrange(1, 5), rng.randrange(1, 4), rng.randrange(1, 7)
    own = [[rng.randrange(2) for _ in range(rows * w)] for _ in range(nprocs)]
    return {"memory": [[0] * w + row + [0] * (w + (rows + 2) * w) for row in own], "args": [rng.randrange(5), w]}


example = {"memory": [[0] * 40, [0] * 8 + [1] * 3 + [0] * 29, [0] * 40, [0] * 40], "args": [6, 5], "g": 4, "l": 10}
edits = [Word(3, 7, 1)]
