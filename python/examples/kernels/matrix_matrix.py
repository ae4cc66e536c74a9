"""A matrix times a matrix on a grid of q times q processes. Arguments: q, and b for blocks of b times b words. A memory:
the own block of each matrix, room for its block of the product, and for the blocks of its row and of its column."""

from fannulavo import Word, kernel


@kernel
def matrix_matrix(p):
    q = p.args[0]
    b = p.args[1]
    size = b * b
    across = 3 * size  # the blocks of the first matrix in the own row of the grid
    down = across + q * size  # those of the second in the own column
    if p.step == 0:
        assert q * q == p.nprocs and down + q * size <= len(p.memory)
        p.push_reg(0, 2 * size)
        return p.sync()
    if p.step == 1:
        for k in range(q):
            p.get(p.pid // q * q + k, 0, 0, across + k * size, size)
            p.get(k * q + p.pid % q, 0, size, down + k * size, size)
        return p.sync()
    for i in range(b):
        for j in range(b):
            total = 0
            for k in range(q * b):
                block = k // b * size
                total += p.memory[across + block + i * b + k % b] * p.memory[down + block + k % b * b + j]
            p.memory[2 * size + i * b + j] = total
    p.charge(q * b * size)
    p.print(p.memory[2 * size : 3 * size])
    return p.halt()


def expected(memory, args):
    """The words that are printed, in plain Python."""
    (q, b), n = args, args[0] * args[1]
    a, c = ([[memory[i // b * q + j // b][s + i % b * b + j % b] for j in range(n)] for i in range(n)] for s in (0, b * b))
    product = [[sum(a[i][k] * c[k][j] for k in range(n)) % 2**64 for j in range(n)] for i in range(n)]
    return [product[pid // q * b + i][pid % q * b + j] for pid in range(q * q) for i in range(b) for j in range(b)]


def drawn(rng):
    q, b = rng.randrange(1, 4), rng.randrange(1, 4)
    rows = [[rng.randrange(2**40) for _ in range(2 * b * b)] + [0] * (b * b + 2 * q * b * b) for _ in range(q * q)]
    return {"memory": rows, "args": [q, b]}


example = {"memory": [[p, 1, 2, 3, 4, 5, 6, p] + [0] * 20 for p in range(4)], "args": [2, 2], "g": 4, "l": 10}
edits = [Word(1, 0, 9)]
