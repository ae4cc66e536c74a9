"""A matrix times a vector. Argument 0 is b, the rows of a process. Its memory: b rows, its b words of the vector, room
for the whole vector, room for its b words of the product."""

from fannulavo import Word, kernel


@kernel
def matrix_vector(p):
    b = p.args[0]
    if b > 64:
        return p.abort(2)
    n = p.nprocs * b
    own = b * n
    vector = own + b
    product = vector + n
    if p.step == 0:
        if product + b > len(p.memory):
            return p.abort(1)
        p.set_tagsize(1)
        return p.sync()
    if p.step == 1:
        for other in range(p.nprocs):
            p.send(other, [p.pid], p.memory[own : own + b])
        return p.sync()
    for block in p.messages():
        if len(block) != b or block.tag[0] >= p.nprocs:
            return p.abort(3)
        block.move_into(vector + block.tag[0] * b)
    for row in range(b):
        total = 0
        for column in range(n):
            total += p.memory[row * n + column] * p.memory[vector + column]
        p.memory[product + row] = total
    p.charge(b * n)
    p.print(p.memory[product : product + b])
    return p.halt()


def expected(memory, args):
    """The words that are printed, in plain Python."""
    b, n = args[0], args[0] * len(memory)
    vector = [word for row in memory for word in row[b * n : b * n + b]]
    rows = [memory[row // b][row % b * n : row % b * n + n] for row in range(n)]
    return [sum(map(int.__mul__, row, vector)) % 2**64 for row in rows]


def drawn(rng, nprocs=None, b=None):
    nprocs, b = nprocs or rng.randrange(1, 5), b or rng.randrange(1, 4)
    n = nprocs * b
    return {"memory": [[rng.randrange(2**40) for _ in range(b * n + b)] + [0] * (n + b) for _ in range(nprocs)], "args": [b]}


example = {"memory": [[p + q for q in range(8)] + [1, p] + [0] * 6 for p in range(2)], "args": [2], "g": 4, "l": 10}
edits = [Word(0, 1, 9)]
