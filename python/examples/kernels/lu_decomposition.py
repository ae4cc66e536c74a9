"""LU decomposition modulo a prime, without exchanges of rows. Argument 0 is the prime, below 2**32. Process p has row p of
the matrix, and room for a second row. At the end a row has its part of L, below the diagonal, and of U."""

from fannulavo import Word, kernel


def inverse(word, prime):
    result, exponent = 1, prime - 2
    while exponent:
        if exponent & 1:
            result = result * word % prime
        word = word * word % prime
        exponent >>= 1
    return result


@kernel
def lu_decomposition(p):
    prime = p.args[0]
    n = p.nprocs
    if p.step == 0:
        p.push_reg(n, n)
        return p.sync()
    k = p.step - 1  # the column that is made 0, by the row that came
    if k > 0 and p.pid >= k:
        pivot = p.memory[n + k - 1]
        assert pivot != 0
        factor = p.memory[k - 1] * inverse(pivot, prime) % prime
        p.memory[k - 1] = factor
        for i in range(k, n):
            p.memory[i] = (p.memory[i] + (prime - factor) * p.memory[n + i]) % prime
        p.charge(n - k)
    if p.step == n:
        p.print(p.memory[0:n])
        return p.halt()
    if p.pid == k:
        for below in range(k + 1, n):
            p.put(below, p.memory[k:n], n, k)
    return p.sync()


def expected(memory, args):
    """The words that are printed, in plain Python."""
    n, prime = len(memory), args[0]
    rows = [row[:n] for row in memory]
    for k in range(n):
        for row in rows[k + 1 :]:
            row[k] = row[k] * pow(rows[k][k], -1, prime) % prime
            row[k + 1 :] = [(a - row[k] * b) % prime for a, b in zip(row[k + 1 :], rows[k][k + 1 :])]
    return sum(rows, [])


def drawn(rng):
    n, prime = rng.randrange(1, 7), 4_294_967_291
    return {"memory": [[rng.randrange(1, prime) for _ in range(n)] + [0] * n for _ in range(n)], "args": [prime]}


example = {"memory": [[2, 1, 1, 0, 0, 0], [4, 3, 3, 0, 0, 0], [8, 7, 9, 0, 0, 0]], "args": [101], "g": 4, "l": 10}
edits = [Word(2, 2, 10)]
