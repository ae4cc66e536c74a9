"""A number-theoretic Fourier transform of n words modulo a prime, in bits reversed. Arguments: the prime, below 2**32, and
a root of unity of order n, a power of two. A memory: the own words, and room for as many of a partner."""

from fannulavo import Word, kernel


def power(base, exponent, prime):
    result = 1
    while exponent:
        result = result * base % prime if exponent & 1 else result
        base, exponent = base * base % prime, exponent >> 1
    return result


@kernel
def fourier_transform(p):
    prime, root = p.args[0], p.args[1]
    m = len(p.memory) // 2
    if p.step == 0:
        p.push_reg(0, m)
        return p.sync()
    n = m * p.nprocs
    half = n >> p.step - 1  # the distance of the words whose sum and difference the words of the partner make
    if p.step > 1:
        upper = p.pid * m & half
        for i in range(m):
            own, other = p.memory[i], p.memory[m + i]
            twiddle = power(root, (p.pid * m + i) % half * (n // (2 * half)), prime)
            p.memory[i] = (other + prime - own) * twiddle % prime if upper else (own + other) % prime
        p.charge(m)
    if half > m:
        p.get(p.pid ^ half // 2 // m, 0, 0, m, m)
        return p.sync()
    while half > 1:
        half //= 2
        for i in range(m):
            if i & half == 0:
                a, b = p.memory[i], p.memory[i + half]
                p.memory[i] = (a + b) % prime
                p.memory[i + half] = (a + prime - b) * power(root, i % half * (n // (2 * half)), prime) % prime
        p.charge(m)
    p.print(p.memory[0:m])
    return p.halt()


def expected(memory, args):
    """The words that are printed, in plain Python."""
    words, (prime, root) = [word for row in memory for word in row[: len(row) // 2]], args
    order = [int(f"{k:0{len(words).bit_length() - 1}b}"[::-1], 2) for k in range(len(words))]
    return [sum(word * pow(root, i * k, prime) for i, word in enumerate(words)) % prime for k in order]


def drawn(rng):
    nprocs, m, prime = 1 << rng.randrange(4), 1 << rng.randrange(4), 998_244_353
    memory = [[rng.randrange(prime) for _ in range(m)] + [0] * m for _ in range(nprocs)]
    return {"memory": memory, "args": [prime, pow(3, (prime - 1) // (nprocs * m), prime)]}


example = {"memory": [[1, 2, 0, 0], [3, 4, 0, 0], [5, 6, 0, 0], [7, 8, 0, 0]], "args": [17, 2], "g": 4, "l": 10}
edits = [Word(3, 1, 9)]
