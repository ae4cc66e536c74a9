"""The sieve of Eratosthenes. Argument 0 is b: process p has a word for each of the numbers p * b to p * b + b - 1, which
becomes 1 for a number that is no prime. Process 0 finds the primes up to the root, and sends them to all."""

from fannulavo import Argument, kernel


def strike(p, prime):
    """Strikes the multiples of a prime out, from its square on."""
    b = p.args[0]
    begin = p.pid * b
    first = max((begin + prime - 1) // prime * prime, prime * prime)
    for number in range(min(first - begin, b), b):
        if (begin + number) % prime == 0:
            p.memory[number] = 1


@kernel
def sieve(p):
    b = p.args[0]
    if p.step == 0:
        assert p.nprocs <= b <= len(p.memory)  # so the primes up to the root are those of process 0
        if p.pid == 0:
            p.memory[0], p.memory[1] = 1, 1
            for number in range(2, b):
                if p.memory[number] == 0 and number * number < b * p.nprocs:
                    strike(p, number)
                    for other in range(1, p.nprocs):
                        p.send(other, [], [number])
            p.charge(b)
        return p.sync()
    for prime in p.messages():
        strike(p, prime[0])
        p.charge(b)
    count = 0
    for number in range(b):
        count += p.memory[number] == 0
    p.print(count)
    return p.halt()


def expected(memory, args):
    """The words that are printed, in plain Python."""
    blocks = [range(p * args[0], p * args[0] + args[0]) for p in range(len(memory))]
    return [sum(n > 1 and all(n % d for d in range(2, n)) for n in block) for block in blocks]


def drawn(rng):
    nprocs = rng.randrange(1, 6)
    b = rng.randrange(max(nprocs, 2), 20)
    return {"memory": [[0] * b for _ in range(nprocs)], "args": [b]}


example = {"memory": [[0] * 10 for _ in range(5)], "args": [10], "g": 4, "l": 10}
edits = [Argument(4, 0, 9)]
