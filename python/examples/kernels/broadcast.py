"""A broadcast: the process that argument 0 names puts its word 0 to all other processes."""

from fannulavo import Word, kernel


@kernel
def broadcast(p):
    if p.step == 0:
        p.push_reg(0, 1)
        return p.sync()
    if p.step == 1:
        if p.args[0] == p.pid:
            word = p.memory[0]
            for other in range(p.nprocs):
                if other != p.pid:
                    p.put(other, [word], 0, 0)
        return p.sync()
    p.print(p.memory[0])
    return p.halt()


def expected(memory, args):
    """The words that are printed, in plain Python."""
    return [memory[args[0]][0]] * len(memory)


def drawn(rng):
    nprocs = rng.randrange(1, 7)
    return {"memory": [[rng.randrange(2**63), 5] for _ in range(nprocs)], "args": [rng.randrange(nprocs)]}


example = {"memory": [[7], [0], [0], [0]], "args": [0], "g": 4, "l": 10}
edits = [Word(2, 0, 9)]
