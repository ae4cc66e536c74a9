"""List ranking by pointer doubling: each process is an element. Word 0 is its successor, word 1 its rank so far, words 2
and 3 receive. The last element is its own successor, with rank 0; all other elements begin with 1."""

from fannulavo import Word, kernel


@kernel
def list_ranking(p):
    if p.step == 0:
        p.push_reg(0, 2)
        return p.sync()
    if p.step > 1:
        p.memory[0] = p.memory[2]
        p.memory[1] += p.memory[3]
        p.charge(1)
    if 1 << min(p.step, 8) - 1 < p.nprocs:
        p.get(p.memory[0], 0, 0, 2, 2)
        return p.sync()
    p.print(p.memory[1])
    return p.halt()


def expected(memory, args):
    """The words that are printed, in plain Python."""

    def rank(element):
        return 0 if memory[element][0] == element else 1 + rank(memory[element][0])

    return [rank(element) for element in range(len(memory))]


def drawn(rng, nprocs=None):
    order = rng.sample(range(nprocs or 9), nprocs or rng.randrange(1, 9))
    place = {element: at for at, element in enumerate(sorted(order))}
    row = [place[element] for element in order]
    following = dict(zip(row, [*row[1:], row[-1]]))
    return {"memory": [[following[e], int(following[e] != e), 0, 0] for e in range(len(row))]}


example = {"memory": [[3, 1, 0, 0], [1, 0, 0, 0], [1, 1, 0, 0], [2, 1, 0, 0]], "g": 4, "l": 10}
edits = [Word(2, 1, 5)]
