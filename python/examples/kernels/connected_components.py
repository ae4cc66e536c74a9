"""Connected components of an undirected graph. The memory is that of breadth_first_search.py, each edge stands at both of
its vertices, and the word of a vertex becomes the least vertex of its component."""

from fannulavo import Word, kernel


def tell(p, vertex, label):
    v = p.args[0]
    p.memory[vertex] = label
    for edge in range(p.memory[v + vertex], p.memory[v + vertex + 1]):
        p.send(p.memory[edge] // v, [], [p.memory[edge] % v, label])


@kernel
def connected_components(p):
    v = p.args[0]
    if p.step == 0:
        for vertex in range(v):
            tell(p, vertex, p.pid * v + vertex)
    elif p.messages_left == 0:  # no label has changed
        p.print(p.memory[0:v])
        return p.halt()
    is_busy = p.step == 0
    for message in p.messages():
        if len(message) and message[1] < p.memory[message[0]]:
            tell(p, message[0], message[1])
            is_busy = True
    if is_busy:
        for other in range(p.nprocs):
            p.send(other, [], [])
    return p.sync()


def expected(memory, args):
    """The words that are printed, in plain Python."""
    v = args[0]
    labels = list(range(v * len(memory)))
    pairs = [(p * v + i, w) for p, row in enumerate(memory) for i in range(v) for w in row[row[v + i] : row[v + i + 1]]]
    for _ in labels:
        for a, b in pairs:
            labels[a] = labels[b] = min(labels[a], labels[b])
    return labels


def drawn(rng):
    nprocs, v = rng.randrange(1, 5), rng.randrange(1, 5)
    pairs = {(rng.randrange(nprocs * v), rng.randrange(nprocs * v)) for _ in range(nprocs * v)}
    memory = []
    for p in range(nprocs):
        rows = [[b for a, b in sorted(pairs | {(b, a) for a, b in pairs}) if a == p * v + i] for i in range(v)]
        memory.append([0] * v + [2 * v + 1 + sum(map(len, rows[:i])) for i in range(v + 1)] + sum(rows, []))
    return {"memory": memory, "args": [v]}


example = {"memory": [[0, 0, 5, 6, 7, 1, 0], [0, 0, 5, 6, 7, 3, 2], [0, 0, 5, 6, 7, 5, 4]], "args": [2], "g": 4, "l": 10}
edits = [Word(1, 6, 4), Word(2, 5, 3), Word(1, 5, 2), Word(2, 6, 5)]
