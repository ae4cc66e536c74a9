"""Breadth-first search. Process p has the vertices p * v to p * v + v - 1 of a graph, and argument 0 is v. Its memory: for
each vertex its distance from vertex 0 and one more, or 0; where its edges begin; where the last end; then the edges."""

from fannulavo import Word, kernel


def visit(p, vertex):
    """Tells the vertices at the other ends of its edges."""
    v = p.args[0]
    p.memory[vertex] = p.step + 1
    for edge in range(p.memory[v + vertex], p.memory[v + vertex + 1]):
        p.send(p.memory[edge] // v, [], [p.memory[edge] % v])


@kernel
def breadth_first_search(p):
    v = p.args[0]
    if p.step > 0 and p.messages_left == 0:  # nobody has visited a vertex
        p.print(p.memory[0:v])
        return p.halt()
    is_busy = p.step == 0
    if p.step == 0 and p.pid == 0:
        visit(p, 0)
    for message in p.messages():
        if len(message) and p.memory[message[0]] == 0:
            visit(p, message[0])
            is_busy = True
    if is_busy:
        for other in range(p.nprocs):
            p.send(other, [], [])
    return p.sync()


def edges_of(memory, v):
    return {p * v + i: row[row[v + i] : row[v + i + 1]] for p, row in enumerate(memory) for i in range(v)}


def expected(memory, args):
    """The words that are printed, in plain Python."""
    edges, found, level = edges_of(memory, args[0]), {0: 1}, [0]
    while level:
        level = list(dict.fromkeys(w for u in level for w in edges[u] if w not in found))
        found |= dict.fromkeys(level, max(found.values()) + 1)
    return [found.get(vertex, 0) for vertex in edges]


def drawn(rng, is_symmetric=False):
    nprocs, v = rng.randrange(1, 5), rng.randrange(1, 5)
    n = nprocs * v
    pairs = [(rng.randrange(n), rng.randrange(n)) for _ in range(rng.randrange(2 * n))]
    pairs += [(b, a) for a, b in pairs] if is_symmetric else []
    memory = []
    for p in range(nprocs):
        rows = [sorted(b for a, b in pairs if a == p * v + i) for i in range(v)]
        memory.append([0] * v + [2 * v + 1 + sum(map(len, rows[:i])) for i in range(v + 1)] + sum(rows, []))
    return {"memory": memory, "args": [v]}


example = {"memory": [[0, 0, 5, 7, 8, 1, 2, 3], [0, 0, 5, 6, 7, 4, 4], [0, 0, 5, 6, 6, 5]], "args": [2], "g": 4, "l": 10}
edits = [Word(1, 5, 5)]
