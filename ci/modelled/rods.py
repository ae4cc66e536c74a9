"""Heat in a rod that is in one piece. By it those runs of the model are tried in which the rod is dealt to processes."""
from __future__ import annotations

from modelled.turns import MODULUS, Words


def joined(memories: tuple[Words, ...]) -> list[int]:
    """The rod in one piece: the fixed word before the cells of process 0, all cells in a row, and the fixed word after those of the last process."""
    cells = [cell for memory in memories for cell in memory[1:-1]]
    return [memories[0][0], *cells, memories[-1][-1]]


def later(rod: list[int]) -> list[int]:
    """The rod a time step later: each cell is a quarter of the word before it, twice its own and the word after it. The fixed words stay."""
    cells = [(before + 2 * own + after) % MODULUS // 4 for before, own, after in zip(rod, rod[1:], rod[2:])]
    return [rod[0], *cells, rod[-1]]


def dealt(before: list[int], now: list[int], memories: tuple[Words, ...]) -> list[Words]:
    """The memories that hold the rod, in pieces as long as these: the cells as they are now, and beside them the neighbours' nearest cells as they were
    before the last time step."""
    pieces, at = [], 0
    for memory in memories:
        end = at + len(memory)  # one past the word after the piece
        pieces.append((before[at], *now[at + 1 : end - 1], before[end - 1]))
        at = end - 2
    return pieces


def check_pieces(memories: tuple[Words, ...], time_steps: int, left: list[Words]) -> None:
    """Sees that these memories are left after so many time steps. Without a time step nothing is put, and nothing changes."""
    if time_steps == 0:
        assert left == list(memories), "without a time step a memory changed"
        return
    before = now = joined(memories)
    for _ in range(time_steps):
        before, now = now, later(now)
    assert left == dealt(before, now, memories), "the pieces are not those of the rod in one piece"
