"""What a pick chooses, by which phase, and why it passes a piece over."""
from typing import NamedTuple

from compare.passing import REASONS, free_blocks, wanted_piece
from reference.blocks import Work
from reference.options import (
    FLAG_BACKUP1,
    FLAG_END_GAME,
    FLAG_EXTENT_AFFINITY,
    FLAG_PRIO_SEQUENTIAL_PIECES,
    FLAG_PRIORITIZE_PARTIALS,
    FLAG_RANDOM_PIECES,
    FLAG_RAREST_FIRST,
    FLAG_REVERSE_RAREST_FIRST,
    FLAG_REVERSE_SEQUENTIAL,
    FLAG_SEQUENTIAL_PIECES,
    FLAG_SUGGESTED_PIECES,
)
from reference.pick_pieces import run_phases, start_pick

# The flag that a phase sets before its first block: its name and colour.
PHASES = {
    FLAG_PRIORITIZE_PARTIALS: ("partials", "#b45309"),
    FLAG_SUGGESTED_PIECES: ("suggestions", "#7c3aed"),
    FLAG_PRIO_SEQUENTIAL_PIECES: ("sequential, priority 7", "#be123c"),
    FLAG_SEQUENTIAL_PIECES: ("sequential", "#e11d48"),
    FLAG_REVERSE_SEQUENTIAL: ("sequential, backwards", "#fb7185"),
    FLAG_EXTENT_AFFINITY: ("recent extents", "#0e7490"),
    FLAG_RAREST_FIRST: ("rarest first", "#1d4ed8"),
    FLAG_REVERSE_RAREST_FIRST: ("rarest first, backwards", "#60a5fa"),
    FLAG_RANDOM_PIECES: ("random", "#15803d"),
    FLAG_BACKUP1: ("set aside", "#a16207"),
    FLAG_END_GAME: ("end game", "#334155"),
}


class Chosen(NamedTuple):
    """The blocks in their order, the flag of the phase that gave each, what the pick has come to, and reasons by piece passed over."""

    blocks: tuple
    phases: tuple
    work: Work
    passed: dict


class Traced(Work):
    """A pick that notes the phase of each block: phases come in turn, and the newest flag that is a phase's is the phase at work."""

    def _replace(self, **fields):
        after = super()._replace(**fields)
        phase = self.__dict__.get("phase", 0)
        for flag in PHASES:
            if after.flags & flag and not self.flags & flag:
                phase = flag
        after.phase = phase
        after.by = self.__dict__.get("by", ()) + (phase,) * (len(after.out) - len(self.out))
        return after


def passed_over(s, ask, w):
    """Where blocks are still wanted: the reasons why a piece with a free block that did not come was passed over."""
    if w.left <= 0:
        return {}
    given, reasons = set(w.out), {}
    for i in range(len(s.pieces)):
        if wanted_piece(s, ask, i) and any((i, j) not in given for j in free_blocks(s, i)):
            reasons[i] = [name for name, holds in REASONS.items() if holds(s, ask, i)]
    return reasons


def choose(s, ask, draws):
    w = run_phases(Traced(*start_pick(s, ask)), draws)
    return Chosen(w.out, w.__dict__.get("by", ()), w, passed_over(s, ask, w))
