"""How fine the stamps of each trace are, and which trace of a host its own bounds of stamps are for."""

from collections.abc import Iterable
from dataclasses import dataclass

from inputs import Input

# A log with fewer rows does not tell how fine its stamps are.
ROWS_LEAST = 3
# But few stamps that are all whole ms, or coarser, are hardly so by chance.
FEW_LEAST = 10**6


@dataclass(frozen=True)
class Fineness:
    """What all stamps of a label are multiples of, in ns, and the file of it that shows it."""

    resolution: int
    shown_by: Input

    @property
    def is_capture(self) -> bool:
        return self.shown_by.kind == "capture"

    @property
    def is_told(self) -> bool:
        """Returns whether there are enough stamps to tell."""
        return self.is_capture or len(self.shown_by.content.rows) >= ROWS_LEAST

    @property
    def kind(self) -> tuple[bool, bool, int]:
        """Returns what traces of one kind share, the finest kind first: captures are of one that count in one unit, whatever their stamps are."""
        return not self.is_told, not self.is_capture, self.shown_by.content.unit if self.is_capture else self.resolution


def is_alike(it: Fineness, its_host: Fineness) -> bool:
    """Returns whether the bounds of a host do for one of its traces."""
    if it.kind == its_host.kind or not its_host.is_told:
        return True
    # (of few rows the stamps are as fine as they look, or finer)
    return it.resolution == its_host.resolution if it.is_told else it.resolution <= max(its_host.resolution, FEW_LEAST - 1)


def fineness_of(inputs: Iterable[Input]) -> dict[str, Fineness]:
    """Returns how fine the stamps of each label are, by the coarsest of its files."""
    found: dict[str, Fineness] = {}
    for it in inputs:
        own = Fineness(it.content.digits(), it)
        if it.label not in found or (own.is_told, own.resolution) > (found[it.label].is_told, found[it.label].resolution):
            found[it.label] = own
    return found


def of_host(found: Iterable[Fineness]) -> Fineness:
    """Returns which of the traces of a host its bounds are for: the coarsest of the finest kind, captures before logs."""
    traces = list(found)
    kind = min(it.kind for it in traces)
    return max((it for it in traces if it.kind == kind), key=lambda it: it.resolution)
