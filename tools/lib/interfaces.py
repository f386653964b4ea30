"""Which interface of a capture of several has the packets that other hosts know, where each packet is there once for each."""

from collections import Counter, defaultdict
from collections.abc import Iterable
from dataclasses import dataclass

from headers import Key
from sights import Sight, View, once

# Where so large a part of a capture's packets is there on several interfaces, each packet is; and where an interface has so large a part of
# what the best one has in common with other hosts, it does as well.
TWICE_PART, AS_WELL_PART = 0.2, 0.98


@dataclass
class Candidate:
    """An interface: how many of its packets are known at another host, and how many are told to be nearer to the cable than on others."""

    number: int
    known: int
    outer: int
    packets: int

    @property
    def rank(self) -> tuple[int, int, int]:
        return self.outer, self.packets, -self.number


def by_interface(view: View) -> dict[int, dict[Key, Sight]]:
    """Returns for each interface the packets of keys that are there once."""
    return {number: once((it.key, it) for it in view.sights if it.interface == number) for number in view.interfaces()}


def known_elsewhere(view: View, views: Iterable[View]) -> set[Key]:
    """Returns the keys that other hosts have, each once on an interface."""
    found: set[Key] = set()
    for other in views:
        if other.host != view.host:
            found.update(other.once().keys(), *(keys.keys() for keys in by_interface(other).values()))
    return found


def votes_of_outer(keys: dict[int, dict[Key, Sight]]) -> Counter[int]:
    """Returns how often each interface is the outer one of several that have a packet: there it is received first, and sent last."""
    votes: Counter[int] = Counter()
    where: dict[Key, list[tuple[int, Sight]]] = defaultdict(list)
    for number, found in keys.items():
        for key, it in found.items():
            where[key].append((number, it))
    for places in where.values():
        ways = {it.is_sent for _, it in places}
        stamps = [it.stamp for _, it in places]
        if len(places) > 1 and len(ways) == 1 and None not in ways and len(set(stamps)) == len(stamps):
            choose = max if True in ways else min
            votes[choose(places, key=lambda place: place[1].stamp)[0]] += 1
    return votes


class Interfaces:
    """Chooses the interfaces of labels; of two labels of one host that have the same files each has one of its own."""

    def __init__(self, views: list[View]) -> None:
        self.views = views
        self.told: dict[str, list[str]] = {}
        self.unknown: list[str] = []
        files = Counter((it.host, it.origins) for it in views)
        taken: dict[tuple[str, tuple[str, ...]], set[int]] = defaultdict(set)
        for view in views:
            numbers = view.interfaces()
            if len(numbers) < 2:
                continue
            of_files = (view.host, view.origins)
            chosen = self.chosen(view, taken[of_files], files[of_files] > 1)
            if chosen is not None:
                taken[of_files].add(chosen)
                view.interface = chosen
        for view in views:
            if view.interface is not None:
                view.sights = [it for it in view.sights if it.interface == view.interface]

    def chosen(self, view: View, taken: set[int], is_again: bool) -> int | None:
        """Returns the interface whose packets are to have keys, or None where those of all may."""
        keys, elsewhere = by_interface(view), known_elsewhere(view, self.views)
        often = Counter(key for found in keys.values() for key in found)
        twice = sum(count > 1 for count in often.values())
        if not is_again and twice <= TWICE_PART * len(often):
            return None
        outer = votes_of_outer(keys)
        # (what a label of the same files has need not be known a second time)
        elsewhere -= {key for number in taken for key in keys[number]}
        candidates = [Candidate(number, len(found.keys() & elsewhere), outer[number], len(found)) for number, found in keys.items() if number not in taken]
        most = max((it.known for it in candidates), default=0)
        if not candidates or not is_again and self.is_needless(view, most, elsewhere, {key for key, count in often.items() if count > 1}):
            return None
        best = max((it for it in candidates if it.known >= AS_WELL_PART * most), key=lambda it: it.rank)
        self.told[view.label] = self.words(view, twice, candidates, best, is_again)
        return best.number

    def is_needless(self, view: View, most: int, elsewhere: set[Key], twice: set[Key]) -> bool:
        """Returns whether one interface would have no more packets that are known elsewhere than all have; then it says what more there is."""
        known = len(view.once().keys() & elsewhere)
        lost = len(twice & elsewhere)
        if known and most <= known and lost:
            self.unknown.append(f"what {lost} packets of {view.label} that other hosts have are messages of, since they are there on several interfaces: name its file once "
                                f"more, for the other side, as {view.label}-2@{view.host}=FILE")  # fmt: skip
        return most <= known and (most > 0 or len({it.host for it in self.views}) < 2)

    def words(self, view: View, twice: int, candidates: list[Candidate], best: Candidate, is_again: bool) -> list[str]:
        """Returns why this one was chosen, as lines."""
        shown = ", ".join(f"{it.known} of {name_of(view, it.number)}" for it in candidates)
        first = f"{twice} packets are there on several interfaces, and a key that is there twice is none"
        if is_again:
            first = "Another label has the same files: each is to have an interface of its own"
        as_well = sum(it.known >= AS_WELL_PART * best.known for it in candidates) > 1
        why = "has most of them" if not as_well else "is nearest to the cable, as far as stamps show it" if best.outer else "is the first that does as well as any"
        return [f"{first}.", f"Known at other hosts are {shown}: {best.number} {why}."]


def name_of(view: View, number: int) -> str:
    """Returns an interface with its name, where pcapng tells it and there is one for each number."""
    name = view.names[number] if number < len(view.names) else ""
    return f"{number} ({name})" if name.isprintable() and name not in ("", "any") else str(number)
