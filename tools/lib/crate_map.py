"""The crates of crates.txt: their layers, and what each stands on."""

from dataclasses import dataclass


@dataclass(frozen=True)
class Crate:
    """A crate with its layer, and what it stands on: crates of the repository, and libraries of the kit."""

    name: str
    layer: str
    uses: tuple[str, ...]
    libraries: tuple[str, ...]


class CrateMap:
    """The crates in the order of crates.txt, in which each stands behind those that it stands on. Else it is a ValueError."""

    def __init__(self, text: str) -> None:
        self.crates: dict[str, Crate] = {}
        layer = ""
        for line in text.splitlines():
            name, colon, uses = line.partition("#")[0].partition(":")
            if line.startswith("#"):
                layer = line[1:].strip()
            elif colon:
                self.add(name.split()[0], layer, uses.replace(",", " ").split())
        self.layers: dict[str, list[str]] = {}
        for crate in self.crates.values():
            self.layers.setdefault(crate.layer, []).append(crate.name)
            for word in crate.libraries:
                if word in self.crates:
                    raise ValueError(f"crates.txt has {crate.name} in front of {word}, on which it stands")

    def add(self, name: str, layer: str, uses: list[str]) -> None:
        """Appends a crate. A word that is no crate before it is a library of the kit."""
        own = tuple(word for word in uses if word in self.crates)
        self.crates[name] = Crate(name, layer, own, tuple(word for word in uses if word not in self.crates))

    def below(self, name: str) -> set[str]:
        """Returns all crates that one stands on, itself left out."""
        found: set[str] = set()
        for word in self.crates[name].uses:
            found |= {word} | self.below(word)
        return found

    def above(self, name: str) -> list[str]:
        """Returns all crates that stand on one, in the file's order: what is proved anew where its public clauses change."""
        return [it for it in self.crates if name in self.below(it)]

    def direct(self, name: str) -> list[str]:
        """Returns what a crate stands on, without what another of these stands on already."""
        uses = self.crates[name].uses
        implied: set[str] = set().union(*(self.below(word) for word in uses))
        return [word for word in uses if word not in implied]

    def longest_chain(self) -> list[str]:
        """Returns the most crates that stand on one another, the lowest first; of several such chains the first."""
        chains: dict[str, list[str]] = {}
        for name in self.crates:
            chains[name] = [*max((chains[word] for word in self.direct(name)), key=len, default=[]), name]
        return max(chains.values(), key=len)
