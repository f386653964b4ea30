"""The crates as a picture in SVG: the layers side by side, and an arrow from each crate to what it stands on."""

from html import escape
from textwrap import wrap

from crate_map import CrateMap
from inks import INKS

WIDE, HIGH, GUTTER, GAP, TRACK, MARGIN, HEAD, LETTERS = 130, 26, 64, 20, 7, 14, 74, 19
# A gap of a column: the number of the column, and of the gap, which is that of the box below it.
Gap = tuple[int, int]


def marker(ink: str) -> str:
    """Returns the head of the arrows of one colour, by which it is named."""
    shape = f'<path d="M0 1 L10 5 L0 9 z" fill="{ink}"/>'
    return f'<marker id="{ink[1:]}" viewBox="0 0 10 10" refX="9" refY="5" markerWidth="7" markerHeight="7" orient="auto">{shape}</marker>'


class CratePicture:
    """Where each crate's box lies, and the gaps between boxes through which an arrow passes the columns on its way."""

    def __init__(self, crates: CrateMap) -> None:
        self.crates = crates
        self.columns = list(crates.layers.values())
        self.column = {name: at for at, names in enumerate(self.columns) for name in names}
        # (at first all gaps are alike; then each has room for what passes through it)
        self.passing: dict[Gap, list[str]] = {}
        self.place_boxes()
        self.ways = {(name, word): self.way(name, word) for name in crates.crates for word in crates.direct(name)}
        for (_, word), gaps in self.ways.items():
            for gap in gaps:
                if word not in self.passing.setdefault(gap, []):
                    self.passing[gap].append(word)
        self.place_boxes()

    def gap_height(self, gap: Gap) -> float:
        return max(GAP, TRACK * (len(self.passing.get(gap, [])) + 1))

    def column_height(self, at: int) -> float:
        names = self.columns[at]
        return HIGH * len(names) + sum(self.gap_height((at, k)) for k in range(len(names) + 1))

    def place_boxes(self) -> None:
        """Puts the boxes of each column below one another, the columns centred, and notes the middle of each box and gap."""
        self.inside = max(self.column_height(at) for at in range(len(self.columns)))
        self.y: dict[str, float] = {}
        self.gap_y: dict[Gap, float] = {}
        for at, names in enumerate(self.columns):
            y = HEAD + (self.inside - self.column_height(at)) / 2
            for k, name in enumerate([*names, ""]):
                self.gap_y[at, k] = y + self.gap_height((at, k)) / 2
                y += self.gap_height((at, k))
                if name:
                    self.y[name] = y + HIGH / 2
                y += HIGH

    def way(self, name: str, word: str) -> list[Gap]:
        """Returns the gaps through which an arrow goes from one crate to another: in each column the one that is nearest to the straight line."""
        found, y = [], self.y[name]
        for at in range(self.column[name] - 1, self.column[word], -1):
            y += (self.y[word] - y) / (at + 1 - self.column[word])
            gap = min(range(len(self.columns[at]) + 1), key=lambda k: abs(self.gap_y[at, k] - y))
            found.append((at, gap))
            y = self.gap_y[at, gap]
        return found

    def track(self, gap: Gap, word: str) -> float:
        """Returns how low an arrow to a crate passes through a gap."""
        words = sorted(self.passing[gap], key=lambda it: self.y[it])
        return self.gap_y[gap] + TRACK * (words.index(word) - (len(words) - 1) / 2)

    def left(self, at: int) -> float:
        return MARGIN + (WIDE + GUTTER) * at

    def ink(self, at: int) -> str:
        return INKS[at % len(INKS)]

    def arrow(self, name: str, word: str) -> str:
        """Returns the path of an arrow: upward to the box above, round the boxes between in a column, or from gap to gap to the left."""
        at, x, y = self.column[name], self.left(self.column[name]), self.y[name]
        if self.column[word] == at:
            if self.columns[at].index(name) == self.columns[at].index(word) + 1:
                return f"M{x + WIDE / 2:.1f} {y - HIGH / 2:.1f}V{self.y[word] + HIGH / 2:.1f}"
            edge, out = x + WIDE, x + WIDE + GUTTER * 0.5
            return f"M{edge:.1f} {y:.1f}C{out:.1f} {y:.1f} {out:.1f} {self.y[word]:.1f} {edge:.1f} {self.y[word]:.1f}"
        path = f"M{x:.1f} {y:.1f}"
        for gap in [*self.ways[name, word], None]:
            to = self.track(gap, word) if gap else self.y[word]
            edge = self.left(gap[0] if gap else self.column[word]) + WIDE
            half = (x + edge) / 2
            path += f"C{half:.1f} {y:.1f} {half:.1f} {to:.1f} {edge:.1f} {to:.1f}"
            x, y = edge - WIDE, to
            path += f"H{x:.1f}" if gap else ""
        return path

    def heading(self, at: int, layer: str) -> list[str]:
        """Returns the background of a column and the name of its layer."""
        x, ink = self.left(at), self.ink(at)
        out = [f'<rect x="{x - 8:.1f}" y="6" width="{WIDE + 16}" height="{HEAD + self.inside:.1f}" rx="6" fill="{ink}" fill-opacity="0.07"/>']
        for k, line in enumerate(wrap(layer, LETTERS)):
            out.append(f'<text x="{x + WIDE / 2:.1f}" y="{26 + 15 * k}" fill="{ink}" font-weight="bold">{escape(line)}</text>')
        return out

    def box(self, name: str) -> str:
        at = self.column[name]
        x, y, ink = self.left(at), self.y[name], self.ink(at)
        told = f"{name} stands on: {', '.join(self.crates.crates[name].uses) or 'no other crate'}"
        return (
            f'<g><title>{escape(told)}</title><rect x="{x:.1f}" y="{y - HIGH / 2:.1f}" width="{WIDE}" height="{HIGH}" rx="4" fill="#fff" stroke="{ink}"/>'
            f'<text x="{x + WIDE / 2:.1f}" y="{y + 4:.1f}" fill="#222">{escape(name)}</text></g>'
        )

    def svg(self) -> str:
        wide, high = self.left(len(self.columns)) - GUTTER + MARGIN, HEAD + self.inside + MARGIN
        out = [
            f'<svg xmlns="http://www.w3.org/2000/svg" viewBox="0 0 {wide:.0f} {high:.0f}" width="{wide:.0f}" height="{high:.0f}"'
            ' font-family="Helvetica, Arial, sans-serif" font-size="12" text-anchor="middle">',
            *(marker(ink) for ink in INKS),
            f'<rect width="{wide:.0f}" height="{high:.0f}" fill="#fff"/>',
        ]
        for at, layer in enumerate(self.crates.layers):
            out += self.heading(at, layer)
        for name, word in self.ways:
            ink = self.ink(self.column[name])
            out.append(f'<path d="{self.arrow(name, word)}" fill="none" stroke="{ink}" stroke-opacity="0.75" marker-end="url(#{ink[1:]})"/>')
        out += [self.box(name) for name in self.crates.crates]
        return "\n".join([*out, "</svg>", ""])
