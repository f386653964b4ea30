"""Logs of eight hosts that send messages to one another, in pieces, for growth.py, overview.py and trial.py."""

from collections.abc import Callable, Sequence
from random import Random

HOSTS = 8

Piece = tuple[str, str, int]  # a label, the path of a file, and how many events it has
Happening = tuple[int, str]  # a host, and the row of its log


def declaration(label: str = "h{}") -> str:
    """Eight hosts with a log each; the first is the source. The labels have names by this pattern."""
    lines = ['source = "h0"']
    for host in range(HOSTS):
        drift = "short = 20_000\nlong = 20_000\n" if host else ""
        lines.append(f"[hosts.h{host}]\n{drift}late = 50")
        lines.append(f'[labels.{label.format(host)}]\nhost = "h{host}"\nkind = "log"')
    for one in range(HOSTS):
        for other in range(HOSTS):
            if one != other:
                lines.append(f'[[links]]\nfrom = "h{one}"\nto = "h{other}"\nleast = 1_000\nmost = 100_000')
    return "\n".join(lines) + "\n"


def exchanged(events: int, below: Callable[[int], int], first: int = 0) -> list[Happening]:
    """So many events, an even number, with delays within the declared bounds: a send and its receive in turn. `below`
    draws a number below another one, and the messages are numbered from `first` on."""
    offsets = [below(10**9) for _ in range(HOSTS)]
    found: list[Happening] = []
    time = 10**9
    for number in range(first, first + events // 2):
        time += 1 + below(100_000)
        send = below(HOSTS)
        receive = (send + 1 + below(HOSTS - 1)) % HOSTS
        delay = 1_000 + below(99_001)
        found.append((send, f"{offsets[send] + time},send,m{number},"))
        found.append((receive, f"{offsets[receive] + time + delay},receive,m{number},"))
    return found


def happenings(events: int) -> list[Happening]:
    """So many events, an even number, the same ones each time."""
    return exchanged(events, Random(7).randrange)


def by_host(happened: Sequence[Happening]) -> list[list[str]]:
    """The rows of each host."""
    rows: list[list[str]] = [[] for _ in range(HOSTS)]
    for host, row in happened:
        rows[host].append(row)
    return rows


def cut(rows: list[str], pieces: int) -> list[list[str]]:
    """The rows in so many pieces of about the same size."""
    return [rows[len(rows) * n // pieces : len(rows) * (n + 1) // pieces] for n in range(pieces)]


class Folder:
    """A folder with a declaration, for files of pieces."""

    def __init__(self, path: str, declared: str) -> None:
        self.path, self.files = path, 0
        self.declaration = f"{path}/hosts.toml"
        with open(self.declaration, "w") as it:
            it.write(declared)

    def piece(self, label: str, rows: Sequence[str]) -> Piece:
        """Writes a piece: its label, its path, and how many events it has."""
        self.files += 1
        path = f"{self.path}/{self.files}"
        with open(path, "w") as it:
            it.writelines(f"{row}\n" for row in rows)
        return label, path, len(rows)


class Tail:
    """Rows that come behind those of a session, as one reads growing logs: each host's wait until there are enough for
    a piece."""

    def __init__(self, folder: Folder, happened: Sequence[Happening], at: int) -> None:
        self.folder, self.happened, self.at = folder, happened, at
        self.waiting: list[list[str]] = [[] for _ in range(HOSTS)]

    def piece(self, events: int) -> Piece | None:
        """The next piece of so many events, or None where there are no more rows."""
        full = next((host for host in range(HOSTS) if len(self.waiting[host]) >= events), None)
        while full is None:
            if self.at == len(self.happened):
                return None
            host, row = self.happened[self.at]
            self.at += 1
            self.waiting[host].append(row)
            full = host if len(self.waiting[host]) >= events else None
        rows, self.waiting[full] = self.waiting[full][:events], self.waiting[full][events:]
        return self.folder.piece(f"h{full}", rows)
