"""Event logs: rows STAMP,KIND,KEY,TEXT, as a session reads them."""

import csv
from dataclasses import dataclass, field


@dataclass
class Log:
    """The rows of a log, each with its stamp, kind, key and text, and what was odd."""

    rows: list[tuple[int, str, str, str]] = field(default_factory=list)
    odd: list[str] = field(default_factory=list)

    def resolution(self) -> int:
        """Returns the ns that all stamps are multiples of, at most a second; 1 where there are fewer than three rows."""
        return self.digits() if len(self.rows) > 2 else 1

    def digits(self) -> int:
        """Returns the same, however few rows there are; 1 where there is none."""
        size = 10**9 if self.rows else 1
        while size > 1 and any(row[0] % size for row in self.rows):
            size //= 10
        return size


def read_log(path: str) -> Log:
    """Returns the rows of a log, up to the first one that a session would refuse for its number of fields or its stamp."""
    found = Log()
    with open(path, encoding="utf-8-sig", errors="replace", newline="") as it:
        try:
            for record in csv.reader(it):
                if record and not is_row(record):
                    found.odd.append(f"record {len(found.rows) + 1} is no row STAMP,KIND,KEY,TEXT: tools/rows makes rows of other logs")
                    break
                if record:
                    found.rows.append((int(record[0]), record[1], record[2], record[3]))
        except csv.Error as why:
            found.odd.append(f"behind record {len(found.rows)} stands no text of rows: {why}")
    return found


def is_row(record: list[str]) -> bool:
    """Returns whether a record has four fields, and a stamp that is digits."""
    return len(record) == 4 and record[0].isascii() and record[0].isdigit() and len(record[0]) < 20
