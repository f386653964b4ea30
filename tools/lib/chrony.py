"""What chronyd says of a clock: the line that `chronyc -c tracking` prints, and its file chrony.conf."""

import re
from collections.abc import Iterable
from dataclasses import dataclass
from decimal import ROUND_UP, Decimal, InvalidOperation

# The greatest rate that is taken, in ppm, as chronyd's own of maxslewrate, and the greatest time, in s: no estimate of a clock that
# runs comes near.
PPM_MOST, SECONDS_MOST = 100_000, 10**9
# The fields of `chronyc -c tracking` that are read: the place of each, and its least and greatest value.
FIELDS = {"system": (4, -SECONDS_MOST, SECONDS_MOST), "residual": (8, -PPM_MOST, PPM_MOST), "skew": (9, 0, PPM_MOST),
          "delay": (10, 0, SECONDS_MOST), "dispersion": (11, 0, SECONDS_MOST)}  # fmt: skip
COUNT = 14
NUMBER = re.compile(r"[+-]?([0-9]+\.?[0-9]*|\.[0-9]+)([eE][+-]?[0-9]+)?")
# Digits behind this place are rounded away from 0, so that no bound becomes narrower.
PLACES = Decimal("1e-12")
SHOWN_MOST = 40
# As chronyd comes, in ppm: a twelfth.
SLEW_DEFAULT = Decimal("83333.333")


@dataclass
class Chrony:
    """How fast chronyd may slew (ppm), and what it estimates: its error in frequency (ppm) and in time (s), where a tracking line says so."""

    slew: Decimal = SLEW_DEFAULT
    slew_from: str = "as chronyd comes"
    steps: str | None = None
    skew: Decimal | None = None
    residual: Decimal = Decimal(0)
    system: Decimal = Decimal(0)
    delay: Decimal = Decimal(0)
    dispersion: Decimal | None = None
    tracking_from: str = ""

    def error(self) -> Decimal | None:
        """Returns by how many seconds the clock may be wrong, as chronyd estimates, or None."""
        return None if self.dispersion is None else self.dispersion + self.delay / 2 + abs(self.system)


def read_chrony(path: str, known: Chrony | None = None) -> Chrony:
    """Returns what a file says beside what is known: a line of `chronyc -c tracking`, or else a chrony.conf."""
    found = known or Chrony()
    with open(path, encoding="utf-8", errors="replace") as it:
        lines = [line.strip() for line in it]
    words = lines[0].split(",") if lines else []
    if len(words) == COUNT:
        return tracking(found, words, path)
    if any(line.startswith("Reference ID") for line in lines):
        raise ValueError(f"{path} is what `chronyc tracking` prints for people: `chronyc -c tracking` prints what is read here")
    if "," in (lines[0] if lines else "") and len(words) > 3:
        raise ValueError(f"{path} has {len(words)} fields, and a line of `chronyc -c tracking` {COUNT}")
    return conf(found, lines, path)


def read_all_chrony(words: Iterable[str]) -> dict[str, Chrony]:
    """Returns what the files of words HOST=FILE say, by host."""
    found: dict[str, Chrony] = {}
    for word in words:
        host, equals, path = word.partition("=")
        if not equals:
            raise ValueError(f"--chrony {word} is not of the form HOST=FILE")
        found[host] = read_chrony(path, found.get(host))
    return found


def tracking(found: Chrony, words: list[str], path: str) -> Chrony:
    """Takes the estimates of a line of `chronyc -c tracking`."""
    for name, (at, least, most) in FIELDS.items():
        setattr(found, name, number(words[at], name, path, least, most))
    if words[-1] == "Not synchronised":
        raise ValueError(f"{path}: chronyd was not synchronised, so its estimates say nothing")
    found.tracking_from = path
    return found


def conf(found: Chrony, lines: list[str], path: str) -> Chrony:
    """Takes the last `maxslewrate`, and whether the clock may be set, from a chrony.conf."""
    is_conf = includes = False
    for line in lines:
        words = line.split()
        if not words or words[0][0] in "!;#%":
            continue
        is_conf = is_conf or words[0].isalpha()
        if words[0].lower() == "maxslewrate" and len(words) == 2:
            found.slew, found.slew_from = number(words[1], "maxslewrate", path, 0, PPM_MOST), f"maxslewrate of {path}"
        if words[0].lower() == "makestep":
            found.steps = line
        includes = includes or words[0].lower() in ("include", "confdir", "sourcedir")
    if not is_conf:
        raise ValueError(f"{path} is neither a line of `chronyc -c tracking` nor a chrony.conf")
    if found.slew_from == "as chronyd comes":
        found.slew_from = f"as chronyd comes, for {path} has no maxslewrate{', but it includes other files, which were not read' if includes else ''}"
    return found


def number(text: str, name: str, path: str, least: int, most: int) -> Decimal:
    """Returns a number that a file has under a name. Raises ValueError where it is none, as NaN and Infinity are, or is out of its range."""
    shown = text if len(text) <= SHOWN_MOST else f"{text[:SHOWN_MOST]}.."
    try:
        value = Decimal(text) if NUMBER.fullmatch(text) else None
    except InvalidOperation:
        value = None
    if value is None:
        raise ValueError(f"{path}: {name} {shown!r} is no number")
    if not least <= value <= most:
        raise ValueError(f"{path}: {name} {shown} is out of range, from {least:,} to {most:,}")
    # (adding 0 takes the sign of a zero off)
    return value.quantize(PLACES, ROUND_UP) + 0
