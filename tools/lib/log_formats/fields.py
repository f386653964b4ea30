"""What a line tells by name, and the keys, texts and stamps that are made of it."""

from __future__ import annotations

import hashlib
import json
import re
import unicodedata
from dataclasses import dataclass, field
from decimal import Decimal
from typing import Any, TypeVar

from .stamps import EXACT, UNITS, Ns, Stamps, Unreadable, span_of

T = TypeVar("T")
KEY_MOST, TEXT_MOST = 64, 200
PLACE = re.compile(r"\{([^{}]+)\}")
SUM = re.compile(rf"(?P<stamp>\S+) (?P<sign>[+-]) (?P<span>\S+)(?: (?P<unit>{'|'.join(UNITS)}))?")


def escaped_key(text: str) -> str:
    """Returns a key of any length with bytes from 33 to 126 alone: %XX stands for each other one, and for %."""
    return "".join(chr(it) if 33 <= it <= 126 and it != ord("%") else f"%{it:02X}" for it in text.encode("utf-8", "surrogatepass"))


def lawful_key(text: str) -> str:
    """Returns a key as `escaped_key` does, with at most 64 bytes; keys that differ stay different."""
    key = escaped_key(text)
    if len(key) <= KEY_MOST:
        return key
    return f"{key[: KEY_MOST - 33]}~{hashlib.sha256(key.encode()).hexdigest()[:32]}"


def lawful_text(text: str) -> str:
    """Returns a text with bytes from 32 to 126 alone, at most 200 of them."""
    plain = (it for it in unicodedata.normalize("NFKD", text) if not unicodedata.combining(it))
    found = "".join(it if " " <= it <= "~" else " " if it.isspace() else "?" for it in plain)
    return found if len(found) <= TEXT_MOST else f"{found[: TEXT_MOST - 3]}..."


def text_of(value: Any) -> str | None:
    """Returns a value of JSON, whose numbers were read as text, as text; None of null."""
    if isinstance(value, bool):
        return "true" if value else "false"
    return value if isinstance(value, str) or value is None else json.dumps(value)


def json_of(line: str) -> Any:
    """Returns the value of a line of JSON, with numbers as the text that they are. Raises ValueError where it is none."""
    try:
        return json.loads(line, parse_float=str, parse_int=str)
    except RecursionError:
        raise ValueError("it is nested too deep")


class Fields:
    """The fields of a line: texts by name, and perhaps the JSON object that it is, whose inner fields have names with points."""

    def __init__(self, own: dict[str, str | None] | None = None, value: Any = None) -> None:
        self.own, self.value = dict(own or {}), value

    def get(self, name: str) -> str | None:
        """Returns the text of a field, or None where there is none."""
        if name in self.own:
            return self.own[name]
        value = self.value
        if isinstance(value, dict) and name in value:
            return text_of(value[name])
        for part in name.split("."):
            value = value.get(part) if isinstance(value, dict) else None
        return text_of(value)

    def with_fields(self, own: dict[str, str | None]) -> Fields:
        """Returns these fields and others, which count where a name is there twice."""
        return Fields({**self.own, **own}, self.value)

    def filled(self, template: str) -> str | None:
        """Returns a template with the field that each {NAME} names, or None where one is not there; a template without any is a field's name."""
        if not PLACE.search(template):
            return self.get(template)
        values = {name: self.get(name) for name in PLACE.findall(template)}
        if not all(values.values()):
            return None
        return PLACE.sub(lambda it: values[it[1]] or "", template)

    def stamp(self, named: str, stamps: Stamps) -> Ns | None:
        """Returns the stamp that a name, or a sum such as `msec - request_time` or `time + took us`, says; None where a field is not there."""
        found = SUM.fullmatch(named)
        texts = [self.get(it) for it in ((found["stamp"], found["span"]) if found else (named,))]
        if None in texts:
            return None
        ns, decimals = stamps.read(texts[0] or "")
        if not found:
            return ns, decimals
        span, more = span_of((texts[1] or "").strip(), found["unit"] or "s")
        return moved(ns, span if found["sign"] == "+" else -span), max(decimals, more)


def moved(ns: Decimal, span: Decimal) -> Decimal:
    """Returns the exact sum of two numbers of ns."""
    return EXACT.add(ns, span)


@dataclass
class Moment:
    """What a line tells of one moment: its stamp, `send`, `receive` or `local` where the format says which, and its fields, of which `text`
    is what a row says where no option says more. A key that the format knows is a template."""

    ns: Decimal
    decimals: int
    kind: str = ""
    fields: Fields = field(default_factory=Fields)
    key: str = ""


def need(found: T | None, wanted: str) -> T:
    """Returns what was found. Raises Unreadable, which says what was expected, where that is None or False."""
    if found is None or found is False:
        raise Unreadable(f"expected {wanted}")
    return found


def stamped(fields: Fields, named: str, stamps: Stamps) -> list[Moment]:
    """Returns the moment of a line, by the stamp that a name says; nothing where that is not there. Raises Unreadable where it is none."""
    try:
        found = fields.stamp(named, stamps)
    except Unreadable as why:
        raise Unreadable(f"the stamp cannot be taken: {why}")
    return [Moment(found[0], found[1], fields=fields)] if found else []
