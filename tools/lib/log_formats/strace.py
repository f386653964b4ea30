"""What `strace -ttt -T` writes: a message was received when its call ended, and sent when its call began."""

from __future__ import annotations

import re

from .fields import Fields, Moment, moved, need
from .stamps import span_of

SENDS = {"send", "sendto", "sendmsg", "sendmmsg", "write", "writev"}
RECEIVES = {"recv", "recvfrom", "recvmsg", "recvmmsg", "read", "readv"}
# What files have, too: it is a message where -y or -yy shows that the descriptor is a socket.
ANY_FILE = {"read", "readv", "write", "writev"}
SOCKET = re.compile(r"\d+<(?:socket:\[|[A-Z][A-Za-z0-9-]*:\[)", re.A)

WANTED = "a line of `strace -ttt -T`, as `1764469495.103755 recvfrom(3, ..) = 17 <0.000034>`, perhaps with the number of a process before it"
LINE = re.compile(r"(?:\[pid +(\d+)\] |(\d+) +)?(\d+\.\d+) (.*)", re.S | re.A)
CALL = re.compile(r"(?P<call>\w+)\((?P<message>.*)\) += (?P<result>-?\w+|\?)(?P<told>.*?)(?: <(?P<took>\d+\.\d+)>)?", re.S | re.A)
BEGUN = re.compile(r"(?P<call>\w+)\((?P<message>.*?),? *<unfinished \.\.\.>", re.S | re.A)
RESUMED = re.compile(r"<\.\.\. (?P<call>\w+) resumed>,? *(?P<rest>.*)", re.S | re.A)


class Strace:
    """Reads the calls of strace. Fields: pid, call, descriptor, result, took, and message, which is what stands between the parentheses."""

    def __init__(self) -> None:
        # (by its process, the stamp and the call that is not ended yet)
        self.begun: dict[str, tuple[str, str, str]] = {}

    def moments(self, line: str) -> list[Moment]:
        """Returns the call that ends in a line, nothing where none does. Raises Unreadable where it is no line of strace."""
        if not line.strip() or line.startswith("strace: "):
            return []
        found = need(LINE.fullmatch(line), WANTED)
        pid, stamp, text = found[1] or found[2] or "", found[3], found[4]
        if text.startswith(("--- ", "+++ ")):
            return []
        begun = BEGUN.fullmatch(text)
        if begun:
            self.begun[pid] = (stamp, begun["call"], begun["message"])
            return []
        resumed = RESUMED.fullmatch(text)
        if resumed:
            if self.begun.get(pid, ("", ""))[1] != resumed["call"]:
                # (it began before strace looked on)
                return []
            stamp, call, message = self.begun.pop(pid)
            text = f"{call}({message}{', ' if message and not resumed['rest'].startswith(')') else ''}{resumed['rest']}"
        return [self.moment(pid, stamp, need(CALL.fullmatch(text), WANTED))]

    def moment(self, pid: str, stamp: str, call: re.Match[str]) -> Moment:
        """Returns the moment of a call that began at a stamp."""
        name, message, result = call["call"], call["message"], call["result"]
        descriptor = message.split(",", 1)[0]
        kind = "send" if name in SENDS else "receive" if name in RECEIVES else "local"
        # (nothing came or went, as at the end of a stream; or it is a file)
        if not result.isdigit() or int(result) == 0 or name in ANY_FILE and not SOCKET.match(descriptor):
            kind = "local"
        ns, decimals = span_of(stamp, "s")
        if kind == "receive":
            took, more = span_of(need(call["took"], "the time that a receive took, as <0.000034> at its end: run strace with -T"), "s")
            ns, decimals = moved(ns, took), max(decimals, more)
        fields = {"pid": pid, "call": name, "descriptor": descriptor, "result": result, "took": call["took"], "message": message}
        return Moment(ns, decimals, kind, Fields({**fields, "text": f"{name}({message}) = {result}"}))
