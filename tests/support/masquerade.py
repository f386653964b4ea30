"""Lets the kernel translate addresses by its nf_tables, which are spoken to by netlink, so that no `nft` is needed.

The numbers are of Linux: netlink.h, netfilter/nfnetlink.h, netfilter/nf_tables.h, netfilter_ipv4.h."""

import os
import socket
import struct

NETLINK_NETFILTER, NF_TABLES = 12, 10
REQUEST, ACK, CREATE, NESTED = 1, 4, 0x400, 0x8000
BEGIN, END, ERROR = 0x10, 0x11, 2
NEW_TABLE, NEW_CHAIN, NEW_RULE = 0, 3, 6
# Where packets leave, and the place of source translation there.
POST_ROUTING, SOURCE = 4, 100
REGISTER, OUTPUT = 1, 5
TABLE, CHAIN = "nat", "out"


def attribute(kind: int, data: bytes) -> bytes:
    """An attribute, filled up to four bytes."""
    return struct.pack("HH", 4 + len(data), kind) + data + bytes(-len(data) % 4)


def nested(kind: int, *attributes: bytes) -> bytes:
    """An attribute of attributes."""
    return attribute(kind | NESTED, b"".join(attributes))


def text(kind: int, word: str) -> bytes:
    """An attribute that is a text."""
    return attribute(kind, word.encode() + b"\0")


def number(kind: int, value: int) -> bytes:
    """An attribute that is a number."""
    return attribute(kind, struct.pack(">i", value))


def expression(name: str, *attributes: bytes) -> bytes:
    """An expression of a rule."""
    return nested(1, text(1, name), nested(2, *attributes))


def message(kind: int, flags: int, serial: int, family: int, resource: int, content: bytes) -> bytes:
    """A message of netfilter's netlink."""
    told = struct.pack(">BBH", family, 0, resource) + content
    return struct.pack("IHHII", 16 + len(told), kind, REQUEST | flags, serial, 0) + told


def batch(index: int) -> list[tuple[int, bytes]]:
    """A table, a chain and a rule: what leaves by the interface of this index has its address from then on."""
    hook = nested(4, number(1, POST_ROUTING), number(2, SOURCE))
    leaves = expression("meta", number(2, OUTPUT), number(1, REGISTER))
    there = nested(3, attribute(1, struct.pack("I", index)))
    is_it = expression("cmp", number(1, REGISTER), number(2, 0), there)
    return [
        (NEW_TABLE, text(1, TABLE)),
        (NEW_CHAIN, text(1, TABLE) + text(3, CHAIN) + hook + text(7, "nat")),
        (NEW_RULE, text(1, TABLE) + text(2, CHAIN) + nested(4, leaves, is_it, expression("masq"))),
    ]


def masquerade(interface: str) -> None:
    """Translates the source of all IPv4 that leaves by an interface of this thread's namespace into its address.

    Raises OSError where the kernel does not know how."""
    told = batch(socket.if_nametoindex(interface))
    words = [message(BEGIN, 0, 0, socket.AF_UNSPEC, NF_TABLES, b"")]
    for serial, (kind, content) in enumerate(told, 1):
        words.append(message(NF_TABLES << 8 | kind, ACK | CREATE, serial, socket.AF_INET, 0, content))
    words.append(message(END, 0, len(told) + 1, socket.AF_UNSPEC, NF_TABLES, b""))
    with socket.socket(socket.AF_NETLINK, socket.SOCK_RAW, NETLINK_NETFILTER) as kernel:
        kernel.bind((0, 0))
        kernel.settimeout(1)
        kernel.send(b"".join(words))
        for _ in told:
            answer = kernel.recv(65_536)
            if struct.unpack_from("H", answer, 4)[0] == ERROR and (why := -struct.unpack_from("i", answer, 16)[0]):
                raise OSError(why, f"nf_tables: {os.strerror(why)}")
