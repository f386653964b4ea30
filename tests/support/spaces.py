"""Network namespaces of the kernel, and sockets there that see all that an interface sends and receives, each packet
stamped by the one clock of the kernel. Everything runs on one processor, so that nothing overtakes."""

import ctypes
import fcntl
import os
import socket
import struct
import subprocess
import time
from collections.abc import Iterator, Sequence
from contextlib import contextmanager
from dataclasses import dataclass

# Numbers of Linux that Python does not name: of setns(2), netdevice(7), ethtool.h, socket(7), packet(7), if_packet.h.
CLONE_NEWNET, SIOCETHTOOL, ETHTOOL_STXCSUM = 0x40000000, 0x8946, 0x17
SO_RCVBUFFORCE, SO_TIMESTAMPNS = 33, 35
ETH_P_ALL, SOL_PACKET, PACKET_STATISTICS, PACKET_AUXDATA, PACKET_IGNORE_OUTGOING = 3, 263, 6, 8, 23
VLAN_IS_THERE = 0x10
QUIET = 0.25  # seconds without a frame, behind which nothing is on its way any more
MOST_BYTES = 65_536  # of a frame

Packet = tuple[str, int]  # who sent it, and which of its packets it is


@dataclass(frozen=True)
class Record:
    """What a capture has of a packet: when it was seen, the stamp that is written, its bytes, which one it is, whether
    it went out there, and the interface's name."""

    time: int
    stamp: int
    frame: bytes
    packet: Packet
    is_send: bool
    interface: str = "eth0"


class Spaces:
    """Namespaces by names, as long as a `with` lasts, and the sockets that it has to close."""

    def __init__(self, names: Sequence[str]) -> None:
        self.spaces = {name: f"tracesync-{os.getpid()}-{name}" for name in names}

    def __enter__(self) -> "Spaces":
        os.sched_setaffinity(0, {min(os.sched_getaffinity(0))})
        try:
            for space in self.spaces.values():
                ip("netns", "add", space)
            self.build()
        except BaseException:
            self.__exit__()
            raise
        time.sleep(QUIET)
        return self

    def __exit__(self, *_: object) -> None:
        self.close()
        for space in self.spaces.values():
            subprocess.run(("ip", "netns", "delete", space), capture_output=True)

    def build(self) -> None:
        """Makes what is in the namespaces."""

    def close(self) -> None:
        """Closes what was opened."""


def ip(*words: str) -> None:
    """Runs `ip`. Raises CalledProcessError where it fails."""
    subprocess.run(("ip", *words), check=True, capture_output=True, text=True)


@contextmanager
def within(space: str) -> Iterator[None]:
    """Makes the sockets of this thread in another namespace meanwhile; they stay there."""
    with open("/proc/thread-self/ns/net") as here, open(f"/run/netns/{space}") as there:
        enter(there.fileno())
        try:
            yield
        finally:
            enter(here.fileno())


def enter(space: int) -> None:
    """Lets this thread make its sockets in the namespace of a descriptor."""
    if ctypes.CDLL(None, use_errno=True).setns(space, CLONE_NEWNET):
        raise OSError(ctypes.get_errno(), "setns")


def packet_socket(interface: str = "") -> socket.socket:
    """A socket of all that an interface sends and receives, or all interfaces together."""
    found = socket.socket(socket.AF_PACKET, socket.SOCK_RAW, 0 if interface else socket.htons(ETH_P_ALL))
    found.setsockopt(socket.SOL_SOCKET, SO_RCVBUFFORCE, 1 << 26)
    if interface:
        found.bind((interface, ETH_P_ALL))
    return found


def tap(interface: str = "") -> socket.socket:
    """The same, which has a stamp of each packet, and the tag of which the kernel has relieved it."""
    found = packet_socket(interface)
    found.setsockopt(socket.SOL_SOCKET, SO_TIMESTAMPNS, 1)
    found.setsockopt(SOL_PACKET, PACKET_AUXDATA, 1)
    return found


def port(interface: str) -> socket.socket:
    """A socket of all that an interface receives, by which frames are sent there."""
    found = packet_socket(interface)
    found.setsockopt(SOL_PACKET, PACKET_IGNORE_OUTGOING, 1)
    return found


def seen(taken: socket.socket) -> Record:
    """The next packet that a tap has seen. Which one it is, is not said."""
    frame, extra, _, source = taken.recvmsg(MOST_BYTES, 128)
    told = {(level, kind): data for level, kind, data in extra}
    seconds, nanoseconds = struct.unpack("qq", told[socket.SOL_SOCKET, SO_TIMESTAMPNS])
    status, *_, tag, kind = struct.unpack("IIIHHHH", told[SOL_PACKET, PACKET_AUXDATA])
    if status & VLAN_IS_THERE:
        frame = frame[:12] + struct.pack(">HH", kind, tag) + frame[12:]
    moment = seconds * 10**9 + nanoseconds
    return Record(moment, moment, frame, ("", 0), source[2] == socket.PACKET_OUTGOING, source[0])


def has_lost(taken: socket.socket) -> bool:
    """Whether the kernel has dropped something that was for this socket since the last call."""
    return struct.unpack("II", taken.getsockopt(SOL_PACKET, PACKET_STATISTICS, 8))[1] > 0


def write_checksums(over: socket.socket, interface: str) -> None:
    """Lets the kernel write all checksums of an interface itself, and cut segments before they are seen."""
    asked = ctypes.create_string_buffer(struct.pack("II", ETHTOOL_STXCSUM, 0))
    fcntl.ioctl(over, SIOCETHTOOL, struct.pack("16sP16x", interface.encode(), ctypes.addressof(asked)))


def forget_errors(sockets: Sequence[socket.socket]) -> None:
    """Forgets that an interface was down."""
    for it in sockets:
        it.getsockopt(socket.SOL_SOCKET, socket.SO_ERROR)
