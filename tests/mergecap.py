#!/usr/bin/env python3
"""Merges the captures of examples/ by `tracesync mergecap`, and reads the outcome by the tools of Wireshark.

    tests/mergecap.py [--size]

What editcap reads of each capture must be what the outcome has, byte for byte: each packet once, in the order of the
reply to `merge` of a session over the same script, each with its time there, less what is below 1 ns, as its stamp.
tshark must read these stamps and lengths, capinfos as many packets, and a session of its own as many events with
these stamps. The standard error must tell of each capture how many bytes wait, as the last reply to an addition does.
Then scripts that have no merge: the line must stand there alone, with its status, and a refused line be the reply that
a session has. With --size it tries 2^30 bytes of packets too, which takes 2 GB of memory and 600 MB of disk. PROGRAM
names the program, else it is the one that is built here. It needs capinfos, editcap and tshark. Prints a line for each
case, and with status 1 the first one that is otherwise.
"""

import argparse
import os
import struct
import subprocess
import sys
import tempfile
from collections.abc import Sequence

from support.captures import ETHERNET, SECTION, block, classic_head, classic_record, interface
from support.program import TOP, program, read, write
from support.replies import replies_of, script_of
from support.wireshark import is_there, packets_of, tool

EXAMPLES = f"{TOP}/examples"
HOSTS = f"{EXAMPLES}/captures/hosts.toml"
# A capture without packets.
EMPTY = classic_head()
LEFT, RIGHT = (f"add {it} {EXAMPLES}/captures/{it}.pcap" for it in ("left", "right"))
DUAL = [f"add left {EXAMPLES}/dual/left.pcap", f"add right {EXAMPLES}/dual/right-any2.pcap"]
PLAIN = '[hosts.left]\n[labels.left]\nhost = "left"\nkind = "capture"\n'
PLAIN_TWO = PLAIN + '[labels.right]\nhost = "left"\nkind = "capture"\n'
LOGS = '[labels.app]\nhost = "left"\nkind = "log"\n[labels.web]\nhost = "right"\nkind = "log"\n'


Record = tuple[int, int, bytes]  # the stamp in ns, the length and the bytes of a packet


def run(command: str, declaration: str, lines: Sequence[str]) -> subprocess.CompletedProcess[bytes]:
    """Runs a command over a script."""
    return subprocess.run([program(), command, declaration], input=script_of(lines), capture_output=True)


def replies(declaration: str, lines: Sequence[str]) -> list[list[str]]:
    """The replies of a session, which may end before its script does."""
    done = run("session", declaration, lines)
    assert done.returncode == 0, done
    return replies_of(done.stdout.decode().splitlines())


def records(data: bytes) -> tuple[int, list[Record]]:
    """The link type and the packets of a classic capture of ns."""
    assert data[:16] == EMPTY[:16], data[:24]
    found: list[Record] = []
    place = 24
    while place < len(data):
        seconds, nanoseconds, kept, length = struct.unpack_from("<IIII", data, place)
        found.append((seconds * 10**9 + nanoseconds, length, data[place + 16 : place + 16 + kept]))
        assert nanoseconds < 10**9 and len(found[-1][2]) == kept, place
        place += 16 + kept
    return int.from_bytes(data[20:24], "little"), found


def put(folder: str, name: str, content: bytes | str) -> str:
    """Writes a file, and returns its path."""
    return write(f"{folder}/{name}", content)


def packets_by_event(folder: str, lines: Sequence[str], captures: Sequence[str]) -> dict[str, bytes]:
    """The bytes of each packet by its event's name, as editcap reads the files that a script adds, those of a label in
    one."""
    files: dict[str, bytes] = {}
    found: dict[str, bytes] = {}
    for _, label, path in (line.split(" ") for line in lines):
        if label in captures:
            files[label] = files.get(label, b"") + read(path)
    for label, data in files.items():
        tool("editcap", "-F", "nsecpcap", put(folder, "original", data), f"{folder}/classic")
        _, packets = records(read(f"{folder}/classic"))
        found |= {f"{label}#{n}": packet for n, (_, _, packet) in enumerate(packets, 1)}
    return found


def notes_of(declaration: str, lines: Sequence[str]) -> str:
    """The notes on bytes that wait, by what a session replies to these additions."""
    waiting: dict[str, str] = {}
    for line, reply in zip(lines, replies(declaration, lines)):
        words = reply[0].split(" ")
        waiting[line.split(" ")[1]] = words[words.index("pending") + 1]
    return "".join(f"{label} pending {count}\n" for label, count in sorted(waiting.items()) if count != "0")


def merges(
    folder: str, case: str, declaration: str, lines: Sequence[str], captures: Sequence[str] = ("left", "right")
) -> None:
    """Wants a merge of these additions. Raises AssertionError where it is otherwise."""
    done = run("mergecap", declaration, lines)
    assert done.returncode == 0, (case, done.returncode, done.stdout[:80])
    assert done.stderr.decode() == notes_of(declaration, lines), (case, done.stderr)
    replied = [line.split(" ") for line in replies(declaration, [*lines, "merge"])[-1][1:]]
    # (rows of logs bound the times, and have no packets)
    merged = [(int(time.split(".")[0]), event) for time, event, *_ in replied if event.split("#")[0] in captures]
    packets = packets_by_event(folder, lines, captures)
    link, written = records(done.stdout)
    assert done.stdout[:20] == EMPTY[:20], (case, "another header")
    assert sorted(packets) == sorted(event for _, event in merged), (case, "another set of events")
    assert [stamp for stamp, _, _ in written] == [time for time, _ in merged], (case, "other stamps")
    assert [packet for _, _, packet in written] == [packets[event] for _, event in merged], (case, "other packets")
    assert all(length == len(packet) for _, length, packet in written), (case, "other lengths")
    read_again(folder, case, put(folder, "merged.pcap", done.stdout), written)
    print(f"{case}: {len(written)} packets of link type {link}, in the order of `merge`")


def read_again(folder: str, case: str, path: str, written: list[Record]) -> None:
    """Wants tshark, capinfos and a session to read what was written."""
    fields = ("-e", "frame.time_epoch", "-e", "frame.len", "-e", "frame.cap_len")
    told = tool("tshark", "-r", path, "-T", "fields", *fields)
    wanted = [f"{stamp // 10**9}.{stamp % 10**9:09}\t{length}\t{len(packet)}" for stamp, length, packet in written]
    assert told.splitlines() == wanted, (case, "tshark reads something else")
    assert packets_of(path) == len(written), (case, "capinfos counts others")
    added, problem = replies(put(folder, "plain.toml", PLAIN), [f"add left {path}", "problem"])
    words = added[0].split(" ")
    assert words[0] == "added" and int(words[2]) == len(written) and int(words[8]) == 0, (case, added)
    stamps = [int(line.split(" ")[3]) for line in problem if line.startswith("event ")]
    assert stamps == [stamp for stamp, _, _ in written], (case, "other stamps in a session")


def no_merge(case: str, declaration: str, lines: Sequence[str], wanted: str, status: int = 12) -> None:
    """Wants this line in place of a merge."""
    done = run("mergecap", declaration, lines)
    found = (done.stdout, done.stderr, done.returncode)
    assert found == (wanted.encode() + b"\n", b"", status), (case, done.returncode, done.stdout[:80], done.stderr[:80])
    print(f"{case}: `{wanted}`, status {status}")


def refused(case: str, lines: list[str], number: str) -> None:
    """The first line that a session refuses, by its reply there."""
    reply = next(it[0] for it in replies(HOSTS, lines) if it[0].startswith("refused"))
    assert reply.split(" ")[1] == number, (case, reply)
    # (nothing behind the line is looked at)
    no_merge(case, HOSTS, lines + ["add nosuch nosuch"], reply)


def changed(folder: str, name: str, path: str, old: str, new: str) -> str:
    """Writes a text in which something stands in place of something else."""
    text = read(path).decode()
    assert old in text, old
    return put(folder, name, text.replace(old, new))


def pieces(folder: str, label: str, path: str, cuts: Sequence[int]) -> list[str]:
    """The lines that add a capture which is cut at these bytes."""
    data = read(path)
    ends = [0, *cuts, len(data)]
    return [f"add {label} {put(folder, f'{label}{k}', data[a:b])}" for k, (a, b) in enumerate(zip(ends, ends[1:]))]


def empty_packets(stamps: Sequence[int]) -> bytes:
    """A capture in pcapng of an interface that counts in ns and has no snaplen, with an empty packet at each of these
    stamps."""
    return SECTION + interface(ETHERNET, 0) + b"".join(block(stamp, b"") for stamp in stamps)


def lawful(folder: str) -> None:
    """Scripts that have a merge."""
    done = run("mergecap", HOSTS, [])
    assert (done.stdout, done.stderr, done.returncode) == (EMPTY, b"", 0), done
    print("no line: a capture without packets")
    merges(folder, "captures", HOSTS, [LEFT, RIGHT])
    merges(folder, "captures, right first", HOSTS, [RIGHT, LEFT])
    merges(folder, "captures, left's clock the source", f"{EXAMPLES}/captures/by-left.toml", [LEFT, RIGHT])
    lefts = pieces(folder, "left", f"{EXAMPLES}/captures/left.pcap", [10, 200, 4000])
    rights = pieces(folder, "right", f"{EXAMPLES}/captures/right.pcap", [24, 25, 3000])
    merges(folder, "captures in pieces", HOSTS, [line for pair in zip(rights, lefts) for line in pair])
    merges(folder, "captures, the last record cut off", HOSTS, [lefts[0], lefts[1], RIGHT])
    merges(folder, "pcapng", HOSTS, [f"add {it} {EXAMPLES}/pcapng/{it}.pcapng" for it in ("left", "right")])
    merges(folder, "classic and pcapng", HOSTS, [LEFT, f"add right {EXAMPLES}/pcapng/right.pcapng"])
    merges(folder, "dual, left alone", f"{EXAMPLES}/dual/hosts.toml", DUAL[:1])
    merges(folder, "dual, right alone", f"{EXAMPLES}/dual/hosts.toml", DUAL[1:])
    late = put(folder, "late", empty_packets([1, 2**32 * 10**9]))
    merges(folder, "a time of 2^32 s less 1 ns", put(folder, "plain.toml", PLAIN), [f"add left {late}"])
    both = put(folder, "logs.toml", read(HOSTS).decode().replace("[[links]]", LOGS + "[[links]]", 1))
    stamp = int.from_bytes(read(f"{EXAMPLES}/captures/left.pcap")[24:28], "little") * 10**9
    app = put(folder, "app.csv", f"{stamp},send,a,\n{stamp + 10**8},local,,\n")
    web = put(folder, "web.csv", f"{stamp + 10**9},receive,a,\n")
    merges(folder, "captures and logs", both, [LEFT, f"add app {app}", RIGHT, f"add web {web}"])


def without_merge(folder: str) -> None:
    """Scripts that have none."""
    no_merge("a question of a session", HOSTS, [LEFT, "merge", "add nosuch nosuch"], "refused 20")
    refused("a word that is no command", [LEFT, "addleft"], "20")
    refused("a line that is too long", [LEFT, "add left " + "x" * 4096], "20")
    refused("a label that is not declared", [LEFT, f"add middle {EXAMPLES}/captures/left.pcap"], "21")
    refused("a file that is not there", [LEFT, f"add right {folder}/nosuch"], "22")
    refused("a capture without a magic number", [LEFT, f"add right {HOSTS}"], "24")
    refused("a capture behind another of its label", [LEFT, RIGHT, LEFT], "25")
    far = changed(folder, "far.toml", HOSTS, "least = 1", "least = 1_000_000")
    no_merge("a cable of 300 km", far, [LEFT, RIGHT], "inconsistent")
    no_merge("two link types", f"{EXAMPLES}/dual/hosts.toml", DUAL, "links")
    far = changed(folder, "far.toml", f"{EXAMPLES}/dual/hosts.toml", "least = 1", "least = 1_000_000")
    no_merge("two link types and no execution", far, DUAL, "inconsistent")
    plain, late = put(folder, "plain.toml", PLAIN), put(folder, "late", empty_packets([1, 2**32 * 10**9 + 1]))
    no_merge("a time of 2^32 s", plain, [f"add left {late}"], "range")
    two = put(folder, "two.toml", PLAIN_TWO)
    no_merge("a time of 2^32 s and two link types", two, [f"add left {late}", DUAL[1]], "links")
    no_merge("a declaration that is not there", f"{folder}/nosuch", [LEFT], "read fault", 7)
    no_merge("a declaration that is refused", LEFT.split(" ")[2], [LEFT], "declaration 1 top 0", 3)


def large(folder: str) -> None:
    """2^30 bytes of packets, and one byte more."""
    packet = classic_record(0, bytes(2**18))
    head, rest = put(folder, "head", EMPTY + 819 * packet), put(folder, "rest", 819 * packet)
    end = put(folder, "end", packet)
    last = put(folder, "last", classic_record(0, b"x"))
    added = [("left", head), ("left", rest), ("left", rest), ("right", head), ("right", rest), ("left", end)]
    lines = [f"add {label} {path}" for label, path in added]
    two = put(folder, "two.toml", PLAIN_TWO)
    with open(f"{folder}/all.pcap", "wb") as output:
        done = subprocess.run([program(), "mergecap", two], input=script_of(lines), stdout=output)
    assert done.returncode == 0 and os.path.getsize(f"{folder}/all.pcap") == 24 + 4096 * len(packet), done
    assert packets_of(f"{folder}/all.pcap") == 4096
    print("2^30 bytes of packets: 4096 packets")
    os.remove(f"{folder}/all.pcap")
    no_merge("2^30 + 1 bytes of packets", two, [*lines, f"add right {last}", "merge"], "size")


def main() -> int:
    parser = argparse.ArgumentParser(description=__doc__.split("\n\n")[0])
    parser.add_argument("--size", action="store_true", help="try 2^30 bytes of packets too")
    said = parser.parse_args()
    if not is_there("capinfos", "editcap", "tshark"):
        sys.exit("mergecap: capinfos, editcap and tshark must be installed")
    with tempfile.TemporaryDirectory() as folder:
        try:
            lawful(folder)
            without_merge(folder)
            if said.size:
                large(folder)
        except AssertionError as why:
            print(f"mergecap: {why}")
            return 1
    return 0


if __name__ == "__main__":
    sys.exit(main())
