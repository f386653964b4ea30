"""From files to pictures by the program itself, as a user calls the tools. Left out where no program is there."""

import json
import os
import subprocess
import sys
import tempfile
import unittest
from typing import Any

import making_captures as making
from common import EXAMPLES, PROGRAM, TOOLS
from reading_formats import faults_of_shiviz, faults_of_trace_events
from tracesync.numbers import read_ns

LEFT, RIGHT = f"left={EXAMPLES}/captures/left.pcap", f"right={EXAMPLES}/captures/right.pcap"


def conversation(link: int, offset: int, delay: int, is_asking: bool) -> list[tuple[int, bytes]]:
    """Returns the packets of ten questions and answers as one end sees them: `offset` is its clock's, `delay` what a packet takes."""
    found = []
    for k in range(10):
        start = 10**9 + k * 3_000_001
        question = making.udp("10.0.0.1", "10.0.0.2", payload=b"question%d" % k, ident=k + 1)
        answer = making.udp("10.0.0.2", "10.0.0.1", (6000, 5000), payload=b"answer%d" % k, ident=k + 100)
        stamps = (start, start + 2 * delay + 70_000) if is_asking else (start + delay, start + delay + 70_000)
        found += [(offset + it, making.framed(link, data, is_sent == is_asking)) for it, data, is_sent in zip(stamps, (question, answer), (True, False))]
    return found


@unittest.skipUnless(PROGRAM, "no program is there")
class Whole(unittest.TestCase):
    def setUp(self) -> None:
        self.room = tempfile.TemporaryDirectory()
        self.addCleanup(self.room.cleanup)

    def run_tool(self, tool: str, *words: str, status: int = 0, **more: Any) -> subprocess.CompletedProcess[str]:
        ran = subprocess.run([sys.executable, f"{TOOLS}/{tool}", "--program", PROGRAM, *words], cwd=self.room.name, capture_output=True, text=True, **more)
        self.assertEqual(ran.returncode, status, ran.stdout + ran.stderr)
        return ran

    def read(self, name: str) -> str:
        with open(f"{self.room.name}/{name}", encoding="utf-8") as it:
            return it.read()

    def session(self, declaration: str, script: str) -> str:
        with open(f"{self.room.name}/{script}", encoding="utf-8") as it:
            return subprocess.run([PROGRAM, "session", declaration], cwd=self.room.name, stdin=it, capture_output=True, text=True).stdout

    def test_two_captures_become_a_page_and_a_picture_in_one_call(self) -> None:
        said = self.run_tool("timeline", LEFT, RIGHT).stdout
        self.assertIn("56 messages among 116 events.", said)
        self.assertEqual({it for it in os.listdir(f"{self.room.name}/tracesync-timeline") if it[0] != "."}, {"delays.svg", "hosts.toml", "offsets.svg", "script.txt", "replies.txt", "timeline.html", "timeline.svg"})

    def test_the_script_that_is_kept_gives_the_same_replies(self) -> None:
        self.run_tool("timeline", LEFT, RIGHT)
        self.assertEqual(self.session("tracesync-timeline/hosts.toml", "tracesync-timeline/script.txt"), self.read("tracesync-timeline/replies.txt"))

    def test_all_outputs_are_lawful(self) -> None:
        self.run_tool("timeline", LEFT, RIGHT, "--json", "a.json", "--chrome", "a.trace", "--shiviz", "a.log", "--csv", "a.csv", "--from", "left#6,right#7")
        self.assertEqual((faults_of_trace_events(self.read("a.trace")), faults_of_shiviz(self.read("a.log"))), ([], []))
        self.assertEqual(len(self.read("a.csv").splitlines()), 117)
        self.assertEqual(list(json.loads(self.read("a.json"))["events"][0]["since"]), ["left#6", "right#7"])

    def test_nothing_is_drawn_that_the_program_did_not_say(self) -> None:
        self.run_tool("timeline", LEFT, RIGHT, "--json", "a.json", "--from", "left#6")
        value = json.loads(self.read("a.json"))
        bars = {it["event"]: it["since"]["left#6"] for it in value["events"]}
        questions = [f"add {it.replace('=', ' ')}" for it in (LEFT, RIGHT)] + [f"interval left#6 {it}" for it in bars] + [f"order {it['first']} {it['second']}" for it in value["orders"]]
        with open(f"{self.room.name}/again", "w", encoding="utf-8") as it:
            it.write("\n".join(questions) + "\n")
        replies = self.session("tracesync-timeline/hosts.toml", "again").splitlines()[2:]
        self.assertEqual(replies, [f"interval {' '.join(it)}" for it in bars.values()] + [f"order {it['order']}" for it in value["orders"]])

    def test_two_clocks_that_are_hours_apart(self) -> None:
        # (what is known of the delays is what messages both ways leave: 50 us each, of 100)
        for name, offset, is_asking in (("a", 0, True), ("b", 3 * 3600 * 10**9, False)):
            with open(f"{self.room.name}/{name}.pcap", "wb") as it:
                it.write(making.classic(conversation(making.ETHERNET, offset, 50_003, is_asking)))
        self.run_tool("timeline", "a=a.pcap", "b=b.pcap", "--json", "a.json")
        delays = [tuple(map(read_ns, it["delay"])) for it in json.loads(self.read("a.json"))["messages"]]
        self.assertTrue(len(delays) == 20 and all(0 < least <= 50_003 * 10**9 <= greatest < 101_000 * 10**9 for least, greatest in delays), delays)

    def test_a_declaration_that_was_changed_is_not_written_over(self) -> None:
        self.run_tool("timeline", LEFT, RIGHT)
        with open(f"{self.room.name}/tracesync-timeline/hosts.toml", "a", encoding="utf-8") as it:
            it.write("# mine\n")
        self.assertIn("was changed", self.run_tool("timeline", LEFT, RIGHT, status=1).stderr)

    def test_exchanged_addresses_are_named(self) -> None:
        text = subprocess.run([sys.executable, f"{TOOLS}/declare", LEFT, RIGHT], capture_output=True, text=True).stdout
        text = text.replace('["10.9.0.1"]', '["10.9.0.X"]').replace('["10.9.0.2"]', '["10.9.0.1"]').replace("10.9.0.X", "10.9.0.2")
        with open(f"{self.room.name}/hosts.toml", "w", encoding="utf-8") as it:
            it.write(text)
        said = self.run_tool("timeline", LEFT, RIGHT, "--declaration", "hosts.toml", status=1).stdout
        self.assertIn("10.9.0.2 is declared as left's, and by the captures it is right's", said)
        self.assertIn("may be later by", self.read("tracesync-timeline/contradiction.svg"))

    def test_a_refused_declaration_is_told(self) -> None:
        with open(f"{self.room.name}/hosts.toml", "w", encoding="utf-8") as it:
            it.write("[hosts.left]\ndrift = 3\n")
        self.assertIn("host left: no such key: drift", self.run_tool("timeline", LEFT, "--declaration", "hosts.toml", status=1).stdout)

    def test_a_path_with_a_blank(self) -> None:
        with open(f"{EXAMPLES}/session/web.csv", "rb") as one, open(f"{self.room.name}/my web.csv", "wb") as other:
            other.write(one.read())
        self.assertIn("0 messages among 3 events.", self.run_tool("timeline", "web=my web.csv", status=1).stdout)

    def test_explain_copies_replies_and_tells_a_contradiction(self) -> None:
        folder = f"{EXAMPLES}/session"
        script = f"add web {folder}/web.csv\nadd db {folder}/db-slow.csv\norder db#2 web#2\nnonsense\n"
        with open(f"{self.room.name}/script", "w", encoding="utf-8") as it:
            it.write(script)
        replies = self.session(f"{folder}/hosts.toml", "script")
        ran = self.run_tool("explain", "--script", "script", "--declaration", f"{folder}/hosts.toml", input=replies, status=1)
        self.assertEqual(ran.stdout, replies)
        for wanted in ("too narrow by 9.981 us", "db#1: receive request-17", "(by `blame`)", "`nonsense` is no command"):
            self.assertIn(wanted, ran.stderr)

    def test_captures_of_any(self) -> None:
        for name, link, is_asking in (("a", making.COOKED2, True), ("b", making.COOKED, False)):
            with open(f"{self.room.name}/{name}.pcapng", "wb") as it:
                it.write(making.pcapng(conversation(link, 0, 50_003, is_asking), link))
        ran = subprocess.run([sys.executable, f"{TOOLS}/declare", "a=a.pcapng", "b=b.pcapng"], cwd=self.room.name, capture_output=True, text=True)
        self.assertEqual((ran.returncode, ran.stdout.count("are marked as sent from it")), (0, 2))
        said = self.run_tool("timeline", "a=a.pcapng", "b=b.pcapng").stdout
        self.assertIn("20 messages among 40 events.", said)

    def test_a_cable_with_both_versions_of_ip_that_was_captured_on_any(self) -> None:
        said = self.run_tool("timeline", f"left={EXAMPLES}/dual/left.pcap", f"right={EXAMPLES}/dual/right-any2.pcap").stdout
        self.assertIn("64 messages among 140 events.", said)


if __name__ == "__main__":
    unittest.main()
