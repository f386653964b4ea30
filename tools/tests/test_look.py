"""A look at the program without its proofs takes few events, and says so before it compiles anything."""

import os
import subprocess
import sys
import tempfile
import unittest

import making_captures as making
from common import EXAMPLES, TOOLS
from event_count import count_events


class Look(unittest.TestCase):
    def setUp(self) -> None:
        room = tempfile.TemporaryDirectory()
        self.addCleanup(room.cleanup)
        self.room = room.name
        packets = [(10**9 + k, making.framed(making.ETHERNET, making.udp("10.0.0.1", "10.0.0.2", ident=k + 1))) for k in range(101)]
        for name, data in (("a.pcap", making.classic(packets)), ("b.pcapng", making.pcapng(packets, order=">")), ("cut.pcap", making.classic(packets)[:-1])):
            with open(f"{self.room}/{name}", "wb") as it:
                it.write(data)

    def test_events_are_counted(self) -> None:
        cases = (("a.pcap", 101), ("b.pcapng", 101), ("cut.pcap", 100), ("none", 0))
        self.assertEqual([count_events(f"{self.room}/{name}") for name, _ in cases], [count for _, count in cases])
        self.assertEqual(count_events(f"{EXAMPLES}/session/web.csv"), 3)

    def run_tool(self, *words: str, said: str = "") -> subprocess.CompletedProcess[str]:
        # (a kit that would be called says so)
        with open(f"{self.room}/rt", "w", encoding="utf-8") as it:
            it.write("#!/bin/sh\necho CALLED >&2\nexit 1\n")
        os.chmod(f"{self.room}/rt", 0o755)
        environment = {**os.environ, "PATH": f"{self.room}:{os.environ['PATH']}"}
        return subprocess.run([sys.executable, *words], cwd=self.room, input=said, env=environment, capture_output=True, text=True)

    def test_first_look_refuses_many_events_at_once(self) -> None:
        ran = self.run_tool(f"{TOOLS}/first-look", "session", "hosts.toml", said="add a a.pcap\nadd b b.pcapng\nmerge\n")
        self.assertEqual((ran.returncode, "202 events are more than the 200" in ran.stderr, "CALLED" in ran.stderr), (126, True, False), ran.stderr)

    def test_first_look_runs_few(self) -> None:
        self.assertIn("CALLED", self.run_tool(f"{TOOLS}/first-look", "session", "hosts.toml", said="add a a.pcap\nmerge\n").stderr)

    def test_a_timeline_by_a_look_refuses_many_events_at_once(self) -> None:
        ran = self.run_tool(f"{TOOLS}/timeline", "a=a.pcap", "b=b.pcapng", "--look")
        self.assertEqual((ran.returncode, "and these are 202" in ran.stderr, "CALLED" in ran.stderr), (1, True, False), ran.stderr)


if __name__ == "__main__":
    unittest.main()
