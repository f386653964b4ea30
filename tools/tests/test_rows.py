"""Runs tools/rows over a table of lines, and compares its rows with those that are wanted."""

import subprocess
import sys
import unittest

from common import TOOLS

KEY = "k" * 64
ANY = ["--line", r"(?P<stamp>[^|]*)\|(?P<kind>[^|]*)\|(?P<key>[^|]*)\|(?P<text>.*)"]

# The words, the log, and the rows, or the number of the line that ends the run and a word of why.
CASES = [
    # stamps: ISO 8601
    (ANY, "2026-11-28T06:43:01Z|send|m|", "1795848181000000000,send,m,\n"),
    (ANY, "2026-11-28 06:43:01.123456789+00:00|local||", "1795848181123456789,local,,\n"),
    (ANY, "2026-11-28T06:43:01,5+01:00|local||", "1795844581500000000,local,,\n"),
    (ANY, "2026-11-28T06:43:01.1-0530|local||", "1795867981100000000,local,,\n"),
    (ANY, "2026-11-28 06:43:01.000000001 UTC|local||", "1795848181000000001,local,,\n"),
    (ANY, "2026-11-28 06:43:01+01|local||", "1795844581000000000,local,,\n"),
    (ANY, "1970-01-01T00:00Z|local||", "0,local,,\n"),
    (ANY, "2000-02-29T00:00:00Z|local||", "951782400000000000,local,,\n"),
    (ANY, "2016-12-31T23:59:60Z|local||", "1483228800000000000,local,,\n"),
    (ANY, "2026-11-28T06:43:01.9999999999Z|local||", "1795848181999999999,local,,\n"),
    ([*ANY, "--zone", "+02:00"], "2026-11-28 06:43:01|local||", "1795840981000000000,local,,\n"),
    ([*ANY, "--zone", "+02:00"], "2026-11-28 06:43:01Z|local||", "1795848181000000000,local,,\n"),
    (ANY, "2026-11-28 06:43:01|local||", (1, "--zone gives none")),
    (ANY, "2026-02-29T00:00:00Z|local||", (1, "no such day")),
    (ANY, "2026-02-28T24:00:00Z|local||", (1, "no such time")),
    (ANY, "1969-12-31T23:59:59Z|local||", (1, "before 1970")),
    (ANY, "yesterday|local||", (1, "neither")),
    # stamps: numbers
    (ANY, "1795848181.286421123|local||", "1795848181286421123,local,,\n"),
    (ANY, "1795848181.2864211239|local||", "1795848181286421123,local,,\n"),
    ([*ANY, "--unit", "ms"], "1795848181286.5|local||", "1795848181286500000,local,,\n"),
    ([*ANY, "--unit", "us"], "1795848181286421|local||", "1795848181286421000,local,,\n"),
    ([*ANY, "--unit", "ns"], "1795848181286421123|local||", "1795848181286421123,local,,\n"),
    ([*ANY, "--unit", "ns"], "4611686018427387903|local||", "4611686018427387903,local,,\n"),
    ([*ANY, "--unit", "ns"], "4611686018427387904|local||", (1, "2^62")),
    (ANY, "1.5e3|local||", "1500000000000,local,,\n"),
    (ANY, "1e999999|local||", (1, "2^62")),
    (ANY, "1795848181286|local||", (1, "2^62")),
    # kinds
    ([*ANY, "--send", "sent", "--receive", "got"], "1|Sent|a|\n2|GOT|b|\n3|send|c|\n", "1000000000,send,a,\n2000000000,receive,b,\n3000000000,local,,\n"),
    (ANY, "1|send||x", "1000000000,local,,x\n"),
    (["--line", r"^(?P<stamp>\d+) (?P<text>.*)"], "5 started", "5000000000,local,,started\n"),
    (["--line", r"^A (?P<stamp>\d+) (?P<kind>send) (?P<key>\S+)", "--line", r"^B (?P<stamp>\d+)"], "B 1\nA 2 send k\nC 3\n", "1000000000,local,,\n2000000000,send,k,\n"),
    # keys and texts
    ([*ANY, "--prefix", "request-,reply-"], "1|send|a|\n2|receive|a|\n3|local|a|\n4|send||\n", "1000000000,send,request-a,\n2000000000,receive,reply-a,\n3000000000,local,,\n4000000000,local,,\n"),
    (ANY, f"1|send|{KEY}|", f"1000000000,send,{KEY},\n"),
    (ANY, f"1|send|{KEY}k|", "1000000000,send,kkkkkkkkkkkkkkkkkkkkkkkkkkkkkkk~f39cdc2584758c99cf81c1f41d2572f5,\n"),
    (ANY, "1|send|a b%,c|", '1000000000,send,"a%20b%25,c",\n'),
    (ANY, '1|local||say "hi", Jörg\t→', '1000000000,local,,"say ""hi"", Jorg ?"\n'),
    (ANY, f"1|local||{'x' * 201}", f"1000000000,local,,{'x' * 197}...\n"),
    (ANY, f"1|local||{'x' * 200}", f"1000000000,local,,{'x' * 200}\n"),
    # JSON
    (["--json"], '{"stamp": 1795848181.286421123, "kind": "send", "key": 17, "text": "a"}', "1795848181286421123,send,17,a\n"),
    (["--json", "--unit", "ns"], '{"stamp": 1795848181286421123}', "1795848181286421123,local,,\n"),
    (["--json", "--stamp", "at", "--key", "http.id", "--text", "msg"], '{"at":"2026-11-28T06:43:01Z","kind":"send","http":{"id":"r"},"msg":"J\\u00f6rg"}', "1795848181000000000,send,r,Jorg\n"),
    (["--json", "--key", "a.b"], '{"stamp":1,"kind":"receive","a.b":true}', "1000000000,receive,true,\n"),
    (["--json"], 'plain text\n[1]\n{"kind":"send"}\n{"stamp":null}\n{"stamp":2}\n', "2000000000,local,,\n"),
    # ends of lines, and a byte order mark
    (ANY, "\ufeff1|local||a\r\n2|local||b", "1000000000,local,,a\n2000000000,local,,b\n"),
    # a row that has no lawful stamp ends the run where it stands
    (ANY, "1|local||\nx|local||\n", (2, "neither")),
]


class Rows(unittest.TestCase):
    def test_rows_of_lines(self) -> None:
        for words, log, wanted in CASES:
            with self.subTest(words=words, log=log):
                ran = subprocess.run([sys.executable, f"{TOOLS}/rows", *words], input=log.encode(), capture_output=True)
                said = ran.stderr.decode()
                if isinstance(wanted, str):
                    self.assertEqual((ran.stdout.decode(), ran.returncode), (wanted, 0), said)
                else:
                    line, why = wanted
                    self.assertEqual(ran.returncode, 1, said)
                    self.assertIn(f"line {line}: ", said)
                    self.assertIn(why, said)


if __name__ == "__main__":
    unittest.main()
