"""Replies and declarations are told, and refusals by what is mostly their cause."""

import os
import subprocess
import tempfile
import unittest
from typing import Any
from xml.etree import ElementTree

import making_captures as making
from chain_picture import chain_svg
from common import EXAMPLES, PROGRAM
from contradiction import Contradiction
from explaining import Explainer
from healing import told_cycle
from tracesync import declaration
from tracesync.certificates import read_cycle
from tracesync.problems import read_problem
from tracesync.replies import split_replies

DECLARED = f"{EXAMPLES}/captures/hosts.toml"
CYCLE = """certificate 1
cycle
step early b#2 3.000000000
step span-least b 100 300 -199.996000000
step late b#1 2.000000000
step delay-least a#1 b#1 -1.000000000
step early a#1 0.000000000
step span-most a 50 150 100.002000000
step late a#2 3.000000000
step delay-most b#2 a#2 20.000000000
end"""


# A message from a host's later clock to its earlier one, which began at least 5 ns before.
FOLLOWED = """problem 2
clock a1 0 0 0 0
clock a2 0 0 0 0
follow a1 a2 5
event p#1 a1 7
event q#1 a2 3
message q#1 p#1 2 none
end"""
FOLLOWED_CYCLE = """certificate 1
cycle
step delay-least q#1 p#1 -2.000000000
step early q#1 0.000000000
step follow a1 7 a2 3 -5.000000000
step late p#1 0.000000000
end"""


class Replies(unittest.TestCase):
    def told(self, line: str, reply: str, **known: Any) -> str:
        return "\n".join(Explainer(**known).reply(line, reply.split("\n")).words)

    def test_replies(self) -> None:
        cases = (
            ("interval a#1 b#1", "interval 1000.000000000 2000.500000000", "b#1 came 1 us to 2.001 us after a#1"),
            ("interval a#1 b#1", "interval -2000.500000000 -1000.000000000", "b#1 came 1 us to 2.001 us before a#1"),
            ("interval a#1 b#1", "interval -1.000000000 +inf", "b#1 came 1 ns at most before or any time after a#1: which was first is open"),
            ("interval a#1 b#1", "interval 5.000000000 +inf", "b#1 came 5 ns or more after a#1"),
            ("order a#1 b#1", "order after", "a#1 came after b#1, whatever happened"),
            ("keep a#1", "kept 2", "questions about a#1 are answered at once from now on (the 2. of eight that can be kept)"),
            ("merge", "merge 1\n0.000000000 a#1", "1 event in the order of one execution, the earliest: for two of them ask `order`"),
            ("times", "times 2\na#1 0.000000000 0.000000000\nb#1 5.000000000 +inf", "the least and the greatest time of 2 events, in ns: by the clock of the source"),
            ("times a#1", "times 1\na#1 0.000000000 0.000000000", "the least and the greatest time of 1 event, in ns: since a#1"),
            ("time a#1", "time 1795842008123456789.000000000 1795842008123456799.000000000",
             "by the clock of the source a#1 was between 2026-11-28 05:00:08.123456789 UTC and 2026-11-28 05:00:08.123456799 UTC, 10 ns apart (ns are cut off)"),
            ("blame", "blame none", "nothing contradicts what was declared, so nothing is to blame"),
            ("blame", "blame delays none\nblame gaps 4 ns\nend",
             "With any one of these alone nothing contradicts any more, and with 1 less something does (by `blame`); the likeliest first:\n"
             "  each `gap` less by 4 ns\n1 other would not do alone, however wide."),
            ("report", '{"alone":2,"ambiguous":[],"consistent":true,"events":9,"messages":3,"nokey":{},"unmatched":1}',
             "3 messages among 9 events; 1 without another end; 2 keys are sent and received, and never within the window"),
            ("report", '{"alone":0,"ambiguous":[],"consistent":true,"events":6,"messages":3,"nokey":{},"unmatched":0}', "3 messages among 6 events"),
            ("report", '{"ambiguous":[],"consistent":true,"events":3,"messages":1,"nokey":{"short":1,"side":0},"unmatched":0}', "1 message among 3 events; 1 captured too short"),
            ("report", '{"ambiguous":[],"consistent":true,"events":9,"messages":0,"nokey":{"interface":9,"side":0},"unmatched":0}', "0 messages among 9 events; 9 of other interfaces than their label names"),
            ("add a x", "added events 1 messages 0 withdrawn 0 pending 0 passed 3 consistent",
             "a has 1 events more, 0 messages were found, 3 packets under a are no events; what was declared can be true of all this"),
            ("add a x", "added events 1 messages 0 withdrawn 0 pending 7 consistent", "a has 1 events more, 0 messages were found, the last 7 bytes are no whole packet and wait for their rest; what was declared can be true of all this"),
        )  # fmt: skip
        for line, reply, wanted in cases:
            self.assertEqual(self.told(line, reply), wanted)

    def test_keys_that_are_used_again(self) -> None:
        key = '{"key":"k","receives":["b#1","b#2"],"sends":["a#1","a#2","a#3"]}'
        told = self.told("report", f'{{"ambiguous":[{key}],"consistent":true,"events":5,"messages":0,"nokey":{{}},"unmatched":0}}')
        self.assertIn("0 messages among 5 events; 1 key with too many events\nMost keys are used again: 1 key has more than 4 events. "
                      "So write window = NS at the top of the declaration, ", told)  # fmt: skip

    def test_refusals_by_the_line(self) -> None:
        cases = (
            ("", "20", "the line is empty"), ("# a", "20", "comments"), ("merge ", "20", "blank too many"), ("merge\r", "20", "carriage return"), ("Merge", "20", "merge is"),
            ("add a my file", "20", "a path has no blanks"), ("order a#1", "20", "2 words"), ("times a#1 b#1", "20", "one word behind it, or none, and here are 2"), ("times a#01", "28", "not of the form"), ("times", "29", "no source is declared"), ("add web x", "21", "no label web is declared; there are left, right"),
            ("add a nosuch", "22", "there is no file nosuch"), ("add a ~/x", "22", "no quotes"), ("merge\udcff", "20", "`merge?` is no command"), ("add a \udcff", "20", "a byte that is not plain ASCII"), (f"add a {EXAMPLES}", "22", "is a folder"), ("order a#01 b#1", "28", "not of the form"),
            ("order x#1 left#1", "28", "no label x is declared"), ("time left#1", "29", "no source is declared"), ("keep left#1", "30", "eight events"), ("add a x", "27", "16,777,216"),
        )  # fmt: skip
        for line, number, wanted in cases:
            self.assertIn(wanted, self.told(line, f"refused {number}", declaration=DECLARED), line)

    def test_refusals_by_the_file(self) -> None:
        capture = making.classic([(1, making.framed(1, making.udp("10.0.0.1", "10.0.0.2")))])
        cases = (
            (b"\x1f\x8b123", "24 1", "compressed by gzip: gunzip"), (b"1,local,,\n", "24 1", 'kind = "log"'), (b"\x00\x01\x02\x03", "24 1", "neither classic pcap nor pcapng"),
            (capture, "26 1 1", 'kind = "capture"'), (b"1,local,,\n2,SEND,a,\n", "26 2 3", "It is: 2,SEND,a,"), (capture, "25 9", "at byte 9"), (capture, "25 9 header", "header of another capture"), (b"\x28\xb5\x2f\xfd", "31 12", "compressed by zstd"),
        )  # fmt: skip
        for data, numbers, wanted in cases:
            with tempfile.NamedTemporaryFile(delete=False) as it:
                it.write(data)
            self.assertIn(wanted, self.told(f"add a {it.name}", f"refused {numbers}"), numbers)
            os.remove(it.name)

    def test_a_second_header_is_told_from_a_file_that_is_added_again(self) -> None:
        path = f"{EXAMPLES}/captures/left.pcap"
        other = f"{EXAMPLES}/captures/right.pcap"
        for second, wanted in ((path, "was added before"), (other, "begins with a header of its own")):
            explainer = Explainer()
            explainer.reply(f"add left {path}", ["added events 58 messages 0 withdrawn 0 pending 0 consistent"])
            self.assertIn(wanted, explainer.reply(f"add left {second}", ["refused 25 4636 header"]).words[0])

    def test_an_event_that_is_not_there_yet(self) -> None:
        explainer = Explainer(declaration=DECLARED)
        explainer.reply("add left x", ["added events 58 messages 0 withdrawn 0 pending 0 consistent"])
        self.assertEqual(explainer.reply("keep left#59", ["refused 28"]).words, ["left has 58 events so far"])

    def test_replies_are_split_where_they_end(self) -> None:
        lines = ["kept 1", "merge 2", "0.000000000 a#1 end", "1.000000000 a#2", *CYCLE.split("\n"), "problem 1", "end", *FOLLOWED.split("\n"), "order open"]
        lines += ["blame none", "blame delays none", "blame stamps end none", "end", "kept 1"]
        lines += ["times 2", "a#1 0.000000000 0.000000000", "end#1 -inf +inf", "times 0", "kept 1"]
        self.assertEqual([len(it) for it in split_replies(lines)], [1, 3, 11, 2, 8, 1, 1, 3, 1, 3, 1, 1])

    def test_a_problem_with_clocks_that_follow(self) -> None:
        self.assertEqual(self.told("problem", FOLLOWED), "all that is declared and known: 2 clocks, 1 follow, 2 events, 1 message")

    def test_a_smaller_problem_is_not_taken_for_the_whole_one(self) -> None:
        explainer = Explainer()
        explainer.reply("problem", FOLLOWED.split("\n"))
        told = explainer.reply("thin a#1", ["problem 1", "end"]).words
        self.assertEqual((told, explainer.problem), (["what implies all the rest of it: 0 clocks, 0 events, 0 messages"], FOLLOWED.split("\n")))


class Contradictions(unittest.TestCase):
    def test_groups_add_up_to_the_sum(self) -> None:
        steps = read_cycle(CYCLE.split("\n"))
        found = Contradiction(steps)
        self.assertEqual(sum(weight for _, weight in found.groups()), sum(it.weight for it in steps))

    def test_words(self) -> None:
        told = "\n".join(told_cycle(CYCLE.split("\n")))
        for wanted in ("-199.996 ns  b's clock from 100 to 300 showed 200 ns: at least so long", "-72.994 ns  in all", "b's clock, if its rate is off by 364970 ppm more", "the message from b#2 to a#2, if it took 72.994 ns more"):
            self.assertIn(wanted, told)

    def test_a_picture_has_each_stretch_and_message(self) -> None:
        problem = read_problem(["event a#1 a 50", "event a#2 a 150", "event b#1 b 100", "event b#2 b 300"])
        steps = read_cycle(CYCLE.split("\n"))
        texts = [it.text for it in ElementTree.fromstring(chain_svg(steps, problem)).iter() if it.tag.endswith("}text")]
        for wanted in ("shown as 200 ns, lasts at least 199.996 ns", "shown as 100 ns, lasts at most 100.002 ns", "takes at least 1 ns", "takes at most 20 ns", "b#1", "may be earlier by 3 ns at most"):
            self.assertIn(wanted, texts)

    def test_clocks_that_follow_are_told_and_drawn(self) -> None:
        steps, problem = read_cycle(FOLLOWED_CYCLE.split("\n")), read_problem(FOLLOWED.split("\n"))
        self.assertEqual(sum(weight for _, weight in Contradiction(steps).groups()), sum(it.weight for it in steps))
        told = "\n".join(told_cycle(FOLLOWED_CYCLE.split("\n")))
        self.assertIn("-5 ns  a2's clock showed 3 after a1's clock showed 7: at least 5 ns between", told)
        self.assertNotIn("less behind", told)
        texts = [it.text for it in ElementTree.fromstring(chain_svg(steps, problem)).iter() if it.tag.endswith("}text")]
        for wanted in ("comes 5 ns behind at least", "takes at least 2 ns", "p#1", "a1", "a2"):
            self.assertIn(wanted, texts)

    def test_a_gap_that_is_less_may_mend_a_chain(self) -> None:
        cycle = FOLLOWED_CYCLE.replace("step late p#1 0.", "step delay-most x#1 p#1 3.")
        self.assertIn("  a2's clock, if it came 4 ns less behind a1's clock than its gap is", told_cycle(cycle.split("\n")))

    def test_a_clock_that_was_set_is_cut_between_two_events(self) -> None:
        problem = read_problem(["problem 1", "event b#1 b 100", "event b#2 b 300", "event a#1 a 50", "event a#2 a 150"])
        told = Contradiction(read_cycle(CYCLE.split("\n")), problem).cures(74 * 10**9)
        self.assertIn("  b's clock, if its rate is off by 370000 ppm more, as no quartz is; or it was set: cut between b#1 and b#2", told)
        self.assertIn("; or it was set: cut between stamp 100 and stamp 300", "\n".join(Contradiction(read_cycle(CYCLE.split("\n"))).cures(74 * 10**9)))

    def test_a_rate_may_mend_one_chain_alone(self) -> None:
        told = "\n".join(Contradiction(read_cycle(CYCLE.split("\n"))).cures(2 * 10**5))
        self.assertIn("b's clock, if its rate is off by 1 ppm more (another chain may need more); or it was set", told)

    def test_a_long_contradiction_has_no_picture(self) -> None:
        self.assertIsNone(chain_svg(read_cycle(CYCLE.split("\n")) * 8, read_problem([])))

    def test_a_delay_below_0_mends_nothing(self) -> None:
        self.assertNotIn("less than its least", "\n".join(told_cycle(CYCLE.split("\n"))))


class Declarations(unittest.TestCase):
    def told(self, **value: Any) -> str:
        return "\n".join(declaration.told_declaration(value))

    def test_slips_are_asked_about(self) -> None:
        host = {"short": 50_000, "long": 50_003, "late": 2}
        cases = (
            ({"hosts": {"a": {}}}, "a PERFECT clock"), ({"hosts": {"a": {"short": 50, "long": 51, "late": 2}}}, "is 50_000 meant, 50 ppm?"), ({"hosts": {"a": {"short": 50_000, "late": 2}}}, "`long` is less"),
            ({"hosts": {"a": {**host, "late": 0}}}, "WITHOUT ANY ERROR"), ({"hosts": {"a": host}, "labels": {"a": {"host": "a", "kind": "capture"}}}, "NO ADDRESS"), ({"hosts": {"a": host, "b": host}}, "No link is declared from a to b"),
            ({"hosts": {"a": host}, "links": [{"from": "a", "to": "a"}]}, "with `least` 0"), ({"hosts": {"a": host}, "links": [{"from": "a", "to": "a", "least": 5, "most": 4}]}, "IS LESS THAN"), ({"hosts": {"a": host}}, "within 50 ppm"),
            ({"hosts": {"a": {**host, "short": 10**9}}}, "IS ABOVE 999_999_999"), ({"hosts": {"a": {**host, "short": 10**10}}}, "IS ABOVE 999_999_999"),
            ({"hosts": {"a": {**host, "offset": -5000}}, "window": 200_000_000}, "taken to be 5 us behind"), ({"hosts": {"a": {**host, "clocks": [{"name": "b", "offset": 3}]}}, "window": 7}, "taken to be 3 ns ahead"),
            ({"hosts": {"a": {**host, "late": 0}}, "labels": {"a": {"host": "a", "kind": "log", "late": 5}}}, "WITHOUT ANY ERROR, but where a label has its own"),
            ({"hosts": {"a": {**host, "late": 0}}, "labels": {"a": {"host": "a", "kind": "log", "early": 0, "late": 5}}}, "is said at its labels"),
            ({"hosts": {"a": host}, "window": 7}, "at most 7 ns behind"), ({"hosts": {"a": {**host, "clocks": [{"name": "b", "offset": 3}]}}}, "an `offset` DOES NOTHING"),
        )  # fmt: skip
        for value, wanted in cases:
            self.assertIn(wanted, self.told(**value))

    def test_hosts_with_several_clocks(self) -> None:
        clocks = [{"name": "a1", "gap": 3}, {"name": "a2", "gap": 5, "short": 0, "long": 0}, {"name": "a3"}]
        host = {"short": 50_000, "long": 50_003, "late": 2, "clocks": clocks}
        told = self.told(hosts={"a": host}, labels={"p": {"host": "a", "kind": "log"}, "q": {"host": "a", "kind": "log", "clock": "a2"}}, source="a2")
        for wanted in (
            "a: 3 clocks, one after the other.", "a1: the first clock of a, whose gap does nothing; its clock is within 50 ppm;",
            "a2: the clock of a behind a1, 5 ns after it at least; the source: a clock that is true; events are up to 0 ns before and 2 ns after their stamps.",
            "a3: the clock of a behind a2, from its last moment on; its clock is within 50 ppm; events are up to 0 ns before and 2 ns after their stamps; no label is stamped by it.",
            "p: a log taken at a and stamped by its first clock, a1.", "q: a log taken at a and stamped by a2.", "by the clock a2.",
        ):  # fmt: skip
            self.assertIn(wanted, told.split("\n") if wanted[-1] == "." and ":" in wanted[:3] else told)

    def test_labels_tell_where_they_were_taken(self) -> None:
        label = {"host": "n", "kind": "capture"}
        cases = (
            (label, "x: a capture taken at n."), ({**label, "segment": "lan"}, "x: a capture taken at n; its messages are those of the segment lan."),
            ({**label, "interface": 2}, "x: a capture taken at n; only packets of the interface 2 have keys."),
            ({**label, "late": 2}, "x: a capture taken at n; its events are up to 2 ns after their stamps."),
            ({**label, "early": 5_000_000, "late": 0}, "x: a capture taken at n; its events are up to 5 ms before their stamps; its events are up to 0 ns after their stamps."),
            ({**label, "addresses": ["10.0.0.1"], "beyond": ["10.3.0.0/16"], "clock": "m"},
             "x: a capture taken at n and stamped by m; near it is 10.0.0.1, and no other address of the same version; beyond it are 10.3.0.0/16."),
            ({**label, "beyond6": ["fd00:0:0:0:0:0:0:1"]}, "x: a capture taken at n; beyond it is fd00:0:0:0:0:0:0:1."),
        )  # fmt: skip
        for value, wanted in cases:
            told = self.told(hosts={"n": {}}, labels={"x": value}).split("\n")
            self.assertIn(wanted, told)
            self.assertEqual("NO ADDRESS" in "".join(told), not {"addresses", "beyond", "beyond6"} & set(value))

    def test_refusals_of_labels_name_what_is_wrong(self) -> None:
        label, packets = '[hosts.a]\n[labels.x]\nhost = "a"\n', 'kind = "capture"\n'
        cases = (
            ('kind = "log"\nsegment = "lan"\nbeyond = []\ninterface = 1\n', 2, "a log has no packets, and so none of beyond, interface"),
            (packets + "place = 1\n", 2, "no such key: place"), (packets + "interface = [1]\n", 3, "but for interface, early and late, numbers"), (packets + "late = '1'\n", 3, "but for interface, early and late"),
            (packets + 'segment = "a b"\n', 4, "segment = 'a b' is no name"), (packets + "interface = 4294967296\n", 5, "interface = 4294967296 is not from 0"),
            (packets + "early = -1\n", 5, "early = -1 is not from 0 to 4_611"), ('kind = "log"\nlate = 4611686018427387904\n', 5, "late = 4611686018427387904 is not from 0"),
            (packets + f"beyond = {[f'10.0.{it // 256}.{it % 256}' for it in range(257)]}\n".replace("'", '"'), 5, "it has 257 subnets, and 256 are the most"),
            (packets + 'beyond = ["10.0.0.1/24"]\n', 6, "10.0.0.1/24 is no address or subnet such as 10.0.0.1 or 10.0.0.0/24"),
            (packets + 'addresses = ["10.0.0.0/33"]\n', 6, "10.0.0.0/33 is no"), (packets + 'addresses = ["10.0.0.0/08"]\n', 6, "10.0.0.0/08 is no"),
            (packets + 'beyond6 = ["fd00::/64"]\n', 6, "fd00::/64 is no address or subnet such as fd00:"),
            (packets + 'addresses6 = ["fd00:0:0:0:0:0:0:0/129"]\n', 6, "fd00:0:0:0:0:0:0:0/129 is no"),
            (packets + 'beyond = ["10.0.0.1", "10.0.0.1/32"]\n', 6, "10.0.0.1/32 is there twice"),
            (packets + 'addresses = ["0.0.0.0/0"]\nbeyond = ["0.0.0.0/0"]\n', 9, "0.0.0.0/0 is both near and beyond"),
        )  # fmt: skip
        for text, number, wanted in cases:
            with tempfile.NamedTemporaryFile("w", suffix=".toml") as it:
                it.write(label + text)
                it.flush()
                self.assertIn(f", line 2: label x: {wanted}" if not wanted.startswith("but") else wanted, declaration.refused(it.name, number, "labels", 1))
                if PROGRAM:
                    ran = subprocess.run([PROGRAM, "session", it.name], input="", capture_output=True, text=True)
                    self.assertEqual(ran.stdout, f"declaration {number} labels 1\n", text)

    def test_refusals_name_the_table_and_its_line(self) -> None:
        cases = (
            ('[hosts.web]\nshort = 1\n[hosts.app]\ndrift = 3\n', 2, "hosts", 1, "line 3: host app: no such key: drift"),
            ('[hosts.a.example.com]\nshort = 1\n', 2, "hosts", 1, '[hosts."a.example"]'),
            ('[hosts.a]\naddresses = ["10.0.0.1/24"]\n', 6, "hosts", 1, "no address such as 10.0.0.1: 10.0.0.1/24"),
            ('[hosts.a]\n[labels.x]\nhost = "b"\nkind = "log"\n', 4, "labels", 1, "line 2: label x: there is no host b"),
            ('[hosts.a]\n[[links]]\nfrom = "a"\nto = "a"\n[[links]]\nfrom = "a"\nto = "a"\n', 4, "links", 2, "line 5: link 2: an earlier link"),
            ('[hosts.a]\nclocks = [{ name = "b", addresses = [] }]\n', 2, "hosts", 1, "line 1: host a: no such key of its clock b: addresses"),
            ('[hosts.a]\nclocks = [{ name = "b" }, { gap = 5 }]\n', 2, "hosts", 1, "its clock 2 lacks its name"),
            ('[hosts.a]\nclocks = ["b"]\n', 3, "hosts", 1, "so do tables of clocks"),
            ('[hosts.a]\nclocks = [{ name = "b c" }]\n', 4, "hosts", 1, "'b c' is no name of a clock"),
            ('[hosts.a]\nclocks = [{ name = "b" }]\n[hosts.b]\n', 4, "hosts", 2, "line 3: host b: another clock has the name b already"),
            ('[hosts.a]\nclocks = [{ name = "b", gap = -1 }]\n', 5, "hosts", 1, "out of range: gap of b"),
            ('[hosts.a]\nshort = 1_000_000_000\n', 5, "hosts", 1, "out of range: short above 999_999_999"),
            ('[hosts.a]\nclocks = [{ name = "b" }]\n[labels.x]\nhost = "a"\nkind = "log"\nclock = "a"\n', 4, "labels", 1, "label x: a has no clock a, but b"),
            ('source = "b"\n[hosts.a]\n', 7, "top", 0, "source = 'b'"), ("[hosts.a\n", 1, "top", 0, "line 1"), ("payload = 3\n", 2, "top", 0, "another key on top: payload"),
        )  # fmt: skip
        for text, number, section, index, wanted in cases:
            with tempfile.NamedTemporaryFile("w", suffix=".toml", delete=False) as it:
                it.write(text)
            self.assertIn(wanted, declaration.refused(it.name, number, section, index))
            os.remove(it.name)


if __name__ == "__main__":
    unittest.main()
