"""What has no messages says why, and by what it is mended."""

import unittest
from collections.abc import Iterable
from dataclasses import replace
from typing import Any

import making_captures as making
import making_networks as net
from captures import Blocks, Capture, classic
from inputs import Input
from logs import Log
from shortfall import Shortfall, unknown_lines

NONE = {"ambiguous": [], "messages": 0, "nokey": {}}
LEFT, RIGHT, BOX = "10.3.1.1", "10.3.2.2", "10.3.2.254"


def declared(**addresses: list[str]) -> dict[str, Any]:
    return {"hosts": {host: {"addresses": own} for host, own in addresses.items()}, "labels": {host: {"host": host, "kind": "capture"} for host in addresses}}


def capture(label: str, data: bytes) -> Input:
    content: Capture = classic(data) if data[:4] != b"\x0a\x0d\x0d\x0a" else Blocks(data).capture()
    return Input(label, label, f"{label}.pcap", "capture", content)


def conversation(client: str, server: str, link: int = making.ETHERNET) -> list[tuple[int, bytes]]:
    found = []
    for k in range(10):
        found.append((10**9 + k, making.framed(link, making.udp(client, server, payload=b"question%d" % k, ident=k + 1))))
        found.append((10**9 + k, making.framed(link, making.udp(server, client, (6000, 5000), payload=b"answer %d" % k, ident=k + 1))))
    return found


def told(inputs: Iterable[Input], tables: dict[str, Any], **nokey: int) -> str:
    return "\n".join(Shortfall(list(inputs), tables, {**NONE, "nokey": nokey}, "hosts.toml").lines())


class NoMessages(unittest.TestCase):
    def test_it_says_so_before_all(self) -> None:
        self.assertTrue(told([], declared()).startswith("THERE ARE NO MESSAGES"))

    def test_one_host_alone(self) -> None:
        self.assertIn("All events are a's", told([capture("a", making.classic(conversation(LEFT, RIGHT)))], declared(a=[LEFT])))

    def test_address_translation_is_named_with_both_names_of_a_packet(self) -> None:
        files = [capture("e", making.classic(conversation(LEFT, RIGHT))), capture("f", making.classic(conversation(BOX, RIGHT)))]
        text = told(files, declared(e=[LEFT], f=[RIGHT]))
        self.assertIn("20 packets of e stand at f with other addresses or ports", text)
        self.assertTrue(f"{LEFT}:5000 > {RIGHT}:6000 is {BOX}:5000 > {RIGHT}:6000" in text or f"{RIGHT}:6000 > {LEFT}:5000 is {RIGHT}:6000 > {BOX}:5000" in text, text)

    def test_the_same_addresses_are_no_translation(self) -> None:
        files = [capture(host, making.classic(conversation(LEFT, RIGHT))) for host in ("e", "f")]
        self.assertNotIn("translates", told(files, declared(e=[LEFT], f=[RIGHT])))

    def test_packets_twice_on_any_name_the_interface_to_keep(self) -> None:
        packets = conversation(LEFT, RIGHT, making.COOKED2)
        again = [(stamp, data[:4] + (7).to_bytes(4, "big") + data[8:]) for stamp, data in packets]
        files = [capture("a", making.pcapng(packets + again[:18], making.COOKED2)), capture("b", making.classic(conversation(LEFT, RIGHT)))]
        tables = declared(a=[LEFT], b=[RIGHT])
        self.assertIn("18 packets are there more than once, on the interfaces 2, 7, so their keys are ambiguous: write interface = 2 below "
                      "[labels.a] of hosts.toml, or another one of these", told(files, tables))  # fmt: skip
        tables["labels"]["a"]["interface"] = 7
        self.assertNotIn("more than once", told(files, tables))

    def test_once_on_each_of_two_interfaces_is_not_twice(self) -> None:
        packets = conversation(LEFT, RIGHT, making.COOKED2)
        mixed = [(stamp, data[:4] + (k % 2).to_bytes(4, "big") + data[8:]) for k, (stamp, data) in enumerate(packets)]
        self.assertNotIn("more than once", told([capture("a", making.pcapng(mixed, making.COOKED2))], declared(a=[LEFT])))

    def test_labels_that_packets_pass_by_need_segments(self) -> None:
        places = net.behind(net.E1)
        net.converse(places)
        files = [replace(capture(it.label.split("@")[0], making.classic(it.records)), host=it.label.split("@")[-1]) for it in places]
        tables = declared(a=[net.E1], f=[RIGHT], n=[])
        tables["labels"] = {it.label: {"host": it.host, "kind": "capture"} for it in files}
        tables["labels"]["n_lan"]["beyond"] = [net.E1]
        tables["labels"]["n_wan"]["beyond"] = [RIGHT]
        self.assertIn('each side needs a segment of its own in hosts.toml: segment = "a-n" at a and n_lan; segment = "n-f" at f and n_wan.', told(files, tables))
        for label, name in (("a", "x"), ("n_lan", "x"), ("n_wan", "y"), ("f", "y")):
            tables["labels"][label]["segment"] = name
        self.assertNotIn("segment", told(files, tables))
        self.assertNotIn("the other way", told(files, tables))
        tables["labels"]["n_wan"]["beyond"] = [net.E1]
        self.assertIn("n_wan: 20 packets are declared to go the other way than the captures show (this host has the same packets at two places, and they came in "
                      f"where they were seen first): {RIGHT} should be beyond it", told(files, tables))  # fmt: skip

    def test_captured_too_short(self) -> None:
        files = [capture(host, making.classic([(stamp, data[:44]) for stamp, data in conversation(LEFT, RIGHT)])) for host in ("a", "b")]
        text = told(files, {**declared(a=[LEFT], b=[RIGHT]), "payload_bytes": 8}, short=20)
        self.assertIn("20 packets were captured too short", text)
        self.assertIn("a 44, b 44", text)
        self.assertIn("payload_bytes = 0 into hosts.toml", text)

    def test_addresses_of_no_host(self) -> None:
        files = [capture(host, making.classic(conversation(LEFT, RIGHT))) for host in ("a", "b")]
        text = told(files, declared(a=["10.9.9.9"], b=[RIGHT]), side=20)
        self.assertIn("a: its addresses are 10.9.9.9, and packets stand between others, mostly 10.3.1.1 (20), 10.3.2.2 (20)", text)
        self.assertIn('addresses = ["10.3.1.1"] below [hosts.a] of hosts.toml', text)
        self.assertNotIn("b: its", text)

    def test_logs_whose_keys_do_not_meet(self) -> None:
        files = [Input("a", "a", "a.csv", "log", Log([(1, "send", "one", "")])), Input("b", "b", "b.csv", "log", Log([(1, "receive", "\x1bother", "")]))]
        self.assertIn("`one` at a was sent, and `\x1bother` at b was received".replace("\x1b", "?"), told(files, {}))

    def test_logs_without_sends(self) -> None:
        files = [Input(host, host, f"{host}.csv", "log", Log([(1, "local", "", "")])) for host in ("a", "b")]
        self.assertIn("No row of a log is a `send`", told(files, {}))

    def test_a_session_with_messages_says_nothing_of_this(self) -> None:
        files = [capture(host, making.classic(conversation(LEFT, RIGHT))) for host in ("e", "f")]
        self.assertEqual(Shortfall(files, declared(e=[LEFT], f=[RIGHT]), {**NONE, "messages": 20, "nokey": {"side": 3}}, "hosts.toml").lines(), [])

    def test_keys_that_are_used_again_name_the_window(self) -> None:
        for counts, messages, top, is_told in (((5, 6), 1, {}, True), ((5, 6), 0, {}, True), ((5, 4), 1, {}, False), ((5, 6), 2, {}, False), ((5, 6), 1, {"window": 0}, False)):
            report = {"ambiguous": [{"key": "", "sends": ["a#1"], "receives": ["b#1"] * (it - 1)} for it in counts], "messages": messages, "nokey": {}}
            lines = [it for it in Shortfall([], {**declared(), **top}, report, "hosts.toml").lines() if "window" in it]
            self.assertEqual([it.startswith("Most keys are used again: 2 keys have more than 4 events. So write window = NS at the top of hosts.toml, ") for it in lines],
                             [True] * is_told, (counts, messages, top))  # fmt: skip

    def test_keys_that_stand_alone_name_the_offset(self) -> None:
        for alone, messages, is_told in ((1, 0, True), (3, 2, True), (2, 2, False), (0, 0, False)):
            report = {"alone": alone, "ambiguous": [], "messages": messages, "nokey": {}}
            lines = [it for it in Shortfall([], {**declared(), "window": 5}, report, "hosts.toml").lines() if "offset" in it]
            self.assertEqual([it.startswith(f"Most keys stand alone: {alone} key") for it in lines], [True] * is_told, (alone, messages))
            told_cure = "never within the window. So write offset = NS at the clocks that are ahead, about, or a greater window at the top of hosts.toml."
            self.assertTrue(all(it.endswith(told_cure) for it in lines))

    def test_addresses_that_were_not_found_out_have_words_for_the_declaration(self) -> None:
        pair = (bytes([10, 3, 1, 1]), bytes([10, 3, 2, 2]))
        self.assertEqual(unknown_lines([("a.b", [pair]), ("c", [])], "hosts.toml"),
                         ['Is 10.3.1.1 a.b\'s, or 10.3.2.2? Write for instance addresses = ["10.3.1.1"] below [hosts."a.b"] of hosts.toml, '
                          "and name it with --declaration; or the other one."])  # fmt: skip


if __name__ == "__main__":
    unittest.main()
