"""Where traces were taken is found out, and what is declared of it makes the messages that there are."""

import subprocess
import tempfile
import tomllib
import unittest
from collections.abc import Sequence
from ipaddress import ip_network
from typing import Any

import making_captures as making
import making_networks as net
from common import PROGRAM
from declaring import Declaring
from gathering import Gathering
from headers import address_text
from making_networks import E1, SERVER, WAN, Place
from sides import Sides
from subnets import cover, subnet_text


class Networks(unittest.TestCase):
    def setUp(self) -> None:
        room = tempfile.TemporaryDirectory()
        self.addCleanup(room.cleanup)
        self.room = room.name

    def declared(self, words: Sequence[str], messages: int | None = None) -> dict[str, Any]:
        """Returns what is declared for files; a session of it has so many messages, all that are no contradiction."""
        self.found = Declaring(Gathering(self.room, lambda _: None).inputs(words))
        text = self.found.text()
        value = tomllib.loads(text)
        if messages is not None:
            self.assertEqual(self.found.placing.message_count(), messages)
            self.assertEqual(self.session(text, words), messages)
        return value

    def session(self, text: str, words: Sequence[str]) -> int:
        """Returns how many messages a session finds, where there is a program: as many as it counted itself else."""
        if not PROGRAM:
            return self.found.placing.message_count()
        with open(f"{self.room}/hosts.toml", "w") as it:
            it.write(text)
        adds = [f"add {label.split('@')[0]} {path}" for label, path in (word.split("=") for word in words)]
        ran = subprocess.run([PROGRAM, "session", it.name], input="\n".join([*adds, ""]), capture_output=True, text=True)
        replies = [line.split(" ") for line in ran.stdout.splitlines()]
        self.assertEqual({(it[0], it[-1]) for it in replies}, {("added", "consistent")}, ran.stdout)
        return sum(int(it[4]) - int(it[6]) for it in replies)

    def files(self, *places: Place, **more: Any) -> list[str]:
        net.converse(places, **more)
        return net.files(self.room, *places)

    def labels(self, value: dict[str, Any]) -> dict[str, dict[str, Any]]:
        return {name: {key: it for key, it in table.items() if key not in ("host", "kind")} for name, table in value["labels"].items()}


class Boxes(Networks):
    def test_translation_is_two_messages_a_packet(self) -> None:
        value = self.declared(self.files(*net.behind()), 40)
        self.assertEqual({host: it.get("addresses") for host, it in value["hosts"].items()}, {"a": [E1], "f": [SERVER], "n": [WAN]})
        wanted = {"a": {"segment": "a-n"}, "n_lan": {"segment": "a-n", "beyond": [E1]}, "n_wan": {"segment": "n-f"}, "f": {"segment": "n-f"}}
        self.assertEqual(self.labels(value), wanted)
        self.assertEqual(self.found.unknown, [])

    def test_a_router_needs_both_sides(self) -> None:
        value = self.declared(self.files(*net.behind(E1)), 40)
        wanted = {"a": {"segment": "a-n"}, "n_lan": {"segment": "a-n", "beyond": [E1]}, "n_wan": {"segment": "n-f", "beyond": [SERVER]}, "f": {"segment": "n-f"}}
        self.assertEqual((self.labels(value), value["hosts"]["n"].get("addresses")), (wanted, None))

    def test_a_switch_that_lowers_no_hops(self) -> None:
        places = net.behind(E1)
        for it in places:
            it.hops, it.near, it.far = 0, "a", "f"
        self.assertEqual(self.labels(self.declared(self.files(*places), 40))["n_wan"], {"segment": "n-f", "beyond": [SERVER]})

    def test_ipv6(self) -> None:
        ends = ("fd00:1:0:0:0:0:0:2", "fd00:2:0:0:0:0:0:2")
        places = [Place(it.label, *ends, it.hops, it.near, it.far, it.offset) for it in net.behind()]
        value = self.declared(self.files(*places), 40)
        self.assertEqual([self.labels(value)[it].get("beyond6") for it in ("n_lan", "n_wan")], [[ends[0]], [ends[1]]])

    def test_two_boxes_in_a_row(self) -> None:
        ends, other = ("10.1.0.2", SERVER), ("10.8.0.1", SERVER)
        places = [Place("a", *ends, 0, "a", "b1", 5), Place("b_in@b", *ends, 0, "a", "b1", 7), Place("b_out@b", *ends, 1, "b2", "c1", 7),
                  Place("c_in@c", *ends, 1, "b2", "c1", 11), Place("c_out@c", *other, 2, "c2", "f", 11), Place("f", *other, 2, "c2", "f", 9)]  # fmt: skip
        value = self.declared(self.files(*places), 60)
        self.assertEqual([it["segment"] for it in value["labels"].values()], ["a-b", "a-b", "b-c", "b-c", "c-f", "c-f"])

    def test_marks_of_any_tell_the_same(self) -> None:
        value = self.declared(self.files(*net.behind(link=making.COOKED2)), 40)
        self.assertEqual(self.labels(value)["n_lan"], {"segment": "a-n", "beyond": [E1]})

    def test_of_one_side_with_many_addresses_the_other_is_named(self) -> None:
        sides: list[list[Place]] = [[], [], []]
        for k in range(30):
            places = net.behind(f"10.3.1.{k % 3 + 2}")
            for it in places:
                it.client, it.server = places[3].client, f"{20 + 3 * k}.{k}.7.9"
            net.converse(places, 3, port=5000 + k, start=10**9 + 3333 * k)
            for side, it in zip(sides, places):
                side.append(it)
        value = self.declared(net.files(self.room, *sum(sides, [])), 180)
        self.assertEqual([self.labels(value)[it] for it in ("n_lan", "n_wan")], [{"segment": "a-n", "beyond": ["10.3.1.0/29"]}, {"segment": "n_wan", "addresses": ["10.3.1.0/29"]}])

    def test_a_label_of_one_side_by_the_station_of_all_frames(self) -> None:
        found: list[Place] = []
        for k in range(3):
            ends = (f"10.3.1.{k + 2}", f"93.{k}.7.9")
            places = [Place(f"c{k}", *ends, 0, f"c{k}", "lan", k), Place("n@n", *ends, 0, f"c{k}", "lan", 7), Place("far", *ends, 3, "", "")]
            net.converse(places, port=5000 + k, start=10**9 + 3333 * k)
            found += places[:2]
        value = self.declared(net.files(self.room, *found), 60)
        self.assertEqual(self.labels(value)["n"], {"beyond": ["10.3.1.0/29"]})

    def test_arp_names_addresses_of_a_box(self) -> None:
        places = net.behind(E1)
        net.arp(places[1], "lan", net.GATE)
        net.arp(places[1], "a", E1)
        net.arp(places[2], "wan", WAN)
        self.assertEqual(self.declared(self.files(*places), 40)["hosts"]["n"]["addresses"], [net.GATE, WAN])

    def test_one_side_of_a_box_between_two_hosts_is_told(self) -> None:
        places = net.behind(E1)
        net.converse(places)
        value = self.declared(net.files(self.room, places[0], places[1], places[3]), 20)
        self.assertEqual([it for it in self.labels(value).values() if it], [])
        self.assertEqual(len(self.found.unknown), 1)
        self.assertIn('If a\'s come to it first, write beyond = ["10.3.1.2"] there, and segment = "a"', self.found.unknown[0])

    def test_one_side_of_a_box_and_one_host(self) -> None:
        places = net.behind(E1)
        places[1].delay = 5000
        net.converse(places)
        value = self.declared(net.files(self.room, places[0], places[1]), 20)
        self.assertEqual((self.labels(value)["n_lan"], value["hosts"]["a"]["addresses"]), ({"beyond": [E1]}, [E1]))

    def test_two_labels_of_a_mirror_port_are_one_for_each_side(self) -> None:
        places = [Place("a", E1, SERVER, 0, "a", "b", 3), Place("m", E1, SERVER, 0, "a", "b", 5), Place("b", E1, SERVER, 0, "a", "b", 8)]
        words = self.files(*places)
        path = words[1].split("=")[1]
        value = self.declared([words[2], words[0], f"to_b@m={path}", f"to_a@m={path}"], 40)
        wanted = {"a": {"segment": "a-m"}, "to_a": {"segment": "a-m", "beyond": [E1]}, "b": {"segment": "b-m"}, "to_b": {"segment": "b-m", "beyond": [SERVER]}}
        self.assertEqual(self.labels(value), wanted)

    def test_a_switch_between_labels_in_any_order(self) -> None:
        places = net.behind(E1)
        for it in places:
            it.hops, it.near, it.far = 0, "a", "f"
        words = self.files(*places)
        value = self.declared([words[0], words[3], words[1], words[2]], 40)
        self.assertEqual([it["segment"] for it in value["labels"].values()], ["a-n", "f-n", "a-n", "f-n"])

    def test_a_host_that_passes_nothing_on_is_no_box(self) -> None:
        one, other = (Place("a", E1, SERVER, 0, "a", "b"), Place("b", E1, SERVER, 0, "a", "b", 5)), (Place("a2@a", "10.9.0.1", SERVER, 0, "c", "b", 3), Place("b", "10.9.0.1", SERVER, 0, "c", "b", 5))
        net.converse(one)
        net.converse(other, start=5 * 10**9, port=7000)
        value = self.declared(net.files(self.room, *one, *other), 40)
        self.assertEqual([it for it in self.labels(value).values() if it], [])


    def test_who_faces_a_box_is_on_the_other_side_of_its_label(self) -> None:
        pods = ("10.244.1.5", "10.244.2.7")
        inner = [Place("k1", *pods, 0, "", "", 3, link=making.COOKED2, interface=it, is_outward=False) for it in (7, 5)]
        outer = [Place("k1", *pods, 1, "", "", 3, link=making.COOKED2, interface=2, is_outward=True), Place("k2", *pods, 1, "k1", "k2", 8)]
        places = [*inner, *outer, Place("pod", *pods, 2, "k2", "pod")]
        net.converse(places)
        value = self.declared(net.files(self.room, *places[:4]), 20)
        self.assertEqual(self.labels(value), {"k1": {"interface": 2, "beyond": [pods[1]]}, "k2": {"beyond": [pods[0]]}})


class Interfaces(Networks):
    def tagged(self) -> list[Place]:
        return [Place("a", E1, SERVER, 0, "a", "b"), Place("b", E1, SERVER, 0, "", "", 5, link=making.COOKED2, interface=2, is_outward=False),
                Place("b", E1, SERVER, 0, "", "", 5, link=making.COOKED2, interface=4, is_outward=False, delay=300)]  # fmt: skip

    def test_the_outer_one_of_two_that_do_as_well(self) -> None:
        value = self.declared(self.files(*self.tagged()), 20)
        self.assertEqual(self.labels(value), {"a": {}, "b": {"interface": 2}})

    def test_the_one_whose_packets_are_known(self) -> None:
        places = self.tagged()
        net.converse(places)
        del places[1].records[10:]
        self.assertEqual(self.labels(self.declared(net.files(self.room, *places), 20))["b"], {"interface": 4})

    def test_a_file_that_is_named_twice_has_an_interface_for_each(self) -> None:
        for client, count in ((WAN, 40), (E1, 40)):
            places = net.behind(client, making.COOKED2)
            for it in places[1:3]:
                it.label = "n"
            words = self.files(*places)
            path = words[1].split("=")[1]
            value = self.declared([words[0], f"lan@n={path}", f"wan@n={path}", words[2]], count)
            self.assertEqual([value["labels"][it]["interface"] for it in ("lan", "wan")], [2, 3])

    def test_both_sides_of_a_translation_in_one_file(self) -> None:
        places = net.behind(link=making.COOKED2)
        for it in places[1:3]:
            it.label = "n"
        self.assertEqual(self.labels(self.declared(self.files(*places), 40)), {"a": {}, "f": {}, "n": {"addresses": [WAN], "beyond": [E1]}})

    def test_a_router_in_one_file_ties_one_side_and_says_so(self) -> None:
        places = net.behind(E1, making.COOKED2)
        for it in places[1:3]:
            it.label = "n"
        value = self.declared(self.files(*places), 20)
        self.assertEqual(value["labels"]["n"]["interface"], 2)
        self.assertIn("name that file twice", self.found.unknown[0])

    def test_interfaces_of_pcapng_where_nothing_is_marked(self) -> None:
        places = [Place("a", E1, SERVER, 0, "a", "b", 3), Place("b", E1, SERVER, 0, "a", "b", 8, delay=9000), Place("b", E1, SERVER, 0, "a", "b", 8, delay=3000)]
        net.converse(places)
        words = net.files(self.room, places[0])
        both = sorted((*it, number) for number, place in enumerate(places[1:]) for it in place.records)
        with open(f"{self.room}/b.pcapng", "wb") as it:
            it.write(making.pcapng([record[:2] for record in both], numbers=[record[2] for record in both]))
        value = self.declared([*words, f"b={self.room}/b.pcapng"], 20)
        self.assertEqual((self.labels(value)["b"], value["hosts"]["b"]["addresses"]), ({"interface": 0}, [SERVER]))


class Without(Networks):
    def test_no_message_is_possible(self) -> None:
        places = net.behind()
        net.converse(places)
        value = self.declared(net.files(self.room, places[0], places[3]), 0)
        self.assertEqual([it["addresses"] for it in value["hosts"].values()], [[E1], [SERVER]])
        self.assertIn("none can be a message", self.found.unknown[0])
        self.assertIn("capture at the box too, on each side a label", "\n".join(self.found.without))

    def test_that_is_said_of_no_session_of_one_host(self) -> None:
        places = net.behind()
        net.converse(places)
        self.declared(net.files(self.room, places[1], places[2]), 0)
        self.assertEqual(self.found.without, [])


class Hosts(Networks):
    def test_hops_tell_the_end_that_no_router_hides(self) -> None:
        places = net.behind()
        net.converse(places)
        value = self.declared(net.files(self.room, places[0]))
        self.assertEqual(value["hosts"]["a"]["addresses"], [E1])

    def test_hops_tell_nothing_where_two_hosts_have_seen_the_same(self) -> None:
        places = net.behind(E1)
        net.converse(places)
        value = self.declared(net.files(self.room, places[1], places[0]))
        self.assertEqual([it.get("addresses") for it in value["hosts"].values()], [None, None])

    def test_the_station_of_all_frames_tells_the_own_end(self) -> None:
        # (with each of three pairs neither address is in another one)
        found = []
        for k in range(3):
            ends = (f"10.3.1.{k + 1}", f"10.3.1.{k + 101}")
            found.append(Place("a", *ends, 0, "a", f"b{k}"))
            net.converse(found[-1:], 3, port=5000 + k)
        value = self.declared(net.files(self.room, *found))
        self.assertEqual(value["hosts"]["a"]["addresses"], [f"10.3.1.{k + 1}" for k in range(3)])


class Subnets(unittest.TestCase):
    def test_subnets_have_all_of_some_and_none_of_others(self) -> None:
        def packed(*texts: str) -> list[bytes]:
            return [making.address(it) for it in texts]

        cases = (
            (("10.0.0.1",), (), ["10.0.0.1"]), (("10.0.0.2", "10.0.0.3"), (), ["10.0.0.2/31"]), (("10.0.0.2", "10.0.0.9"), ("10.0.0.1",), ["10.0.0.2", "10.0.0.9"]),
            (("10.0.0.1", "200.0.0.1"), (), ["0.0.0.0/0"]), (("10.0.0.1", "200.0.0.1"), ("10.0.0.2",), ["10.0.0.1", "200.0.0.1"]),
            (("fd00::1", "fd00::2"), ("10.0.0.1",), ["fd00:0:0:0:0:0:0:0/126"]), ((), ("10.0.0.1",), []),
        )  # fmt: skip
        for some, others, wanted in cases:
            found = [subnet_text(*it) for it in cover(packed(*some), packed(*others))]
            self.assertEqual(found, wanted)
            for text in (*some, *others):
                is_in = any(ip_network(address_text(making.address(text))).subnet_of(ip_network(it)) for it in found if (":" in it) == (":" in text))  # type: ignore[arg-type]
                self.assertEqual(is_in, text in some, (text, found))


class Declared(unittest.TestCase):
    def test_the_narrowest_subnet_decides_and_else_the_host(self) -> None:
        label = {"host": "n", "addresses": ["10.0.0.0/8"], "beyond": ["10.1.0.0/16", "0.0.0.0/0"], "interface": 3, "segment": "x"}
        far = {"host": "n", "beyond": ["9.0.0.0/8"], "beyond6": ["fd00:0:0:0:0:0:0:1"]}
        own = {"addresses": ["9.9.9.9"], "addresses6": ["fd00:0:0:0:0:0:0:1"]}
        sides = Sides({"hosts": {"n": own}, "labels": {"l": label, "far": far, "plain": {"host": "n"}}})
        cases = (("l", "10.2.0.1", "10.1.0.1", 1), ("l", "10.1.0.1", "10.2.0.1", -1), ("l", "9.9.9.9", "10.1.0.1", 0), ("l", "10.2.0.1", "10.3.0.1", 0),
                 ("l", "fd00::1", "fd00::2", 1), ("far", "9.9.9.9", "9.1.1.1", 1), ("far", "9.1.1.1", "8.8.8.8", -1), ("far", "fd00::1", "fd00::2", -1), ("plain", "9.9.9.9", "10.0.0.1", 1), ("plain", "10.0.0.1", "9.9.9.9", -1), ("plain", "1.1.1.1", "2.2.2.2", 0))  # fmt: skip
        for name, source, target, wanted in cases:
            self.assertEqual(sides.side(name, making.address(source), making.address(target)), wanted, (name, source, target))
        self.assertEqual((sides.segment("l"), sides.segment("plain")), ("x", None))


if __name__ == "__main__":
    unittest.main()
