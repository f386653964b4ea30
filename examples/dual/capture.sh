#!/usr/bin/env bash
# Takes captures of one link over IPv4 and IPv6, at both of its ends, each end on its interface and on all interfaces at once.
#
#     sudo ./capture.sh FOLDER
#
# Two network namespaces stand for two hosts, joined by a virtual cable. A few requests go over TCP and over UDP, of IPv4 and of IPv6.
# dumpcap writes what each end sees on its interface into FOLDER/left.pcap and FOLDER/right.pcap (Ethernet), and what the right end
# sees on `any` into FOLDER/right-any1.pcap (Linux cooked, version 1); tcpdump writes the latter once more, into
# FOLDER/right-any2.pcap (version 2). left.pcap and right-any2.pcap are kept here. It needs dumpcap, tcpdump, iproute2 and Python 3,
# and leaves nothing behind.
set -euo pipefail
to=$(realpath "${1:?a folder for the captures}")

cleanup() {
    kill $(jobs -p) 2>/dev/null || true
    ip netns del tracesync-left 2>/dev/null || true
    ip netns del tracesync-right 2>/dev/null || true
}
trap cleanup EXIT

ip netns add tracesync-left
ip netns add tracesync-right
ip link add cable-left netns tracesync-left type veth peer name cable-right netns tracesync-right
for side in left right; do
    # No segments that are cut or joined on the way: both ends are to see the same packets.
    ip -n tracesync-$side link set cable-$side gso_max_size 1500 gso_max_segs 1 2>/dev/null || true
    ip -n tracesync-$side link set cable-$side up
done
ip -n tracesync-left addr add 10.9.0.1/24 dev cable-left
ip -n tracesync-right addr add 10.9.0.2/24 dev cable-right
ip -n tracesync-left addr add fd09::1/64 dev cable-left nodad
ip -n tracesync-right addr add fd09::2/64 dev cable-right nodad
sleep 2

ip netns exec tracesync-left dumpcap -q -P -i cable-left -s 128 -w "$to/left.pcap" 2>/dev/null &
ip netns exec tracesync-right dumpcap -q -P -i cable-right -s 128 -w "$to/right.pcap" 2>/dev/null &
ip netns exec tracesync-right dumpcap -q -P -i any -s 128 -w "$to/right-any1.pcap" 2>/dev/null &
ip netns exec tracesync-right tcpdump -q -n -i any -s 128 --immediate-mode -w "$to/right-any2.pcap" 2>/dev/null &
sleep 2

ip netns exec tracesync-right python3 - <<'PYTHON' &
import socket, threading

def echo_datagrams(family, address):
    udp = socket.socket(family, socket.SOCK_DGRAM)
    udp.bind((address, 7001))
    while True:
        data, sender = udp.recvfrom(2000)
        udp.sendto(data.upper(), sender)

def echo_stream(family, address):
    tcp = socket.create_server((address, 7000), family=family)
    peer, _ = tcp.accept()
    while data := peer.recv(2000):
        peer.sendall(data.upper())
    peer.close()

ends = [(socket.AF_INET, "10.9.0.2"), (socket.AF_INET6, "fd09::2")]
for end in ends:
    threading.Thread(target=echo_datagrams, args=end, daemon=True).start()
streams = [threading.Thread(target=echo_stream, args=end) for end in ends]
for stream in streams:
    stream.start()
for stream in streams:
    stream.join()
PYTHON
sleep 1

ip netns exec tracesync-left python3 - <<'PYTHON'
import socket, time
for family, address in (socket.AF_INET, "10.9.0.2"), (socket.AF_INET6, "fd09::2"):
    udp = socket.socket(family, socket.SOCK_DGRAM)
    tcp = socket.create_connection((address, 7000))
    for n in range(6):
        udp.sendto(b"question %d" % n, (address, 7001))
        udp.recv(2000)
        tcp.sendall(b"request %d" % n)
        tcp.recv(2000)
        time.sleep(0.02)
    tcp.close()
PYTHON
sleep 1
