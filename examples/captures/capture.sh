#!/usr/bin/env bash
# Takes two captures of one link, at both of its ends, and cuts them to what the example needs.
#
#     sudo ./capture.sh FOLDER
#
# Two network namespaces stand for two hosts, joined by a virtual cable. A few requests go over TCP and over UDP, and tcpdump
# writes what each end sees into FOLDER/left.pcap, with nanoseconds, and FOLDER/right.pcap, with microseconds. It needs tcpdump,
# iproute2 and Python 3, and leaves nothing behind.
set -euo pipefail
to=$(realpath "${1:?a folder for the captures}")

cleanup() {
    kill $(jobs -p) 2>/dev/null || true
    ip netns del tracesync-left 2>/dev/null || true
    ip netns del tracesync-right 2>/dev/null || true
}
trap cleanup EXIT

ip netns add tracesync-left
ip netns add tracesync-right
ip link add cable-left netns tracesync-left type veth peer name cable-right netns tracesync-right
for side in left right; do
    # No second protocol, and no segments that are cut or joined on the way: both ends are to see the same packets.
    ip netns exec tracesync-$side sysctl -q -w net.ipv6.conf.all.disable_ipv6=1
    ip -n tracesync-$side link set lo up
    ip -n tracesync-$side link set cable-$side gso_max_size 1500 gso_max_segs 1 2>/dev/null || true
    ip -n tracesync-$side link set cable-$side up
done
ip -n tracesync-left addr add 10.9.0.1/24 dev cable-left
ip -n tracesync-right addr add 10.9.0.2/24 dev cable-right

dump() {
    ip netns exec tracesync-$1 tcpdump -q -n -i cable-$1 -s 96 --immediate-mode --time-stamp-precision=$2 -w "$to/$1.pcap" &
}
dump left nano
dump right micro
sleep 2

ip netns exec tracesync-right python3 - <<'PYTHON' &
import socket, threading
udp = socket.socket(socket.AF_INET, socket.SOCK_DGRAM)
udp.bind(("10.9.0.2", 7001))
def echo():
    while True:
        data, sender = udp.recvfrom(2000)
        udp.sendto(data.upper(), sender)
threading.Thread(target=echo, daemon=True).start()
tcp = socket.create_server(("10.9.0.2", 7000))
peer, _ = tcp.accept()
while data := peer.recv(2000):
    peer.sendall(data.upper())
peer.close()
PYTHON
sleep 1

ip netns exec tracesync-left python3 - <<'PYTHON'
import socket, time
udp = socket.socket(socket.AF_INET, socket.SOCK_DGRAM)
tcp = socket.create_connection(("10.9.0.2", 7000))
for n in range(12):
    udp.sendto(b"question %d" % n, ("10.9.0.2", 7001))
    udp.recv(2000)
    tcp.sendall(b"request %d" % n)
    tcp.recv(2000)
    time.sleep(0.02)
tcp.close()
PYTHON
sleep 1
