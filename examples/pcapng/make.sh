#!/usr/bin/env bash
# Writes the captures of examples/captures once more, in pcapng.
#
#     ./make.sh FOLDER
#
# editcap writes FOLDER/left.pcapng, with nanoseconds and with comments, and tshark FOLDER/right.pcapng, with microseconds, which an
# interface counts in if it says nothing. FOLDER/copy.pcapng is left's as dumpcap writes it, with a block of statistics behind the packets.
# FOLDER/both.pcapng is what mergecap makes of both: one section with two interfaces. The latter two are not kept here: dumpcap writes
# down the machine that it runs on. It needs these four, of Debian's packages tshark and wireshark-common.
set -euo pipefail
to=$(realpath "${1:?a folder for the captures}")
from=$(realpath "$(dirname "${BASH_SOURCE[0]}")/../captures")

editcap --capture-comment 'One end of a cable' -a '3:A connection begins' "$from/left.pcap" "$to/left.pcapng"
tshark -r "$from/right.pcap" -w "$to/right.pcapng"
dumpcap -q -i - -w "$to/copy.pcapng" < "$from/left.pcap"
mergecap -w "$to/both.pcapng" "$from/left.pcap" "$from/right.pcap"
