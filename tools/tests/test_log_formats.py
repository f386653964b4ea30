"""Runs tools/rows over logs in their own form. The lines are those of the formats' documents, or were worked out from them by hand."""

import contextlib
import importlib.machinery
import io
import json
import os
import tempfile
import unittest
from typing import Any

from common import EXAMPLES, TOOLS

ROWS: Any = importlib.machinery.SourceFileLoader("tools_rows", f"{TOOLS}/rows").load_module()
SAMPLES = f"{EXAMPLES}/logs-as-they-are"

SYSLOG = ["--format", "syslog"]
EARLIER = [*SYSLOG, "--year", "2026", "--zone", "Z"]
COMMON = ["--format", "common"]
JOURNAL = ["--format", "journald"]
NGINX = ["--format", "nginx"]
STRACE = ["--format", "strace"]
ZEEK = ["--format", "zeek", "--address", "10.0.0.1"]
ELEMENT = '[exampleSDID@32473 iut="3" eventSource="Appli\\"cation\\]" eventID="\\\\1\\0"]'
HEAD = "#separator \\x09\n#unset_field\t-\n#path\tconn\n#fields\tts\tid.orig_h\tid.orig_p\tid.resp_h\tid.resp_p\tproto\tduration\thistory\n"
FLOW = "1796005495.100000\t10.0.0.1\t40112\t10.0.0.2\t80\ttcp\t0.000003\tShADadfF"
BACK = "1796005495.1\t10.0.0.2\t5000\t10.0.0.1\t70\tudp\t-\tD"
TCP = "3<TCP:[10.0.0.1:5->10.0.0.2:80]>"

# The words, the log, and the rows.
CASES = [
    # RFC 3164: the example of section 5.4, a stamp with decimals, one with a year, a day of one digit; files of rsyslogd
    (EARLIER, "<34>Oct 11 22:14:15 mymachine su: 'su root' failed for lonvick on /dev/pts/8", "1791756855000000000,local,,'su root' failed for lonvick on /dev/pts/8\n"),
    (EARLIER, "Nov 30 02:24:55.103755 lab web[411]: sent id=7", "1796005495103755000,local,,sent id=7\n"),
    ([*SYSLOG, "--zone", "+01:00"], "Nov 30 2026 03:24:55 lab web: x", "1796005495000000000,local,,x\n"),
    (EARLIER, "Dec  1 00:00:00 lab kernel: x", "1796083200000000000,local,,x\n"),
    (EARLIER, "Nov 30 02:24:55 lab last message repeated 2 times", "1796005495000000000,local,,last message repeated 2 times\n"),
    (SYSLOG, "2026-11-30T03:24:55.000001+01:00 lab web[411]: x", "1796005495000001000,local,,x\n"),
    # from December to January the year goes along, and back
    ([*SYSLOG, "--year", "2026", "--zone", "Z"], "Dec 31 23:59:59 h a: 1\nJan  1 00:00:00 h a: 2\nDec 31 23:59:59 h a: 3\n", "1798761599000000000,local,,1\n1798761600000000000,local,,2\n1798761599000000000,local,,3\n"),
    ([*SYSLOG, "--year", "2028", "--zone", "Z"], "Feb 29 00:00:00 h a: 1\n", "1835395200000000000,local,,1\n"),
    # RFC 5424: the examples of section 6.5, of which the third has a stamp with an offset
    (SYSLOG, "<34>1 2003-10-11T22:14:15.003Z mymachine.example.com su - ID47 - \ufeff'su root' failed for lonvick on /dev/pts/8", "1065910455003000000,local,,'su root' failed for lonvick on /dev/pts/8\n"),
    (SYSLOG, "<165>1 2003-08-24T05:14:15.000003-07:00 192.0.2.1 myproc 8710 - - %% It's time to make the do-nuts.", "1061727255000003000,local,,%% It's time to make the do-nuts.\n"),
    ([*SYSLOG, "--text", "{app}/{msgid}/{exampleSDID@32473.iut}/{exampleSDID@32473.eventSource}/{exampleSDID@32473.eventID}/{facility}.{severity}"],
     f"<165>1 2003-10-11T22:14:15.003Z mymachine.example.com evntslog - ID47 {ELEMENT}[examplePriority@32473 class=\"high\"]", '1065910455003000000,local,,"evntslog/ID47/3/Appli""cation]/\\1\\0/20.5"\n'),
    ([*SYSLOG, "--text", "{facility}.{severity}"], "<191>1 1970-01-01T00:00:00Z h a - - -", "0,local,,23.7\n"),
    (SYSLOG, "<34>1 - h a - - - no stamp\n\n<34>1 1970-01-01T00:00:01Z h a - - -", "1000000000,local,,\n"),
    # what a message has to be, and its key
    ([*EARLIER, "--send", "sent", "--receive", "got", "--line", r"(?P<kind>sent|got) id=(?P<id>\S+)", "--key", "{host}/{id}", "--prefix", "request-,reply-"],
     "Nov 30 02:24:55 lab web: sent id=7\nNov 30 02:24:56 lab web: idle\nNov 30 02:24:57 lab web: got id=7\n", "1796005495000000000,send,request-lab/7,sent id=7\n1796005497000000000,receive,reply-lab/7,got id=7\n"),
    ([*EARLIER, "--line", r"id=(?P<id>\S+)", "--line", "", "--all", "send", "--key", "{id}-request"], "Nov 30 02:24:55 h a: id=7\nNov 30 02:24:56 h a: b\n", "1796005495000000000,send,7-request,id=7\n1796005496000000000,local,,b\n"),
    # the common log format: the example of Apache's document; the combined one; decimals; a request with quotes
    (COMMON, '127.0.0.1 - frank [10/Oct/2000:13:55:36 -0700] "GET /apache_pb.gif HTTP/1.0" 200 2326', "971211336000000000,local,,GET /apache_pb.gif HTTP/1.0 200\n"),
    ([*COMMON, "--text", "{user}|{method}|{path}|{agent}|{referer}", "--all", "receive", "--key", "{path}-{bytes}"],
     '127.0.0.1 - frank [10/Oct/2000:13:55:36 -0700] "GET /apache_pb.gif HTTP/1.0" 200 2326 "http://www.example.com/start.html" "Mozilla/4.08 [en] (Win98; I ;Nav)"',
     "971211336000000000,receive,/apache_pb.gif-2326,frank|GET|/apache_pb.gif|Mozilla/4.08 [en] (Win98; I ;Nav)|http://www.example.com/start.html\n"),
    ([*COMMON, "--line", r' (?P<took>\d+)$', "--all", "receive", "--key", "{path}-in", "--also", "send,stamp + took us,{path}-out"],
     '::1 - - [30/Nov/2026:02:24:55.25 +0000] "GET /a\\"b HTTP/1.1" 200 - 1500003', '1796005495250000000,receive,"/a\\""b-in","GET /a\\""b HTTP/1.1 200"\n1796005496750003000,send,"/a\\""b-out","GET /a\\""b HTTP/1.1 200"\n'),
    # the journal: us as text; a message that is bytes; other stamps; several values
    (JOURNAL, '{"__REALTIME_TIMESTAMP":"1796005495103755","MESSAGE":"hi","_HOSTNAME":"lab"}', "1796005495103755000,local,,hi\n"),
    (JOURNAL, '{"__REALTIME_TIMESTAMP":"1","MESSAGE":[104,195,182,255]}\n{"__REALTIME_TIMESTAMP":"2","MESSAGE":null}\n{"__REALTIME_TIMESTAMP":"3","MESSAGE":["a","b"]}\n', "1000,local,,ho?\n2000,local,,\n3000,local,,a\n"),
    ([*JOURNAL, "--stamp", "_SOURCE_REALTIME_TIMESTAMP", "--text", "{app}[{pid}]"], '{"__REALTIME_TIMESTAMP":"9","_SOURCE_REALTIME_TIMESTAMP":"7","SYSLOG_IDENTIFIER":"web","_PID":"3"}\n{"__REALTIME_TIMESTAMP":"9"}', "7000,local,,web[3]\n"),
    # nginx: a receive at $msec - $request_time, a send at $msec
    (NGINX, '1796005495.123 0.030 7f3a "GET /a HTTP/1.1" 200', "1796005495093000000,receive,7f3a-request,GET /a HTTP/1.1 200\n1796005495123000000,send,7f3a-reply,GET /a HTTP/1.1 200\n"),
    ([*NGINX, "--log-format", '[$time_local] ${msec}/$request_time up=$upstream_response_time "$request" id="$http_x_id"', "--key", "{http_x_id}.{role}", "--text", "{upstream_response_time}|{path}"],
     '[30/Nov/2026:02:24:55 +0000] 1796005495.123/0.001 up=0.001, 0.002 : 0.004 "GET /a?b=1 HTTP/1.1" id="7f3a"', '1796005495122000000,receive,7f3a.request,"0.001, 0.002 : 0.004|/a?b=1"\n1796005495123000000,send,7f3a.reply,"0.001, 0.002 : 0.004|/a?b=1"\n'),
    (NGINX, '1796005495.123 0.030 - "GET /a HTTP/1.1" 200', "1796005495093000000,local,,GET /a HTTP/1.1 200\n1796005495123000000,local,,GET /a HTTP/1.1 200\n"),
    ([*NGINX, "--also", "local,msec + request_time,"], '2.000 0.500 a "-" 400', "1500000000,receive,a-request,400\n2500000000,local,,400\n2000000000,send,a-reply,400\n"),
    ([*NGINX, "--key", "{request_id}", "--prefix", "out-,in-"], '2.000 1.500 a "-" 400', "500000000,receive,in-a,400\n2000000000,send,out-a,400\n"),
    # strace: a receive is stamped at its end, a send at its start; no bytes, no socket and failed calls are no messages
    ([*STRACE, "--line", r"id=(?P<key>\w+)"], f'1796005495.103755 recvfrom({TCP}, "id=7", 16, 0, NULL, NULL) = 4 <0.000034>', f'1796005495103789000,receive,7,"recvfrom({TCP}, ""id=7"", 16, 0, NULL, NULL) = 4"\n'),
    ([*STRACE, "--line", r"id=(?P<key>\w+)", "--text", "call"], f'411 1796005495.103755 sendto({TCP}, "id=7) = 3", 9, 0, NULL, 0) = 9 <0.000034>\n[pid   411] 1.5 write({TCP}, "id=8", 4) = 4 <0.25>', "1796005495103755000,send,7,sendto\n1500000000,send,8,write\n"),
    ([*STRACE, "--text", "{call} {result}", "--key", "result"],
     f'1.5 read({TCP}, "", 16) = 0 <0.1>\n1.5 read(3</etc/hosts>, "id", 16) = 2 <0.1>\n1.5 read(3, "id", 16) = 2 <0.1>\n1.5 recvmsg(3, 0x7ffe, 0) = -1 EAGAIN (Resource temporarily unavailable) <0.1>\n1.5 fsync(4) = 0 <0.1>\n1.5 openat(3, "a") = 4 <0.1>\n1.5 exit_group(0) = ?\n',
     "1500000000,local,,read 0\n1500000000,local,,read 2\n1500000000,local,,read 2\n1500000000,local,,recvmsg -1\n1500000000,local,,fsync 0\n1500000000,local,,openat 4\n1500000000,local,,exit_group ?\n"),
    ([*STRACE, "--line", r"id=(?P<key>\w+)", "--text", "{call} {descriptor} {result}"],
     '7 1.000000 recvmsg(3<socket:[9]>,  <unfinished ...>\n8 1.100000 sendmsg(4, {msg_iov="id=b"}, 0 <unfinished ...>\n7 1.200000 <... recvmsg resumed>{msg_iov="id=a"}, 0) = 4 <0.150001>\n8 1.300000 <... sendmsg resumed>) = 4 <0.2>\n7 1.4 +++ exited with 0 +++\nstrace: Process 9 attached\n9 1.5 <... recvmsg resumed>"id=c", 0) = 4 <0.1>\n',
     "1150001000,receive,a,recvmsg 3<socket:[9]> 4\n1100000000,send,b,sendmsg 4 4\n"),
    # Zeek: the first packet is the originator's, the last one is local; what began before is no message
    (ZEEK, f"{HEAD}{FLOW}\n{BACK}\n#close\t2026\n", "1796005495100000000,send,tcp-10.0.0.1:40112-10.0.0.2:80,tcp 10.0.0.1:40112 to 10.0.0.2:80\n1796005495100003000,local,,tcp 10.0.0.1:40112 to 10.0.0.2:80: its last packet\n"
           "1796005495100000000,receive,udp-10.0.0.2:5000-10.0.0.1:70,udp 10.0.0.2:5000 to 10.0.0.1:70\n"),
    ([*ZEEK, "--text", "history"], HEAD + "\n".join(FLOW.replace("0.000003", "-").replace("ShADadfF", it) for it in ("hADa", "DadA", "^hA", "S")), "".join(f"1796005495100000000,{it}\n" for it in ("local,,hADa", "local,,DadA", "local,,^hA", "send,tcp-10.0.0.1:40112-10.0.0.2:80,S"))),
    (["--format", "zeek", "--address", "10.0.0.9"], HEAD + FLOW.replace("0.000003", "-"), "1796005495100000000,local,,tcp 10.0.0.1:40112 to 10.0.0.2:80\n"),
    ([*ZEEK, "--key", "{uid}"], '{"ts":1796005495.100000125,"uid":"C1","id.orig_h":"10.0.0.2","id.orig_p":1,"id.resp_h":"10.0.0.1","id.resp_p":2,"proto":"tcp","duration":1e-06}',
     "1796005495100000125,receive,C1,tcp 10.0.0.2:1 to 10.0.0.1:2\n1796005495100001125,local,,tcp 10.0.0.2:1 to 10.0.0.1:2: its last packet\n"),
    ([*ZEEK, "--key", "uid"], '{"ts":"2026-11-30T02:24:55.1Z","uid":"C1","id.orig_h":"10.0.0.1","proto":"icmp"}', "1796005495100000000,send,C1,icmp 10.0.0.1 to an unknown end\n"),
    # any log: sums, templates, a second row, and the stamps of Redis
    (["--json", "--stamp", "end - took ms", "--all", "receive", "--key", "{id}-request", "--also", "send,end,{id}-reply", "--text", "op"],
     '{"end":"2026-11-30T02:24:55.5Z","took":250.000001,"id":7,"op":"a"}\n{"end":"2026-11-30T02:24:55.5Z"}\n', "1796005495249999999,receive,7-request,a\n1796005495500000000,send,7-reply,a\n"),
    (["--json", "--also", "local,done,"], '{"stamp":1}\n{"stamp":1,"done":2}', "1000000000,local,,\n1000000000,local,,\n2000000000,local,,\n"),
    (["--line", r"^\S+ (?P<stamp>\d+ \w+ \d+ \S+) \S (?P<text>.*)", "--zone", "Z"], "1:M 30 Nov 2026 02:24:55.103 * Ready to accept connections tcp", "1796005495103000000,local,,Ready to accept connections tcp\n"),
    ([*SYSLOG, "--leave-out", "--zone", "Z", "--year", "2026"], "???\nNov 30 02:24:55 h a: b\nFeb 30 02:24:55 h a: b\n", "1796005495000000000,local,,b\n"),
    # keys: what no key may have is written as %XX, and one of more than 64 bytes has its sum
    ([*JOURNAL, "--all", "send", "--key", "{MESSAGE}"], '{"__REALTIME_TIMESTAMP":"1","MESSAGE":"a b"}', "1000,send,a%20b,a b\n"),
    ([*JOURNAL, "--all", "send", "--key", "MESSAGE", "--text", "none"], '{"__REALTIME_TIMESTAMP":"1","MESSAGE":"!~%\u007f\u00f6"}', "1000,send,!~%25%7F%C3%B6,\n"),
    ([*JOURNAL, "--all", "send", "--key", "{MESSAGE}k", "--text", "none"], json.dumps({"__REALTIME_TIMESTAMP": "1", "MESSAGE": "k" * 64}), "1000,send,kkkkkkkkkkkkkkkkkkkkkkkkkkkkkkk~f39cdc2584758c99cf81c1f41d2572f5,\n"),
]

# The words, the log, and a part of the one line that ends the run.
REFUSED = [
    (SYSLOG, "Nov 30 02:24:55 h a: b", "line 1: the stamp cannot be taken: it has no year, and --year gives none"),
    ([*SYSLOG, "--year", "2026"], "Nov 30 02:24:55 h a: b", "line 1: the stamp cannot be taken: it has no offset, and --zone gives none"),
    ([*SYSLOG, "--year", "2026", "--zone", "Z"], "Nov 30 02:24:55 h a: b\nFeb 29 02:24:55 h a: b", "line 2: the stamp cannot be taken: no such day"),
    (EARLIER, "Abc 30 02:24:55 h a: b", "line 1: the stamp cannot be taken: Abc is no month"),
    (EARLIER, "hello", "line 1: expected a line of syslog"),
    (["--json"], '{"stamp":"2026-00-10T00:00:00Z"}', "line 1: the stamp cannot be taken: no such day"),
    (["--json"], '{"stamp":"1969-12-31T23:59:59Z"}', "line 1: the stamp cannot be taken: it is before 1970"),
    (["--json", "--unit", "ns"], '{"stamp":4611686018427387904}', "line 1: the stamp cannot be taken: it is before 1970, or its ns since then pass 2^62"),
    (["--json"], '{"stamp":1e31}', "line 1: the stamp cannot be taken: `1e31` is out of range: its ns pass 2^62"),
    (["--json"], '{"stamp":1e-501}', "line 1: the stamp cannot be taken: `1e-501` has more than 500 decimals"),
    (["--json", "--stamp", "stamp + took"], '{"stamp":1,"took":"1e-501"}', "line 1: the stamp cannot be taken: `1e-501` has more than 500 decimals"),
    (SYSLOG, "<192>1 2026-11-30T02:24:55Z h a - - - x", "line 1: expected a priority from <0> to <191>"),
    (SYSLOG, '<34>1 2026-11-30T02:24:55Z h a - - [id name="x] y', "line 1: expected structured data"),
    (SYSLOG, "<34>1 2026-11-30T02:24:55Z h a - - -x", "line 1: expected structured data"),
    (COMMON, '127.0.0.1 - - [30/Nov/2026:02:24:55 +0000] "GET / HTTP/1.0 200 1', "line 1: expected a line `HOST IDENT USER"),
    (COMMON, '127.0.0.1 - - [30/Nov/2026:02:24:61 +0000] "GET / HTTP/1.0" 200 1', "line 1: the stamp cannot be taken: no such time of a day"),
    (JOURNAL, '{"MESSAGE":"hi"}', "line 1: expected an entry of `journalctl -o json`"),
    (JOURNAL, "[1]", "line 1: expected an entry of `journalctl -o json`"),
    (JOURNAL, "[" * 100000, "line 1: expected an entry of `journalctl -o json`"),
    (JOURNAL, '{"__REALTIME_TIMESTAMP":"now"}', "line 1: the stamp cannot be taken: it is neither"),
    (NGINX, '1796005495.123 0.030 7f3a "GET /a HTTP/1.1"', "line 1: expected a line of the log_format"),
    (NGINX, '1796005495.123 now 7f3a "GET /a HTTP/1.1" 200', "line 1: `now` is no number"),
    (NGINX, '0.123 0.130 7f3a "GET /a HTTP/1.1" 200', "line 1: the stamp cannot be taken: it is before 1970"),
    ([*NGINX, "--log-format", "$msec$request_time"], "", "nothing between $request_time"),
    ([*NGINX, "--log-format", "$msec $status"], "", "the log_format has no $request_time"),
    (STRACE, "02:24:55.103755 recvfrom(3) = 1 <0.1>", "line 1: expected a line of `strace -ttt -T`"),
    (STRACE, "1796005495.103755 recvfrom(3, 0x0, 1) = 1", "line 1: expected the time that a receive took"),
    (STRACE, "1796005495.103755 what is this", "line 1: expected a line of `strace -ttt -T`"),
    (ZEEK, FLOW, "line 1: expected the line `#fields ..`"),
    (ZEEK, f"{HEAD}{FLOW}\tmore", "line 5: expected 8 fields, as `#fields` says, and there are 9"),
    (ZEEK, "#path\tdns", "line 1: expected the log conn"),
    (ZEEK, HEAD + FLOW.replace("0.000003", "long"), "line 5: `long` is no number"),
    (ZEEK, HEAD + FLOW.replace("1796005495.100000", "-"), "line 5: expected a stamp `ts`"),
    (ZEEK, HEAD + FLOW.replace("1796005495.100000", "soon"), "line 5: the stamp cannot be taken: it is neither"),
    (ZEEK, '{"ts":1}', "line 1: expected a connection of conn.log"),
    (["--json", "--also", "send,done,k"], '{"stamp":1,"done":"x"}', "line 1: the stamp `done` of --also cannot be taken: it is neither"),
]

# Words that are refused before anything is read, and a part of why.
WRONG = [
    (["--format", "word"], "invalid choice"),
    ([*SYSLOG, "--json"], "say either --json, --line PATTERN or --format NAME"),
    ([*SYSLOG, "--year", "26"], "26 is no year"),
    ([*SYSLOG, "--address", "10.0.0.1"], "--address is for --format zeek"),
    ([*SYSLOG, "a", "b"], "b is one file too many"),
    (["--format", "zeek"], "say --address ADDRESS"),
    ([*NGINX, "--key", "{request_id}"], "the key needs {role}"),
    (["--format", "otlp", "x"], "say --folder DIR"),
    (["--format", "otlp", "--folder", "x", "--line", "x", "y"], "spans have no --line"),
    (["--format", "otlp", "--folder", "x", "--leave-out", "y"], "spans have no --line, --also or --leave-out"),
    ([*NGINX, "--stamp", "msec"], "--stamp is not for --format nginx"),
    ([*STRACE, "--all", "send"], "--send, --receive and --all are not for --format strace"),
    ([*ZEEK, "--receive", "got"], "--send, --receive and --all are not for --format zeek"),
    ([*NGINX, "--folder", "x"], "--folder is for --format otlp or jaeger"),
    (["--json", "--also", "sent,a,b"], "not of the form KIND,STAMP,KEY"),
    (["--line", "x"], "has no group (?P<stamp>..)"),
]


def run(words: list[str]) -> tuple[int, str, str]:
    """Runs tools/rows in this process, and returns its status and what it says on both outputs."""
    out, said = io.StringIO(), io.StringIO()
    with contextlib.redirect_stdout(out), contextlib.redirect_stderr(said):
        try:
            status = ROWS.main(words)
        except SystemExit as why:
            status = why.code
    return status, out.getvalue(), said.getvalue()


class LogFormats(unittest.TestCase):
    def run_log(self, words: list[str], log: str) -> tuple[int, str, str]:
        """Runs tools/rows over a log."""
        with tempfile.TemporaryDirectory() as room:
            with open(f"{room}/log", "w", encoding="utf-8", newline="") as it:
                it.write(log)
            status, printed, said = run([*words, f"{room}/log"])
            return status, printed, said.replace(f"{room}/", "")

    def test_rows(self) -> None:
        for words, log, wanted in CASES:
            with self.subTest(words=words, log=log[:200]):
                status, printed, said = self.run_log(words, log)
                self.assertEqual((printed, status), (wanted, 0), said)

    def test_refused_logs(self) -> None:
        for words, log, why in REFUSED:
            with self.subTest(words=words, log=log[:200]):
                status, _, said = self.run_log(words, log)
                self.assertEqual((status, said.count("\n")), (1, 1), said)
                self.assertTrue(said.startswith("rows: log: " if why.startswith("line") else "rows: "), said)
                self.assertIn(why, said)

    def test_wrong_words(self) -> None:
        for words, why in WRONG:
            with self.subTest(words=words):
                status, printed, said = run(words)
                self.assertEqual((status, printed), (2, ""), said)
                self.assertIn(why, said)

    def test_what_is_told(self) -> None:
        log = '{"__REALTIME_TIMESTAMP":"1","MESSAGE":"' + "k" * 65 + '"}\n{"__REALTIME_TIMESTAMP":"2"}\n'
        _, _, said = self.run_log([*JOURNAL, "--all", "send", "--key", "MESSAGE"], log)
        self.assertEqual(said, "rows: 2 rows made, 0 lines left out\nrows: 1 rows send or receive and have no key: they are local\n"
                         "rows: 1 keys have more than 64 bytes: they were cut, and their sums put behind\n"
                         "rows: no stamp is finer than 1000 ns: where a log cuts off the rest, add that much, and the drift over it, to the `late` of its label\n")  # fmt: skip

    def test_how_fine_stamps_are(self) -> None:
        for stamp, wanted in (("1.5", "no stamp is finer than 100000000 ns"), ("1.123456789", ""), ("1.1234567891", "some stamps are finer than 1 ns")):
            with self.subTest(stamp=stamp):
                _, _, said = self.run_log(["--json"], f'{{"stamp":{stamp}}}')
                self.assertTrue(said.startswith(f"rows: 1 rows made, 0 lines left out\n{'rows: ' if wanted else ''}{wanted}"), said)
                self.assertEqual(said.count("\n"), 2 if wanted else 1)

    def test_help(self) -> None:
        status, printed, _ = run(["--help"])
        self.assertEqual(status, 0)
        for name in ("syslog", "common", "journald", "nginx", "strace", "zeek", "otlp", "jaeger"):
            self.assertRegex(printed, rf"\n(Formats | {{8}}){name} ")

    def test_a_log_that_is_not_there(self) -> None:
        self.assertEqual(run([*SYSLOG, "/nosuch/log"]), (1, "", "rows: /nosuch/log: No such file or directory\n"))

    def test_samples_are_all_rows(self) -> None:
        # (each sample with its words, its rows, and how many of them send and receive)
        asks = ["--send", "sent", "--receive", "got", "--line", r"(?P<kind>sent|got) id=(?P<key>\S+)"]
        answers = ["--send", "answered", "--receive", "received", "--line", r"(?P<kind>answered|received) id=(?P<key>\S+)"]
        id_format = ["--log-format", '$msec $request_time $http_x_request_id "$request" $status', "--key", "{http_x_request_id}-{role}"]
        for name, words, counts in (("web.log", [*EARLIER, *asks], (6, 3, 3)), ("app.log", [*SYSLOG, *answers], (6, 3, 3)), ("web.json", [*JOURNAL, *asks], (6, 3, 3)),
                                    ("app.json", [*JOURNAL, *answers], (6, 3, 3)), ("access.log", COMMON, (3, 0, 0)), ("gate.log", [*NGINX, *id_format], (6, 3, 3)),
                                    ("client.strace", [*STRACE, "--line", r"X-Request-Id: (?P<key>\w+)"], (6, 3, 3)), ("web-conn.log", ZEEK, (7, 3, 1)),
                                    ("app-conn.log", ["--format", "zeek", "--address", "10.0.0.2"], (4, 1, 1))):  # fmt: skip
            with self.subTest(name=name):
                status, printed, said = run([*words, f"{SAMPLES}/{name}"])
                kinds = [line.split(",")[1] for line in printed.splitlines()]
                self.assertEqual((status, len(kinds), kinds.count("send"), kinds.count("receive")), (0, *counts), said)
                self.assertEqual(os.path.exists(f"{SAMPLES}/{name}.csv"), False)


if __name__ == "__main__":
    unittest.main()
