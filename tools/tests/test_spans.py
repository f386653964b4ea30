"""Looks at the rows of spans, which were worked out by hand, and at what tools/spans makes of them; the latter only where a program is there."""

import contextlib
import importlib.machinery
import io
import json
import os
import subprocess
import sys
import tempfile
import unittest
from typing import Any

from common import EXAMPLES, PROGRAM, TOOLS

from log_formats.hosts import label_of
from log_formats.spans import read_spans
from log_formats.stamps import Unreadable

ROWS: Any = importlib.machinery.SourceFileLoader("tools_rows", f"{TOOLS}/rows").load_module()
SAMPLES = f"{EXAMPLES}/logs-as-they-are"
TRACE = "5b8efff798038103d269b633813fc60c"
START, END = 1796005495000000001, 1796005495000000009
# The kind of a span (its id is s, its parent's is p), and the kinds and keys of its start and its end.
KINDS = [
    (1, "p", ["local,", "local,"]),
    (2, "p", ["receive,t-p-request", "send,t-p-reply"]),
    (2, "", ["local,", "local,"]),
    (3, "p", ["send,t-s-request", "receive,t-s-reply"]),
    (3, "", ["send,t-s-request", "receive,t-s-reply"]),
    (4, "p", ["send,t-s-request", "local,"]),
    (5, "p", ["receive,t-p-request", "local,"]),
    (5, "", ["local,", "local,"]),
    (0, "p", ["local,", "local,"]),
    ("SPAN_KIND_CLIENT", "p", ["send,t-s-request", "receive,t-s-reply"]),
]


def span(**more: Any) -> dict[str, Any]:
    """Returns a span of OTLP."""
    return {"traceId": "t", "spanId": "s", "parentSpanId": "p", "name": "n", "kind": 3, "startTimeUnixNano": str(START), "endTimeUnixNano": str(END), **more}


def otlp(*spans: Any, **attributes: str) -> dict[str, Any]:
    """Returns a document of OTLP with spans of one resource."""
    named = [{"key": name.replace("_", "."), "value": {"stringValue": value}} for name, value in (attributes or {"host_name": "web"}).items()]
    return {"resourceSpans": [{"resource": {"attributes": named}, "scopeSpans": [{"spans": list(spans)}]}]}


def jaeger(**more: Any) -> dict[str, Any]:
    """Returns a document of Jaeger with one span."""
    own = {"traceID": "t", "spanID": "s", "operationName": "n", "references": [], "startTime": 1796005495000001, "duration": 8, "tags": [], "logs": [], "processID": "p1"}
    return {"data": [{"traceID": "t", "spans": [{**own, **more}], "processes": {"p1": {"serviceName": "shop", "tags": [{"key": "hostname", "value": "web"}]}}}]}


# What is no document, and a part of why.
WRONG = [
    ("otlp", "{", "line 1: expected JSON"),
    ("otlp", '{"resourceSpans":[]}\n{"resourceSpans":[]} x', "line 2: expected one JSON object on each line"),
    ("otlp", "[" * 100000, "line 1: it is nested too deep"),
    ("otlp", "[]", "line 1: expected OTLP as JSON"),
    ("otlp", json.dumps(jaeger()), "line 1: expected OTLP as JSON"),
    ("otlp", '{"resourceSpans":{}}', "line 1: expected an array of objects as `resourceSpans`"),
    ("otlp", '{"resourceSpans":[]}\n' + json.dumps(otlp(span(startTimeUnixNano=1.5e18))), "line 2: resourceSpans[0].scopeSpans[0].spans[0]: expected a whole number as `startTimeUnixNano`"),
    ("otlp", json.dumps(otlp(span(), span(endTimeUnixNano="4611686018427387904"))), "spans[1]: expected a whole number as `endTimeUnixNano`, whose ns are below 2^62"),
    ("otlp", json.dumps(otlp(span(spanId=""))), "expected a text as `spanId`"),
    ("otlp", json.dumps(otlp(span(traceId=7))), "expected a text as `traceId`"),
    ("otlp", json.dumps(otlp(span(kind=6))), "expected a kind of span from 0 to 5"),
    ("otlp", json.dumps(otlp(span(kind="SPAN_KIND_OTHER"))), "expected a kind of span"),
    ("otlp", json.dumps(otlp(span(), os_name="linux")), "expected an attribute host.name or hostname or service.name"),
    ("otlp", json.dumps(otlp(span(events=[{"name": "e"}]))), "expected a whole number as `timeUnixNano`"),
    ("jaeger", json.dumps(otlp()), "line 1: expected Jaeger's JSON"),
    ("jaeger", json.dumps(jaeger(processID="p2")), "data[0].spans[0]: expected a process that `processes` has"),
    ("jaeger", json.dumps(jaeger(startTime="soon")), "expected a whole number as `startTime`"),
    ("jaeger", json.dumps(jaeger(duration=-1)), "expected a whole number as `duration`"),
]


class Spans(unittest.TestCase):
    def rows(self, form: str, text: str, *words: str) -> dict[str, str]:
        """Returns the files that tools/rows writes of spans."""
        with tempfile.TemporaryDirectory() as room:
            with open(f"{room}/log", "w", encoding="utf-8") as it:
                it.write(text)
            with contextlib.redirect_stdout(io.StringIO()), contextlib.redirect_stderr(io.StringIO()) as said:
                self.assertEqual(ROWS.main(["--format", form, "--folder", f"{room}/to", *words, f"{room}/log"]), 0, said.getvalue())
            found = {}
            for name in sorted(os.listdir(f"{room}/to")):
                with open(f"{room}/to/{name}", encoding="utf-8") as it:
                    found[name] = it.read()
            return found

    def test_kinds_of_spans(self) -> None:
        for kind, parent, (first, last) in KINDS:
            with self.subTest(kind=kind, parent=parent):
                found = self.rows("otlp", json.dumps(otlp(span(kind=kind, parentSpanId=parent))))
                self.assertEqual(found, {"web.csv": f"{START},{first},n start\n{END},{last},n end\n"})

    def test_links_events_and_numbers(self) -> None:
        linked = span(kind=5, parentSpanId="", startTimeUnixNano=START, links=[{"traceId": "t", "spanId": "a"}, {"traceId": "u", "spanId": "b"}])
        found = self.rows("otlp", json.dumps(otlp({**linked, "events": [{"timeUnixNano": START + 1, "name": "e"}]})))
        self.assertEqual(found["web.csv"], f"{START},receive,t-a-request,n start\n{START},receive,u-b-request,n start\n{START + 1},local,,n: e\n{END},local,,n end\n")

    def test_hosts(self) -> None:
        text = f"{json.dumps(otlp(span(), host_name='web', service_name='shop'))}\n\n{json.dumps(otlp(span(spanId='x'), service_name='../db'))}\n"
        self.assertEqual(list(self.rows("otlp", text)), [f"{label_of('../db')}.csv", "web.csv"])
        self.assertEqual(list(self.rows("otlp", text, "--host", "service.name")), [f"{label_of('../db')}.csv", "shop.csv"])
        self.assertEqual(list(self.rows("otlp", text, "--key", "{span}.{role}").values())[1].split(",")[2], "s.request")

    def test_what_is_told_of_hosts(self) -> None:
        with tempfile.TemporaryDirectory() as room:
            with open(f"{room}/log", "w", encoding="utf-8") as it:
                it.write("\n".join(json.dumps(document) for document in (otlp(span()), otlp(span(spanId="x", kind=1), span(spanId="y", kind=1), host_name="a b"))))
            with contextlib.redirect_stdout(io.StringIO()) as printed, contextlib.redirect_stderr(io.StringIO()) as said:
                ROWS.main(["--format", "otlp", "--folder", room, f"{room}/log"])
        label = label_of("a b")
        self.assertEqual(printed.getvalue().replace(room, "DIR"), f"{label}=DIR/{label}.csv: 4 rows of the host 'a b'\nweb=DIR/web.csv: 2 rows\n")
        self.assertEqual(said.getvalue(), "rows: 6 rows made, 0 lines left out\n")

    def test_labels(self) -> None:
        # (the sums are SHA-256 of the name)
        for host, label in (("web-1.example_", "web-1.example_"), ("dB", "dB"), ("a", "a"), ("h" * 32, "h" * 32), ("h" * 33, "hhhhhhhhhhhhhhhhhhhhhhh_d48b942c"), ("../db", "___db_6fc99c01"),
                            ("-x", "_x_a4209624"), (".", "__cdb4ee2a"), ("web\u00e9", "web__062d59df")):  # fmt: skip
            with self.subTest(host=host):
                self.assertEqual(label_of(host), label)

    def test_jaeger(self) -> None:
        calls = [{"refType": "FOLLOWS_FROM", "traceID": "t", "spanID": "q"}, {"refType": "CHILD_OF", "traceID": "t", "spanID": "p"}]
        logs = [{"timestamp": 1796005495000002, "fields": [{"key": "event", "value": "locked"}, {"key": "row", "value": 7}]}]
        found = self.rows("jaeger", json.dumps(jaeger(references=calls, tags=[{"key": "span.kind", "value": "server"}], logs=logs)))
        self.assertEqual(found, {"web.csv": "1796005495000001000,receive,t-p-request,n start\n1796005495000002000,local,,n: locked; 7\n1796005495000009000,send,t-p-reply,n end\n"})
        self.assertEqual(self.rows("jaeger", json.dumps(jaeger()), "--host", "service.name"), {"shop.csv": "1796005495000001000,local,,n start\n1796005495000009000,local,,n end\n"})

    def test_wrong_documents(self) -> None:
        for form, text, why in WRONG:
            with self.subTest(form=form, text=text[:100]):
                with self.assertRaises(Unreadable) as caught:
                    read_spans(text, form)
                self.assertIn(why, str(caught.exception))
                self.assertTrue(str(caught.exception).startswith("line "), caught.exception)

    def test_a_file_that_others_put_there(self) -> None:
        with tempfile.TemporaryDirectory() as room:
            os.symlink("/dev/null", f"{room}/web.csv")
            with contextlib.redirect_stderr(io.StringIO()) as said, contextlib.redirect_stdout(io.StringIO()):
                self.assertEqual(ROWS.main(["--format", "jaeger", "--folder", room, f"{SAMPLES}/jaeger.json"]), 1)
            self.assertEqual(said.getvalue().count("\n"), 1)
            self.assertIn("web.csv is a symbolic link", said.getvalue())


@unittest.skipUnless(PROGRAM, "no program is there")
class Moved(unittest.TestCase):
    def run_spans(self, *words: str) -> tuple[int, str, str]:
        """Runs tools/spans, and returns its status and both outputs."""
        ran = subprocess.run([sys.executable, f"{TOOLS}/spans", "--program", PROGRAM or "", *words], capture_output=True, text=True)
        return ran.returncode, ran.stdout, ran.stderr

    def moved(self, declaration: str, *documents: Any) -> dict[str, dict[str, str]]:
        """Returns, by the ids of spans, their new stamps and their attributes."""
        with tempfile.TemporaryDirectory() as room:
            with open(f"{room}/hosts.toml", "w", encoding="utf-8") as it:
                it.write(declaration)
            with open(f"{room}/spans.json", "w", encoding="utf-8") as it:
                it.write("\n".join(json.dumps(document) for document in documents))
            status, printed, said = self.run_spans(f"{room}/hosts.toml", f"{room}/spans.json")
            self.assertEqual(status, 0, said)
        found = {}
        for line in printed.splitlines():
            for raw in json.loads(line)["resourceSpans"][0]["scopeSpans"][0]["spans"]:
                told = {it["key"]: it["value"]["stringValue"] for it in raw["attributes"]}
                found[raw["spanId"]] = {"start": raw["startTimeUnixNano"], "end": raw["endTimeUnixNano"], "event": (raw.get("events") or [{}])[0].get("timeUnixNano"), **told}
        return found

    def test_a_request_of_two_hosts(self) -> None:
        # Perfect clocks; app's is 1000 ns ahead and nobody says so. The request takes at least 3 ns, the reply 4: so app got it 103 to 106 ns by web's clock.
        declaration = "".join(f'[hosts.{it}]\n[labels.{it}]\nhost = "{it}"\nkind = "log"\n' for it in ("web", "app"))
        declaration += '[[links]]\nfrom = "web"\nto = "app"\nleast = 3\n[[links]]\nfrom = "app"\nto = "web"\nleast = 4\n'
        web = otlp(span(spanId="root", parentSpanId="", kind=1, startTimeUnixNano="90", endTimeUnixNano="200"), span(spanId="c", parentSpanId="root", startTimeUnixNano="100", endTimeUnixNano="120"),
                   span(spanId="d", parentSpanId="root", kind=1, startTimeUnixNano="110", endTimeUnixNano="115"))  # fmt: skip
        app = otlp(span(spanId="s", parentSpanId="c", kind=2, startTimeUnixNano="1103", endTimeUnixNano="1113", events=[{"timeUnixNano": "1105", "name": "e"}]), host_name="app")
        found = self.moved(declaration, web, app)
        self.assertEqual({name: (it["start"], it["end"]) for name, it in found.items()}, {"root": ("90", "200"), "c": ("100", "120"), "d": ("110", "115"), "s": ("103", "113")})
        self.assertEqual(found["s"]["event"], "105")
        server = {"since": "root start", "start.ns": "13.000000000", "end.ns": "23.000000000", "start.least_ns": "13.000000000", "start.most_ns": "16.000000000",
                  "end.least_ns": "23.000000000", "end.most_ns": "26.000000000", "order.parent_start": "before", "order.parent_end": "after"}  # fmt: skip
        self.assertEqual({name[len("tracesync.") :]: it for name, it in found["s"].items() if name.startswith("tracesync.")}, server)
        self.assertEqual([found["c"].get(f"tracesync.{it}") for it in ("next", "order.next_start", "order.next_start_end")], ["d", "after", "before"])
        self.assertNotIn("tracesync.next", found["d"])
        self.assertNotIn("tracesync.order.parent_start", found["root"])

    def test_a_span_that_ends_before_it_begins(self) -> None:
        # App's stamps are 100 ns off, so its end may be 190 ns before its start. No time is below 0: web's start is at 0, app's at 3, and app's end at 0. Of two
        # events at one time the merge lists app's first, which keeps its stamp of 1010.
        declaration = '[hosts.web]\n[hosts.app]\nearly = 100\nlate = 100\n' + "".join(f'[labels.{it}]\nhost = "{it}"\nkind = "log"\n' for it in ("web", "app"))
        declaration += '[[links]]\nfrom = "web"\nto = "app"\nleast = 3\n'
        web = otlp(span(spanId="c", startTimeUnixNano="100", endTimeUnixNano="300"))
        found = self.moved(declaration, web, otlp(span(spanId="s", parentSpanId="c", kind=2, startTimeUnixNano="1000", endTimeUnixNano="1010"), host_name="app"))
        self.assertEqual({name: (it["start"], it["end"], it["tracesync.start.ns"], it["tracesync.end.ns"]) for name, it in found.items()},
                         {"c": ("1010", "1210", "0.000000000", "200.000000000"), "s": ("1013", "1013", "3.000000000", "0.000000000")})  # fmt: skip
        self.assertEqual((found["s"]["tracesync.since"], found["s"]["tracesync.order.parent_end"]), ("c start", "open"))

    def test_what_is_refused(self) -> None:
        with tempfile.TemporaryDirectory() as room:
            for name, text in (("web.toml", '[hosts.web]\n[labels.web]\nhost = "web"\nkind = "log"\n'), ("bad.toml", "[hosts"), ("late.json", json.dumps(otlp(span(), span())))):
                with open(f"{room}/{name}", "w", encoding="utf-8") as it:
                    it.write(text)
            for words, why in (((f"{room}/web.toml", f"{SAMPLES}/other-spans.jsonl"), "no label app is declared"), ((f"{room}/bad.toml", f"{SAMPLES}/web-spans.json"), "bad.toml is no TOML"),
                               ((f"{room}/web.toml", f"{room}/late.json"), "the span s of the trace t is there twice"), ((f"{room}/web.toml", f"{SAMPLES}/jaeger.json"), "line 1: expected OTLP"),
                               ((f"{room}/web.toml", f"{room}/nosuch"), "No such file")):  # fmt: skip
                with self.subTest(words=words):
                    status, printed, said = self.run_spans(*words)
                    self.assertEqual((status, printed), (1, ""), said)
                    self.assertIn(why, said)
                    self.assertNotIn("Traceback", said)

    def test_a_contradiction(self) -> None:
        # (app says that it held the request for 100 ns, and web waited for 20)
        declaration = "".join(f'[hosts.{it}]\n[labels.{it}]\nhost = "{it}"\nkind = "log"\n' for it in ("web", "app"))
        with tempfile.TemporaryDirectory() as room:
            documents = [otlp(span(spanId="c", startTimeUnixNano="100", endTimeUnixNano="120")), otlp(span(spanId="s", parentSpanId="c", kind=2, startTimeUnixNano="1", endTimeUnixNano="101"), host_name="app")]
            for name, text in (("hosts.toml", declaration), ("spans.json", "\n".join(map(json.dumps, documents)))):
                with open(f"{room}/{name}", "w", encoding="utf-8") as it:
                    it.write(text)
            status, printed, said = self.run_spans(f"{room}/hosts.toml", f"{room}/spans.json")
        self.assertEqual((status, printed), (1, ""), said)
        self.assertIn("The declaration is contradicted", said)
        self.assertIn("too narrow by 80 ns", said)


if __name__ == "__main__":
    unittest.main()
