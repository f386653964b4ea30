"""A process of the program ends with its session, however that ends; and which program it is."""

import gc
import os
import signal
import subprocess
import sys
import threading
import time
import unittest
from typing import Any, List
from unittest import mock

from standing_in import StandingIn, is_running, pid_of
from tracesync import DeclarationRefused, Ended, NoProgram, Session, find_program, program

PACKAGE = os.path.dirname(os.path.dirname(os.path.realpath(program.__file__)))
# A script that says which process is behind its session, and does something.
SCRIPT = """
import os, signal, sys
from tracesync import Session
session = Session("hosts.toml", "./program")
print(session._lines._process.pid, flush=True)
"""


class Ends(StandingIn):
    """No process is left behind."""

    def gone(self, pid: int) -> None:
        """Wants a process to end within some seconds."""
        until = time.monotonic() + 10
        while is_running(pid) and time.monotonic() < until:
            time.sleep(0.02)
        self.assertFalse(is_running(pid))

    def test_at_the_end_of_a_block_and_by_close(self) -> None:
        with self.session() as session:
            pid = pid_of(session)
            self.assertTrue(is_running(pid))
        self.assertFalse(is_running(pid))
        session.close()
        with self.assertRaisesRegex(ValueError, "the session has ended"):
            session.merge()
        self.assertIn("ended", repr(session))

    def test_where_nothing_refers_to_it_any_more(self) -> None:
        session = Session("hosts.toml", self.program)
        pid = pid_of(session)
        del session
        gc.collect()
        self.assertFalse(is_running(pid))

    def test_in_a_ring_of_references(self) -> None:
        session: Any = Session("hosts.toml", self.program)
        session.own = session
        pid = pid_of(session)
        del session
        gc.collect()
        self.assertFalse(is_running(pid))

    def test_where_the_declaration_is_refused(self) -> None:
        with mock.patch("tracesync.session.LineSession", wraps=program.LineSession) as made:
            with self.assertRaises(DeclarationRefused):
                Session("drift = 1\n", self.program)
        self.assertEqual(made.call_count, 1)
        self.assertEqual(children_of(os.getpid()), [])

    def script(self, text: str) -> "subprocess.Popen[str]":
        """Runs a script behind SCRIPT, in a group of its own."""
        words = [sys.executable, "-B", "-c", SCRIPT + text]
        more = {**os.environ, "PYTHONPATH": PACKAGE}
        out, errors = subprocess.PIPE, subprocess.DEVNULL
        found = subprocess.Popen(words, stdout=out, stderr=errors, env=more, text=True, start_new_session=True)
        self.addCleanup(lambda: (found.stdout and found.stdout.close(), found.wait()))
        return found

    def first_number(self, ran: "subprocess.Popen[str]") -> int:
        assert ran.stdout
        return int(ran.stdout.readline())

    def test_where_python_ends(self) -> None:
        for text, status in (("", 0), ("raise SystemExit(3)", 3), ("1 / 0", 1)):
            ran = self.script(text)
            pid = self.first_number(ran)
            self.assertEqual(ran.wait(20), status)
            self.assertFalse(is_running(pid))

    def test_where_python_is_killed(self) -> None:
        pid = self.first_number(self.script("os.kill(os.getpid(), signal.SIGKILL)"))
        self.gone(pid)

    def test_a_key_reaches_python_alone(self) -> None:
        ran = self.script(
            "try:\n    os.killpg(0, signal.SIGINT)\n    signal.pause()\nexcept KeyboardInterrupt:\n"
            "    print(session.order('a#1', 'b#1'))"
        )
        self.first_number(ran)
        assert ran.stdout
        self.assertEqual((ran.stdout.read(), ran.wait(20)), ("before\n", 0))

    def test_a_reply_that_is_interrupted_ends_the_session(self) -> None:
        session = self.session()
        pid = pid_of(session)
        before = signal.signal(signal.SIGALRM, signal.default_int_handler)
        self.addCleanup(signal.signal, signal.SIGALRM, before)
        signal.setitimer(signal.ITIMER_REAL, 0.2)
        begun = time.monotonic()
        with self.assertRaises(KeyboardInterrupt):
            session.keep("wait#1")
        self.assertLess(time.monotonic() - begun, 5)
        self.assertFalse(is_running(pid))
        with self.assertRaisesRegex(ValueError, "the session has ended"):
            session.report()

    def test_a_program_that_goes_on_is_killed(self) -> None:
        with mock.patch.dict(os.environ, STAND_IN="deaf"), mock.patch.object(program, "PATIENCE", 0.1):
            session = self.session()
            pid = pid_of(session)
            session.close()
        self.assertFalse(is_running(pid))

    def test_a_forked_child_does_not_end_it(self) -> None:
        session = self.session()
        child = os.fork()
        if not child:
            session.close()
            os._exit(0)
        self.assertEqual(os.waitpid(child, 0)[1], 0)
        self.assertEqual(session.order("a#1", "b#1"), "before")


class Threads(StandingIn):
    """Questions of several threads."""

    def test_each_gets_its_own_reply(self) -> None:
        session = self.session()
        found: List[List[int]] = [[] for _ in range(4)]

        def ask(own: List[int], at: int) -> None:
            own += [session.keep(f"n{k}") for k in range(at, 400, 4)]

        threads = [threading.Thread(target=ask, args=(own, at)) for at, own in enumerate(found)]
        for it in threads:
            it.start()
        for it in threads:
            it.join()
        self.assertEqual(found, [[*range(at, 400, 4)] for at in range(4)])

    def test_one_may_end_what_another_waits_for(self) -> None:
        session = self.session()
        caught: List[BaseException] = []

        def wait() -> None:
            try:
                session.keep("wait#1")
            except Ended as why:
                caught.append(why)

        waiting = threading.Thread(target=wait)
        with mock.patch.object(program, "PATIENCE", 0.2):
            waiting.start()
            time.sleep(0.1)
            session.close()
            waiting.join(10)
        self.assertEqual((waiting.is_alive(), len(caught)), (False, 1))


def children_of(pid: int) -> List[int]:
    """Returns the processes that a process has begun and that have not ended."""
    with open(f"/proc/{pid}/task/{pid}/children", encoding="ascii") as it:
        return [int(word) for word in it.read().split() if is_running(int(word))]


class Finding(StandingIn):
    """The program is what TRACESYNC names, or what is on the PATH, or what is built."""

    def make(self, name: str, mode: int = 0o755) -> str:
        path = f"{self.room}/{name}"
        os.makedirs(os.path.dirname(path), exist_ok=True)
        self.write(name, "#!/bin/sh\n")
        os.chmod(path, mode)
        return path

    def found(self, **more: str) -> str:
        names = {it: text for it, text in os.environ.items() if it not in ("TRACESYNC", "PATH")}
        top = mock.patch.object(program, "TOP", f"{self.room}/top")
        with mock.patch.dict(os.environ, {**names, **more}, clear=True), top:
            return find_program()

    def test_in_this_order(self) -> None:
        named, on_path = self.make("named/x"), self.make("bin/tracesync")
        built = self.make("top/crates/tracesync/out/tracesync")
        self.make("top/tracesync")
        path = f"{self.room}/bin"
        self.assertEqual(self.found(TRACESYNC=named, PATH=path), named)
        self.assertEqual(self.found(TRACESYNC="named/x", PATH=path), named)
        self.assertEqual(self.found(PATH=path), on_path)
        self.assertEqual(self.found(TRACESYNC="", PATH=f"{self.room}/top/crates"), built)

    def test_the_program_of_a_package_stands_beside_it(self) -> None:
        beside = self.make("top/tracesync")
        self.assertEqual(self.found(PATH=self.room), beside)

    def test_a_clone_builds_nothing_unasked(self) -> None:
        self.make("top/tracesync")
        os.makedirs("top/crates")
        with self.assertRaisesRegex(NoProgram, "none is built as .*/top/crates/tracesync/out/tracesync"):
            self.found(PATH=self.room)

    def test_what_is_named_has_to_be_a_program(self) -> None:
        self.make("bin/tracesync")
        for name in (f"{self.room}/nosuch", self.make("plain", 0o644)):
            with self.assertRaisesRegex(NoProgram, f"TRACESYNC names {name}"):
                self.found(TRACESYNC=name, PATH=f"{self.room}/bin")

    def test_a_session_runs_what_is_found(self) -> None:
        with mock.patch.dict(os.environ, TRACESYNC=self.program), Session("hosts.toml") as session:
            self.assertEqual(session.order("a#1", "b#1"), "before")


if __name__ == "__main__":
    unittest.main()
