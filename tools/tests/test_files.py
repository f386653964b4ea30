"""What a tool writes into its folder is written as a whole, and never through a link."""

import os
import stat
import tempfile
import unittest
from argparse import Namespace

import files
from inputs import Input
from logs import Log
from making import OUTPUTS, Making


class Room(unittest.TestCase):
    def setUp(self) -> None:
        room = tempfile.TemporaryDirectory()
        self.addCleanup(room.cleanup)
        self.room = room.name
        self.path, self.victim = f"{self.room}/hosts.toml", f"{self.room}/victim"
        self.write(self.victim, "precious")

    def write(self, path: str, text: str) -> None:
        with open(path, "w", encoding="utf-8") as it:
            it.write(text)

    def read(self, path: str) -> str:
        with open(path, encoding="utf-8") as it:
            return it.read()


class Own(Room):
    def test_a_file_is_written_and_written_over(self) -> None:
        for text in ("one", "other"):
            files.write_own(self.path, text)
            self.assertEqual((self.read(self.path), files.read_own(self.path)), (text, text))
        self.assertEqual(sorted(os.listdir(self.room)), ["hosts.toml", "victim"])

    def test_none_is_there(self) -> None:
        self.assertIsNone(files.read_own(self.path))

    def test_others_may_read_it_as_far_as_the_umask_says(self) -> None:
        before = os.umask(0o027)
        self.addCleanup(os.umask, before)
        files.write_own(self.path, "one")
        self.assertEqual(stat.S_IMODE(os.stat(self.path).st_mode), 0o640)

    def test_a_link_is_refused_and_not_followed(self) -> None:
        for target in (self.victim, f"{self.room}/nothing", self.room):
            os.symlink(target, self.path)
            for use in (lambda: files.write_own(self.path, "mine"), lambda: files.read_own(self.path)):
                with self.assertRaisesRegex(ValueError, "hosts.toml is a symbolic link"):
                    use()
            self.assertTrue(os.path.islink(self.path))
            os.remove(self.path)
        self.assertEqual((self.read(self.victim), os.listdir(self.room)), ("precious", ["victim"]))

    def test_a_second_name_of_a_file_leaves_that_file_alone(self) -> None:
        os.link(self.victim, self.path)
        files.write_own(self.path, "mine")
        self.assertEqual((self.read(self.victim), self.read(self.path)), ("precious", "mine"))

    def test_a_pipe_is_refused_and_not_waited_for(self) -> None:
        os.mkfifo(self.path)
        for use in (lambda: files.write_own(self.path, "mine"), lambda: files.read_own(self.path)):
            with self.assertRaisesRegex(ValueError, "is no file"):
                use()

    def test_a_text_that_cannot_be_written_leaves_nothing(self) -> None:
        with self.assertRaises(UnicodeEncodeError):
            files.write_own(self.path, "\udc80")
        self.assertEqual(os.listdir(self.room), ["victim"])


class Declaring(Room):
    def making(self) -> Making:
        names = ("declaration", "source", "reference", "pairs", *OUTPUTS)
        said = Namespace(**dict.fromkeys(names), folder=self.room, look=False, program="true", chrony=[], chosen=[], proved=[], delays=1, events=1, page=1, files=[])
        return Making(said)

    def declare(self) -> None:
        making = self.making()
        making.say = lambda *_: None
        making.declare([Input("a", "a", "a.csv", "log", Log([(1, "local", "", ""), (2, "local", "", ""), (3, "local", "", "")]))])

    def test_the_hidden_copy_follows_no_link(self) -> None:
        for name in (".hosts.toml", "hosts.toml"):
            os.symlink("victim", f"{self.room}/{name}")
            with self.assertRaisesRegex(ValueError, f"{name} is a symbolic link"):
                self.declare()
            self.assertEqual(self.read(self.victim), "precious", name)
            os.remove(f"{self.room}/{name}")

    def test_nothing_that_is_kept_follows_a_link(self) -> None:
        for name in ("script.txt", "replies.txt", "timeline.html", "contradiction.svg", "offsets.svg"):
            os.symlink("victim", f"{self.room}/{name}")
            with self.assertRaisesRegex(ValueError, f"{name} is a symbolic link"):
                self.making().keep(name, "mine\n")
            self.assertEqual(self.read(self.victim), "precious", name)

    def test_a_declaration_is_written_and_written_again(self) -> None:
        self.declare()
        self.declare()
        self.assertEqual(self.read(self.path), self.read(f"{self.room}/.hosts.toml"))

    def test_one_that_was_changed_is_left_alone(self) -> None:
        self.declare()
        self.write(self.path, "# mine\n")
        with self.assertRaisesRegex(ValueError, "was changed"):
            self.declare()
        self.assertEqual(self.read(self.path), "# mine\n")


if __name__ == "__main__":
    unittest.main()
