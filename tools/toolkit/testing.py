"""What the tests of several commands share."""

import os
import pathlib
import signal
import subprocess
import sys
import tempfile
import time

from toolkit import building

SECONDS = 60


class Command:
    """Tests of a command of tools/; for a unittest.TestCase that says which."""

    tool = None
    root = building.ROOT

    def words(self, *words):
        return [sys.executable, str(self.root / "tools" / self.tool), *words]

    def answer(self, *words):
        """The exit status and what it says on both streams."""
        answer = subprocess.run(self.words(*words), capture_output=True, timeout=SECONDS)
        self.assertNotIn(b"Traceback", answer.stderr)
        return answer.returncode, answer.stdout.decode(), answer.stderr.decode()

    def test_help(self):
        for option in ("-h", "--help"):
            status, said, errors = self.answer(option)
            self.assertEqual((status, errors), (0, ""))
            self.assertIn(f"\n    tools/{self.tool}", said)

    def test_no_option_of_it(self):
        for option in ("-x", "--chekc"):
            status, said, errors = self.answer(option)
            self.assertEqual((status, said), (2, ""))
            self.assertTrue(errors.startswith(f"{self.tool}: option {option} not recognized\n    tools/{self.tool}"))


class Edits(Command):
    """Tests of a command that makes edits in a copy of the crates and runs rt there."""

    # It writes a temporary file, and waits for a process that has to be ended too.
    RT = '#!/bin/sh\ntouch "$TMPDIR/left"\nsleep 300 &\necho $! > "$PLACE/new"\nmv "$PLACE/new" "$PLACE/pid"\nwait\n'

    def first(self):
        """The name of an edit."""
        return self.answer("--list")[1].split(":")[0]

    def test_every_edit_fits(self):
        status, said, errors = self.answer("--check")
        self.assertEqual((status, errors), (0, ""))
        self.assertRegex(said, r"\A[1-9]\d* .* fit the \w+\n\Z")

    def test_a_name_that_is_none(self):
        status, said, errors = self.answer("no-such-name")
        self.assertEqual((status, said), (2, ""))
        self.assertTrue(errors.startswith(f"{self.tool}: no "), errors)

    def test_a_reader_that_has_gone(self):
        reader, writer = os.pipe()
        os.close(reader)
        try:
            answer = subprocess.run(self.words("--list"), stdout=writer, stderr=subprocess.PIPE)
        finally:
            os.close(writer)
        self.assertEqual((answer.returncode, answer.stderr), (141, b""))

    def ended(self, number, *words):
        """What it says if it is ended while rt runs, after which nothing is left."""
        with tempfile.TemporaryDirectory() as name:
            place, temporary = pathlib.Path(name), pathlib.Path(name, "temporary")
            temporary.mkdir()
            (place / "rt").write_text(self.RT)
            (place / "rt").chmod(0o755)
            changed = {"PATH": f"{place}:{os.environ['PATH']}", "PLACE": str(place), "TMPDIR": str(temporary)}
            with subprocess.Popen(self.words(*words), env={**os.environ, **changed}, stderr=subprocess.PIPE) as command:
                while not (place / "pid").exists() and command.poll() is None:
                    time.sleep(0.02)
                command.send_signal(number)
                errors = command.communicate()[1].decode()
            self.assertEqual(os.listdir(temporary), [])
            state = pathlib.Path("/proc", (place / "pid").read_text().strip(), "stat")
            self.assertTrue(not state.exists() or state.read_text().split()[2] == "Z")
            return command.returncode, errors

    def test_signals(self):
        for number, said in ((signal.SIGINT, "interrupted"), (signal.SIGTERM, "ended by a signal")):
            self.assertEqual(self.ended(number, self.first()), (128 + number, f"{self.tool}: {said}\n"))
