"""Runs commands that start others, as rt does. Nothing of them is left behind, whatever ends this one."""

import contextlib
import os
import pathlib
import signal
import subprocess
import tempfile
import time

from toolkit import streams

PATIENCE = 5  # seconds that a command has to end by itself


@contextlib.contextmanager
def temporary_folder():
    """A folder that is removed in the end. It may stand for the one for temporary files and is as open as that, since rt
    runs programs as nobody. Signals are held back while it is removed: one that came then would leave the rest."""
    folder = None
    try:
        with streams.signals_held():
            folder = tempfile.TemporaryDirectory()
        os.chmod(folder.name, 0o1777)
        yield pathlib.Path(folder.name)
    finally:
        with streams.signals_held():
            if folder is not None:
                folder.cleanup()


def _has_ended(process):
    """Not by its own methods, for the reason of streams.end."""
    try:
        return os.waitpid(process.pid, os.WNOHANG)[0] != 0
    except ChildProcessError:
        return True


def end_group(process):
    """Ends a command that leads a group, with all that it started, and waits for them."""
    try:
        os.killpg(process.pid, signal.SIGTERM)
        end = time.monotonic() + PATIENCE
        while not _has_ended(process) and time.monotonic() < end:
            time.sleep(0.01)
        os.killpg(process.pid, signal.SIGKILL)
        end = time.monotonic() + 1
        while time.monotonic() < end:
            _has_ended(process)  # it is of the group until that is asked
            os.killpg(process.pid, 0)
            time.sleep(0.01)
    except ProcessLookupError:
        pass  # nothing is left of the group


@contextlib.contextmanager
def started(words, **options):
    """A command that leads a group of its own. It is ended with that if it has not ended by itself."""
    process = None
    try:
        with streams.signals_held() as released:
            process = subprocess.Popen(words, start_new_session=True, preexec_fn=released, **options)
        yield process
    finally:
        with streams.signals_held():
            if process is not None and process.returncode is None:
                end_group(process)


def environment(temporary, **variables):
    """The environment of a command whose temporary files are in this folder."""
    return dict(os.environ, TMPDIR=str(temporary), **variables)


def run_apart(words, folder, seconds=None, errors=subprocess.PIPE):
    """The return code of a command and what it said on standard output and on standard error, as bytes; TimeoutExpired
    if it takes longer. Its temporary files are in a folder of their own, since the prover leaves some if a signal ends
    it."""
    with temporary_folder() as temporary:
        streams_of = {"stdin": subprocess.DEVNULL, "stdout": subprocess.PIPE, "stderr": errors}
        with started(words, cwd=folder, env=environment(temporary), **streams_of) as process:
            said = process.communicate(timeout=seconds)
    return process.returncode, *said


def run(words, folder, seconds=None):
    """The same with what it said on both streams as one text."""
    status, said, _ = run_apart(words, folder, seconds, subprocess.STDOUT)
    return status, said.decode(errors="replace")
