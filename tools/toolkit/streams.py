"""Reading and writing for the commands of tools/: nothing half-written, no traceback, the right exit status."""

import contextlib
import errno
import os
import signal
import stat
import sys
import time

# Exit statuses that every command here has, beside 0.
REFUSED, USAGE = 1, 2


class Unusable(Exception):
    """A file or a stream that can't be read or written, and why."""


class Stopped(BaseException):
    """The command was told to end by a signal."""


def _stop(number, _frame):
    raise Stopped(number)


@contextlib.contextmanager
def signals_held():
    """Holds signals back while a process is started and noted: one that came in between would leave it running, known to
    nobody. Gives what the process calls first, so that they are not held back from it."""
    mask = signal.pthread_sigmask(signal.SIG_BLOCK, (signal.SIGINT, signal.SIGTERM, signal.SIGHUP))
    try:
        yield lambda: signal.pthread_sigmask(signal.SIG_SETMASK, mask)
    finally:
        signal.pthread_sigmask(signal.SIG_SETMASK, mask)


def end(process, number):
    """Ends a process and waits for it. Not by its own methods: a signal that came while they hold their lock would leave
    it held."""
    try:
        os.kill(process.pid, number)
        os.waitpid(process.pid, 0)
    except (ProcessLookupError, ChildProcessError):
        pass


def write_all(descriptor, data):
    """Writes past Python's buffers, so that nothing is left in them to fail at the end."""
    view = memoryview(data)
    while view:
        view = view[os.write(descriptor, view):]


def say(text):
    """A line for the user, on standard error. Where that is closed or full there is nowhere to say so."""
    if sys.stderr is not None:
        try:
            write_all(sys.stderr.fileno(), (text + "\n").encode(errors="backslashreplace"))
        except OSError:
            pass


def read(name):
    """The bytes of a file, or of standard input by the name -."""
    if name == "-" and sys.stdin is None:
        raise Unusable("can't read standard input: it is closed")
    try:
        if name == "-":
            return sys.stdin.buffer.read()
        with open(name, "rb") as file:
            return file.read()
    except OSError as fault:
        place = "standard input" if name == "-" else name
        raise Unusable(f"can't read {place}: {fault.strerror}") from None


def write_output(data):
    """Writes to standard output. A reader that has gone is told by BrokenPipeError."""
    if sys.stdout is None:
        raise Unusable("can't write standard output: it is closed")
    try:
        write_all(sys.stdout.fileno(), data)
    except BrokenPipeError:
        raise
    except OSError as fault:
        raise Unusable(f"can't write standard output: {fault.strerror}") from None


def show(text):
    """Writes a line to standard output."""
    write_output((text + "\n").encode(errors="backslashreplace"))


def _replace(name, data):
    """Writes a file beside the named one and gives it that name when it is whole."""
    name = os.path.realpath(name)  # a link stays a link
    there = os.path.exists(name)
    if there and not os.access(name, os.W_OK):
        raise PermissionError(errno.EACCES, os.strerror(errno.EACCES))
    temporary = os.path.join(os.path.dirname(name), f".writing.{os.getpid()}.{time.time_ns()}.tmp")
    descriptor = os.open(temporary, os.O_WRONLY | os.O_CREAT | os.O_EXCL, 0o666)
    try:
        try:
            if there:
                os.fchmod(descriptor, stat.S_IMODE(os.stat(name).st_mode))
            write_all(descriptor, data)
            os.fsync(descriptor)
        finally:
            os.close(descriptor)
        os.replace(temporary, name)
    except BaseException:
        os.unlink(temporary)
        raise


def write(name, data):
    """Writes a file, or standard output by the name -. A file that was there stays as it was until the last byte is
    written. What is no plain file, as a pipe or a device, is written as it stands."""
    if name == "-":
        write_output(data)
        return
    try:
        if os.path.exists(name) and not os.path.isfile(name):
            descriptor = os.open(name, os.O_WRONLY)
            try:
                write_all(descriptor, data)
            finally:
                os.close(descriptor)
        else:
            _replace(name, data)
    except BrokenPipeError:
        raise
    except OSError as fault:
        raise Unusable(f"can't write {name}: {fault.strerror}") from None


def ending(status):
    """How a process ended, by its return code: its status or its signal."""
    if status >= 0:
        return f"status {status}"
    try:
        return f"signal {signal.Signals(-status).name}"
    except ValueError:
        return f"signal {-status}"


class Clock:
    """Shows on standard error, if that is a terminal, the time elapsed, from the first second on."""

    def __init__(self, text):
        self.text = text
        self.start = time.monotonic()
        self.shown = None

    def show(self):
        seconds = int(time.monotonic() - self.start)
        if seconds and seconds != self.shown and sys.stderr is not None and sys.stderr.isatty():
            self.shown = seconds
            self._write(f"\r{self.text}, {seconds // 60}:{seconds % 60:02d} elapsed ")

    def clear(self):
        if self.shown is not None:
            self.shown = None
            self._write("\r\x1b[K")

    @staticmethod
    def _write(text):
        try:
            write_all(sys.stderr.fileno(), text.encode())
        except OSError:
            pass


def command(name, main, arguments):
    """Runs a command's main function; the exit status. 129, 130 and 143 are those of a signal that ended it, 141
    that of a reader of the output who has gone: 128 and the signal's number, as in a shell."""
    for number in (signal.SIGTERM, signal.SIGHUP):
        if signal.getsignal(number) == signal.SIG_DFL:  # under nohup it is not
            signal.signal(number, _stop)
    try:
        return main(arguments)
    except Unusable as fault:
        say(f"{name}: {fault}")
        return REFUSED
    except BrokenPipeError:
        return 128 + signal.SIGPIPE
    except KeyboardInterrupt:
        say(f"{name}: interrupted")
        return 128 + signal.SIGINT
    except Stopped as stopped:
        say(f"{name}: ended by a signal")
        return 128 + stopped.args[0]
