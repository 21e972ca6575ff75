"""Builds the program and the static library. A command that needs one has it built if it is not there."""

import collections
import os
import pathlib
import shutil
import subprocess
import tempfile

from toolkit import running, streams

ROOT = pathlib.Path(__file__).resolve().parents[2]
# A product is what a command of rt, which proves it first, writes in the folder of a crate; `name` is that of tools/build.
# `rt run` also runs the program that it built, here on an empty input.
Source = collections.namedtuple("Source", "name crate command written")
PRODUCTS = {
    "target/bin/job": Source("job", "crates/job", "rt run", "out/job"),
    "target/staticlib/libsnowgimmer.a": Source("library", "crates/snowgimmer_c", "rt lib", "out/libsnowgimmer_c.a"),
}


class NotBuilt(Exception):
    """What can't be built, and why."""


def lacking(product):
    """Why the product is not there and can't be built, or None."""
    if not (ROOT / product).is_file() and shutil.which("rt") is None:
        return f"{product} is not built, and rt, the Rattle toolchain's command, is not on the path"
    return None


def waited(process, clock):
    """The exit status of a process, when it has ended."""
    while True:
        try:
            return process.wait(0.2)
        except subprocess.TimeoutExpired:
            clock.show()
        finally:
            if process.returncode is not None:
                clock.clear()


def put(product):
    """Puts what rt wrote in the product's place, in one step; whether there is such."""
    source, path = PRODUCTS[product], ROOT / product
    written = ROOT / source.crate / source.written
    if not written.is_file():
        return False
    path.parent.mkdir(parents=True, exist_ok=True)
    made = path.with_name(f".{path.name}.new-{os.getpid()}")
    try:
        shutil.copy(written, made)
        os.replace(made, path)
    finally:
        made.unlink(missing_ok=True)
    return True


def make(product, log, clock=None):
    """Proves and builds a product, whether it is there or not; what rt says goes to the log. None, or how rt ended if the
    product was not made."""
    source = PRODUCTS[product]
    with running.temporary_folder() as temporary:
        options = {"cwd": ROOT / source.crate, "env": running.environment(temporary), "stdin": subprocess.DEVNULL}
        with running.started(source.command.split(), stdout=log, stderr=log, **options) as process:
            status = waited(process, clock) if clock else process.wait()
    return None if status == 0 and put(product) else streams.ending(status)


def shown_command(product):
    return f"`{PRODUCTS[product].command}` in {PRODUCTS[product].crate}"


def build(name, product, shown=20):
    """The product's path, when it is there. `name` is the command's, for what it says. If the building fails, as many
    of its last lines are told; with 0 all of them."""
    path = ROOT / product
    if path.is_file():
        return path
    reason = lacking(product)
    if reason:
        raise NotBuilt(reason)
    command = shown_command(product)
    streams.say(f"{name}: {product} is not built: running {command}, which proves it first; that takes some minutes")
    with tempfile.TemporaryFile() as log:
        ending = make(product, log, streams.Clock(f"{name}: building"))
        log.seek(0)
        lines = log.read().decode(errors="replace").splitlines()
    if ending:
        said = "".join(f"\n    {line}" for line in lines[-shown:])
        raise NotBuilt(f"{product} is not built: {command} ended with {ending}{said}")
    return path
