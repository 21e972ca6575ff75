"""The calls of the crates' code, read from its text: which function calls which, where, and in how many loops.

The test programs are left out. A function's path is its crate, its module and its name; a method's has its type before the name.
"""

import collections
import re
import sys

import library

CRATES = library.REPOSITORY / "crates"
HIDDEN = re.compile(r'//[^\n]*|^\s*(?:ghost use|requires|ensures)\b[^\n]*|"(?:\\.|[^"\\\n])*"', re.M)
METHOD = re.compile(r"\b[A-Z]\w*::\w+$")
INNER = re.compile(r"[(\[{][^()\[\]{}]*[)\]}]")
# a block of methods, and the type that has them
METHODS = r"^impl\b[^{;]*?\b([A-Z]\w*)(?:<[^{]*>)?\s*{"
# a call's name may have constants or types behind it, as in `list_with::<PLACES, COORDINATES>(`
CALLED = r"(\.?)\b((?:\w+::)*)(\w+)(?:::<[^()]*?>)?\("
# what is handed a closure may call it again and again, so it counts as a loop
LOOP = r"\b(?:while|for|loop)\b[^{]*{|\b\w+(?:::<[^()]*?>)?\((?=\s*(?:[^()|]*,\s*)?(?:move\s+)?\|)"
OUTSIDE = ("std", "io", "libc", "f64", "i128", "i64", "u64", "usize", "u32", "u8")  # their functions are those of no crate

Source = collections.namedtuple("Source", "file module code imports")
Function = collections.namedtuple("Function", "path source exported parameters start end loops")
# the arguments are without what stands in brackets
Call = collections.namedtuple("Call", "where caller callee arguments loops")


def blocks(opening, code, start=0, stop=sys.maxsize):
    """What is found, each up to an opening bracket, with the place of the bracket that closes it."""
    for found in re.compile(opening).finditer(code, start, stop):
        depth, end = 1, found.end()
        while depth:
            depth += (code[end] in "([{") - (code[end] in ")]}")
            end += 1
        yield found, end - 1


def imported(use):
    """The paths that a use line names, which may stand in braces."""
    head, brace, rest = use.partition("{")
    if not brace:
        return [use.strip()]
    return [head.strip() + path for part in rest.rpartition("}")[0].split(",") if part.strip() for path in imported(part)]


def read_source(file):
    """A file's code, with blanks for comments, contracts and strings, and what it imports, by the last name."""
    crate, _, *modules = file.relative_to(CRATES).with_suffix("").parts
    module = "".join(f"{part}::" for part in (crate, *modules) if part not in ("lib", "main"))
    code = HIDDEN.sub(lambda found: re.sub(r"[^\n]", " ", found[0]), file.read_text())
    uses = [path for use in re.findall(r"^ *(?:pub )?use ([^;]*);", code, re.M) for path in imported(use)]
    uses = [use.replace("crate::", f"{crate}::") for use in uses]
    return Source(file.relative_to(library.REPOSITORY), module, code, {use.split("::")[-1]: use for use in uses})


def read_functions(source):
    types = [(found.start(), end, found[1] + "::") for found, end in blocks(re.compile(METHODS, re.M), source.code)]
    for found, end in blocks(r"(\bextern +)?\bfn (\w+)[^(]*\(", source.code):
        _, last = next(blocks("{", source.code, end))
        repeated = blocks(LOOP, source.code, end, last)
        loops = [(loop.start(), close) for loop, close in repeated]
        parameters = re.findall(r"(\w+)\s*:(?!:)", source.code[found.end():end])
        of = next((name for first, close, name in types if first < found.start() < close), "")
        yield Function(source.module + of + found[2], source, bool(found[1]), parameters, end, last, loops)


class Graph:
    """All functions by their paths, and all calls."""

    def __init__(self):
        files = sorted(CRATES.glob("*/src/**/*.rt"))
        self.sources = [read_source(file) for file in files if not file.relative_to(CRATES).parts[0].endswith("_test")]
        self.functions = {}
        for function in (function for source in self.sources for function in read_functions(source)):
            if self.functions.setdefault(function.path, function) is not function:
                raise ValueError(f"{function.source.file}: two functions of the path {function.path}")
        self.calls = [call for function in self.functions.values() for call in self.calls_of(function)]

    def calls_of(self, function):
        source = function.source
        for found, end in blocks(CALLED, source.code, function.start, function.end):
            where = f"{source.file}:{source.code[:found.start()].count(chr(10)) + 1}"
            arguments = source.code[found.end():end]
            while INNER.search(arguments):
                arguments = INNER.sub("", arguments)
            loops = sum(first < end < last for first, last in function.loops)
            yield Call(where, function.path, self.callee(source, where, *found.groups()), arguments, loops)

    def callee(self, source, where, dot, prefix, name):
        """The path of what is called, or None if it is outside: of a path by the file and its imports."""
        named = [path for path in self.functions if path.endswith(f"::{name}")]
        first, colons, rest = (prefix + name).partition("::")
        paths = [prefix + name, source.imports.get(first, first) + colons + rest]
        paths = [start + path for path in paths for start in (source.module, "")]
        methods = [path for path in named if METHOD.search(path)]
        if dot:  # where the crates have no such method, std's may do what a function of that name does
            named = found = methods or named
        else:
            found = [path for path in paths if path in named][:1]
        if len(found) > 1:  # a method: that of a crate which the file names
            own = [source.module, *source.imports.values()]
            found = [path for path in found if path.split("::")[0] in {use.split("::")[0] for use in own}]
        if len(found) > 1 or named and not found and prefix.split("::")[0] not in OUTSIDE:
            raise ValueError(f"{where}: {prefix}{name} is which of {', '.join(named)}?")
        return found[0] if found else None

    def reaching(self, *goals):
        """The functions from which calls lead to one of the goals, and these."""
        found = set(goals)
        while more := {call.caller for call in self.calls if call.callee in found} - found:
            found |= more
        return found

    def reached(self, *starts):
        """The functions to which calls lead from one of these, and these."""
        found = set(starts)
        while more := {call.callee for call in self.calls if call.caller in found and call.callee} - found:
            found |= more
        return found

    def ways(self, start, goal, way=()):
        """Every way from a function to another, as the calls on it; with a recursion on it there is no end of them."""
        if start == goal:
            return [way]
        if any(call.caller == start for call in way):
            raise AssertionError(f"a recursion on a way to {goal}:{told([way])}")
        steps = [call for call in self.calls if call.caller == start and call.callee in self.reaching(goal)]
        return [whole for call in steps for whole in self.ways(call.callee, goal, (*way, call))]


def told(ways):
    """Ways on a line each, for a message."""
    return "".join("\n    " + ", ".join(f"{call.where} {call.callee}" for call in way) for way in ways) or " none"
