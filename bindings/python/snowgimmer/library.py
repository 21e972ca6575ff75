"""Finds and loads libsnowgimmer.so."""

import ctypes
import os

NAME = "libsnowgimmer.so"
HERE = os.path.dirname(os.path.abspath(__file__))

DOUBLES = (ctypes.POINTER(ctypes.c_double), ctypes.c_size_t)
INTEGERS = (ctypes.POINTER(ctypes.c_int64), ctypes.c_size_t)
COUNTS = (ctypes.POINTER(ctypes.c_uint64), ctypes.c_size_t)
TABLE = DOUBLES + DOUBLES
BLOCK = DOUBLES + INTEGERS + COUNTS
NAMED = BLOCK + (ctypes.c_uint64,)
TOLD = (ctypes.POINTER(ctypes.c_uint64),)
REPORT = TOLD + TOLD + (ctypes.POINTER(ctypes.c_double),)
RADIUS, BUDGET, INDEX = (ctypes.c_double,), (ctypes.c_uint64,), (ctypes.c_size_t,)
VERDICT, ENTRY = (ctypes.c_uint32, ctypes.c_uint64), (ctypes.c_double,)
FACTORS = (ctypes.c_uint64, ctypes.c_uint64)

ADVICE = (f"Let the variable SNOWGIMMER_LIB name the folder that holds {NAME}, or its file. In the repository "
          "`tools/install --build` makes it, and the module finds it there")

# the arguments of each function, as include/snowgimmer.h declares them
ARGUMENTS = {
    "nearest": TABLE + DOUBLES + INTEGERS + RADIUS + BUDGET,
    "nearest_seeded": TABLE + DOUBLES + INTEGERS + INTEGERS + RADIUS + BUDGET,
    "nearest_ml": TABLE + DOUBLES + INTEGERS + BUDGET,
    "prepared_nearest_ml": TABLE + INTEGERS + INTEGERS + DOUBLES + INTEGERS + BUDGET,
    "nearest_named": NAMED + TABLE + DOUBLES + INTEGERS + RADIUS + BUDGET,
    "pick_up": NAMED + INTEGERS + BUDGET,
    "turn": BLOCK + TOLD + INTEGERS + BUDGET + TOLD + TOLD,
    "list": TABLE + DOUBLES + DOUBLES + INTEGERS + RADIUS + BUDGET,
    "round": DOUBLES + INTEGERS,
    "nearest_plane": TABLE + DOUBLES + INTEGERS,
    "distance": TABLE + DOUBLES + INTEGERS,
    "change_reference": INTEGERS + INDEX,
    "check_entry": VERDICT + INDEX + ENTRY,
    "ratio": DOUBLES + RADIUS + FACTORS,
}


def places():
    """Where the library may be: beside the module, in the prefix of an installation, in the repository."""
    return [
        os.path.join(HERE, NAME),
        os.path.join(os.path.dirname(HERE), NAME),
        os.path.normpath(os.path.join(HERE, "../../../../lib", NAME)),
        os.path.normpath(os.path.join(HERE, "../../../target/sharedlib", NAME)),
    ]


def named(path):
    """The library that SNOWGIMMER_LIB names: a folder that holds it, or the file."""
    file = os.path.join(path, NAME) if os.path.isdir(path) else path
    if not os.path.isfile(file):
        raise ImportError(f"SNOWGIMMER_LIB names {path!r}, and there is no file {file!r}: let it name the folder that "
                          f"holds {NAME}, or the file itself")
    return file


def find():
    """The library's file, or its name for the system's loader to find."""
    path = os.environ.get("SNOWGIMMER_LIB")
    if path:
        return named(path)
    for file in places():
        if os.path.isfile(file):
            return file
    return f"{NAME}.0"


def load():
    """The library, with its functions' types."""
    file = find()
    try:
        library = ctypes.CDLL(file)
    except OSError as fault:
        raise ImportError(f"{file} can't be loaded ({fault}). {ADVICE}") from None
    try:
        declare(library)
    except AttributeError as fault:
        raise ImportError(f"{file} is not this library ({fault}). {ADVICE}") from None
    return library


def declare(library):
    """Gives the functions their types."""
    library.snowgimmer_round_away.argtypes = (ctypes.c_double,)
    library.snowgimmer_round_away.restype = ctypes.c_int64
    for name, arguments in ARGUMENTS.items():
        function = getattr(library, f"snowgimmer_{name}")
        function.argtypes = arguments + REPORT
        function.restype = ctypes.c_uint32
