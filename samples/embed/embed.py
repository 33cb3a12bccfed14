#!/usr/bin/env python3
"""Runs the programs of embed.c by the shared object libmixedrun.so, and prints the same."""

import ctypes
import pathlib

FOLDER = pathlib.Path(__file__).resolve().parent
FLAT, USUAL, PPC = 0, 0, 2
HELLO = bytes.fromhex("7048AA80A9F4")
CROSSING = bytes.fromhex(
    "3C60000160630030 3C80001360841072 3CA07FFF60A51234 3CC0000260C6DCBA"
    "4800180F4800183A 6000000060000000 AAFE070000000000 0000000000131072"
    "0000000000010050 0000000000000000 2208D2804E75"
)


class Told(ctypes.Structure):
    _fields_ = [
        ("out", ctypes.c_size_t),
        ("trace", ctypes.c_size_t),
        ("kept", ctypes.c_size_t),
        ("steps", ctypes.c_uint32),
    ]


library = ctypes.CDLL(str(FOLDER / "libmixedrun.so"))
for call in (library.mixedrun_run, library.mixedrun_continue):
    call.restype = ctypes.c_uint8


def read(data):
    """A slice that is read: never a null pointer, also where it has no byte."""
    return (ctypes.create_string_buffer(bytes(data), len(data) + 1), ctypes.c_size_t(len(data)))


def room(size):
    """A buffer that is written."""
    return (ctypes.create_string_buffer(size + 1), ctypes.c_size_t(size))


def over(call, numbers, files, kept_room=0):
    """Makes a call, and gives its status, steps, output, trace and what it kept."""
    out, trace, kept = room(64), room(256), room(kept_room)
    told = Told()
    slices = [part for pair in [*files, read(b""), out, trace, kept] for part in pair]
    status = call(*map(ctypes.c_uint32, numbers), *slices, ctypes.byref(told))
    return status, told.steps, out[0].raw[: told.out], trace[0].raw[: told.trace], kept[0].raw[: told.kept]


def run(main, steps, file, kept_room=0):
    return over(library.mixedrun_run, (FLAT, main, 128, steps), (read(file), read(b"")), kept_room)


def tell(name, result):
    status, steps, out, trace, _ = result
    print(f"{name}: status {status}, {steps} steps\n{out.decode('latin-1')}\n{trace.decode('latin-1')}", end="")


tell("hello", run(USUAL, 1000, HELLO))
tell("crossing", run(PPC, 1000, CROSSING))
cut = run(PPC, 9, CROSSING, kept_room=200000)
tell("cut", cut)
tell("continued", over(library.mixedrun_continue, (1000,), (read(cut[4]),)))
