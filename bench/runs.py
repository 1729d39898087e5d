"""Runs the program over devices that fail, and judges what is seen.

A library may stand before the C library (preloaded.c). It writes a line for each read, write, open and close into the
file LOG. Other variables disturb them:

MOST        no read and no write is of more bytes
FAIL AT AS  the call of the name FAIL and the number AT, from 1, fails with the error AS, or gives nothing at 0
STOP AT     the program stops itself before the call of the name STOP and this number, until it is continued
INTERRUPT   before each read, write and open comes so often the answer that a signal has interrupted it
HANDLE TELL the signals HANDLE have a handler, which writes a byte, the signal's number, to the descriptor TELL; a 0
            comes first, once all have it
CONFINE     the program is killed at the first call of the system that is none of these four, nor one of memory
"""
import errno
import os
import resource
import signal
import socket
import struct
import subprocess
import sys
import tempfile
from pathlib import Path
from typing import NamedTuple
from unittest import mock

import model

HERE = Path(__file__).resolve().parent
BREAKS_OFF = struct.pack("ii", 1, 0)
PROGRAM = os.path.abspath(os.environ.get("STINDEX", HERE / "../crates/stindex/out/stindex"))


class Call(NamedTuple):
    """The answer of a call that failed is the error with a minus."""
    name: str
    descriptor: int
    size: int
    answer: int


class Ran(NamedTuple):
    output: bytes
    status: int
    calls: list[Call]


class Case(NamedTuple):
    """What was seen, and what is due."""
    name: str
    seen: object
    due: object


def right(words, data, folder, fetch=None):
    """The output that is due for these bytes of input, masked, where files may be fetched in another way."""
    with mock.patch("model.fetched", fetch or model.fetched):
        due, _ = model.run([os.fsencode(word) for word in words], data, folder)
    return b"".join(reply for _, reply in due)


def fetching(number, other):
    """Files as they are fetched, but the one of this number in another way."""
    fetches = 0

    def fetch(file, folder, fetched=model.fetched):
        nonlocal fetches
        fetches += 1
        return (other if fetches == number else fetched)(file, folder)

    return fetch


def written(words, data, folder, most):
    """The output and the status where the output may have so many bytes, in this folder."""
    def limit():
        signal.signal(signal.SIGXFSZ, signal.SIG_IGN)
        resource.setrlimit(resource.RLIMIT_FSIZE, (most, most))

    with tempfile.TemporaryFile() as output:
        ran = subprocess.run(
            [PROGRAM, *words], input=data, stdout=output, cwd=folder, preexec_fn=limit, restore_signals=False)
        output.seek(0)
        return output.read(), ran.returncode


def broken_off(words, data, folder):
    """The output and the status where the input breaks off after these bytes, in this folder."""
    with socket.create_server(("127.0.0.1", 0)) as server:
        near = socket.create_connection(server.getsockname())
        far, _ = server.accept()
    near.sendall(data)
    near.setsockopt(socket.SOL_SOCKET, socket.SO_LINGER, BREAKS_OFF)
    near.close()
    with far:
        ran = subprocess.run([PROGRAM, *words], stdin=far, capture_output=True, cwd=folder)
    return ran.stdout, ran.returncode


def built_library(folder):
    """The library, compiled into this folder."""
    library = f"{folder}/preloaded.so"
    subprocess.run(["cc", "-shared", "-fPIC", "-O1", HERE / "preloaded.c", "-o", library], check=True)
    return library


def environment(library, log, **how):
    return os.environ | {"LD_PRELOAD": library, "LOG": log.name} | {name: str(value) for name, value in how.items()}


def calls_in(log):
    lines = [line.split() for line in log.read().decode().splitlines()]
    return [Call(name, *map(int, numbers)) for name, *numbers in lines]


def interruptions(calls):
    """How many calls a signal has ended before their time."""
    return sum(
        call.answer == -errno.EINTR or call.name == "write" and 0 <= call.answer < call.size for call in calls)


def run(library, words, data, folder=None, **how):
    """A run in this folder that the library disturbs as these variables say."""
    with tempfile.NamedTemporaryFile() as log, tempfile.TemporaryFile() as given:
        given.write(data)
        given.seek(0)
        ran = subprocess.run(
            [PROGRAM, *words], stdin=given, capture_output=True, cwd=folder, env=environment(library, log, **how))
        return Ran(ran.stdout, ran.returncode, calls_in(log))


def judged(cases):
    """Tells each case in which something else was seen than is due: how many there are, and how many were tried."""
    tried = wrong = 0
    for case in cases:
        tried += 1
        if case.seen != case.due:
            wrong += 1
            print(f"wrong: {case.name}\n  seen: {str(case.seen)[:500]}\n  due:  {str(case.due)[:500]}", flush=True)
    return wrong, tried


def report(cases, what):
    """Ends the script with status 1 where a case is wrong."""
    wrong, tried = judged(cases)
    print(f"{wrong} of {tried} {what} are wrong" if wrong else f"all right: {tried} {what}")
    sys.exit(1 if wrong else 0)
