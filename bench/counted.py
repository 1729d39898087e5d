"""The program on a session: its replies, and the instructions that callgrind counts for each part of it. STINDEX may
name another program."""
import os
import re
import subprocess
import sys
from collections import Counter
from pathlib import Path

BUILT = Path(__file__).parent / "../crates/stindex/out/stindex"
PROGRAM = os.path.abspath(os.environ.get("STINDEX", BUILT))


def replies(lines, folder):
    ran = subprocess.run([PROGRAM], input="\n".join(lines + [""]).encode(), capture_output=True, cwd=folder)
    if ran.returncode != 0:
        sys.exit(f"the program ended with status {ran.returncode}")
    return ran.stdout.decode().splitlines()


def counted(parts, folder):
    """What callgrind writes of a session, part by part, which are lists of lines (parts.c)."""
    library, out = Path(folder, "parts.so"), Path(folder, "counted")
    if not library.exists():
        source = Path(__file__).parent / "parts.c"
        subprocess.run(["cc", "-shared", "-fPIC", "-O1", "-o", library, source], check=True)
    session = Path(folder, "session")
    session.write_text("".join("\n".join(part) + "\n\n" for part in parts))
    tool = ["valgrind", "--tool=callgrind", "--combine-dumps=yes", f"--callgrind-out-file={out}", PROGRAM]
    with session.open() as data:
        environment = os.environ | {"LD_PRELOAD": str(library)}
        subprocess.run(tool, stdin=data, capture_output=True, cwd=folder, env=environment, check=True)
    written = out.read_text()
    out.unlink()
    return written


def instructions(parts, folder):
    """The instructions of each part of a session."""
    _, *counts, _ = re.findall(r"^totals: (\d+)", counted(parts, folder), re.MULTILINE)
    return list(map(int, counts))


def functions(parts, folder):
    """The instructions of each function by itself, for each part of a session."""
    names, name, called = {}, None, False
    spent = []
    for line in counted(parts, folder).splitlines():
        if line.startswith("part: "):
            spent.append(Counter())
        elif named := re.match(r"c?fn=\((\d+)\)(?: (.+))?", line):
            names.setdefault(named[1], named[2])
            if line.startswith("fn="):
                name = names[named[1]]
        elif line.startswith("calls="):
            called = True
        elif re.match(r"[-+*\d]\S* \d+$", line):
            if not called:
                spent[-1][re.sub(r"::<.*|'\d+$", "", name)] += int(line.split()[1])
            called = False
    return spent[1:-1]
