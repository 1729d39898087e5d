"""The crates of this repository by crates.txt, and the kit that they are proved with."""
import os
import re
from pathlib import Path

ROOT = Path(__file__).resolve().parent.parent
KIT = Path(os.environ.get("RATTLE_KIT", "/opt/rattle"))


def uses() -> dict[str, list[str]]:
    """What each crate stands on, of this repository and of the kit."""
    lines = (ROOT / "crates.txt").read_text().splitlines()
    return {name.strip(): words.split() for name, words in (line.split(":", 1) for line in lines if ":" in line)}


def below(crate: str) -> list[str]:
    """The crates of this repository that a crate stands on, each after those that it stands on itself."""
    all_uses, found = uses(), []

    def visit(name: str) -> None:
        for other in all_uses[name]:
            if other in all_uses and other not in found:
                visit(other)
                found.append(other)

    visit(crate)
    return found


def root_file(crate: str) -> Path:
    """The file that a crate begins with."""
    main = ROOT / "crates" / crate / "src/main.rt"
    return main if main.exists() else main.with_name("lib.rt")


def uses_in_kit(name: str) -> list[str]:
    """What a library of the kit stands on."""
    return re.findall(r"^dep (\w+)$", (KIT / "rlibs" / f"{name}.rlib/format").read_text(), re.M)
