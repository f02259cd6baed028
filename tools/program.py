"""Finds the program that the tools run, and builds it without its proof if it must. It never starts a proof."""

import subprocess
from pathlib import Path

TOOLS = Path(__file__).resolve().parent


class Missing(Exception):
    """There is no program, and none could be built."""


def current_program(crate="gczone"):
    """The proved program if it is newer than its sources, else the one without its proof if that is, else None."""
    found = subprocess.run([TOOLS / "find-program", crate], stdout=subprocess.PIPE, text=True, check=False)
    return Path(found.stdout.removesuffix("\n")) if found.returncode == 0 else None


def find_program(crate="gczone"):
    """The current program, which is built without its proof, in about a minute, if there is none."""
    found = current_program(crate)
    if found is None:
        built = subprocess.run([TOOLS / "build-unproved", crate], stdin=subprocess.DEVNULL, check=False)
        found = current_program(crate) if built.returncode == 0 else None
    if found is None:
        raise Missing(f"there is no {crate} that is newer than its sources, and it could not be built: see above")
    return found
