"""What crates.txt says: which crates there are, and which of them a program is made of."""

from pathlib import Path

TOP = Path(__file__).resolve().parent.parent


def list_entries():
    """The name, the libraries and the whole line of each crate, in the order of crates.txt."""
    for line in (TOP / "crates.txt").read_text(encoding="utf-8").splitlines():
        head, _, libraries = line.partition("#")[0].partition(":")
        if head.split():
            yield head.split()[0], libraries.split(), line


def read_crates():
    """For each crate of crates.txt the libraries that its line names, those of the kit among them."""
    return {name: libraries for name, libraries, _ in list_entries()}


def is_static_library(crate):
    """Whether the line of a crate makes it a static library."""
    return any(line.split(":")[0].split()[:2] == [crate, "staticlib"] for _, _, line in list_entries())


def crates_below(crate):
    """The crates of the repository that this one is made of, itself last, each after those that it uses."""
    libraries, found = read_crates(), []

    def visit(name):
        if name in libraries and name not in found:
            for library in libraries[name]:
                visit(library)
            found.append(name)

    visit(crate)
    return found


def lines_below(crate):
    """The lines of crates.txt that a program depends on, as the file that is kept beside the program has them."""
    needed = set(crates_below(crate))
    return "".join(f"{line}\n" for name, _, line in list_entries() if name in needed)
