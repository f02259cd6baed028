#!/usr/bin/env python3
"""Builds a program without its proof and without the kit's checks, to see within minutes what a change costs.

    bench/unchecked.py [CRATE]
    bench/speed.py --program crates/gczone/out/gczone-unchecked

The program is crates/CRATE/out/CRATE-unchecked (gczone if left out), made anew by each call. It is for counts of
instructions alone: with the checks taken out of it, a wrong program may do anything. It is compiled by `clang -O3` with
the hints on inlining that the sources have, for the processor for which the proved program is compiled. That one takes
some instructions more: figures of the two cannot be compared with each other.

Exit status: 1 if the sources do not compile, 3 if the kit lacks what such a build needs.
"""

import re
import shutil
import sys
import tempfile
from pathlib import Path

sys.dont_write_bytecode = True
TOP = Path(__file__).resolve().parent.parent
sys.path.insert(0, str(TOP / "tools"))

from command_line import Fault, Parser, run_main  # noqa: E402 (no bytecode beside the sources)
from kit import Kit, Lacking, Missing  # noqa: E402
from lowering import link, lower, run_tool  # noqa: E402

# What the sources say of a function, in LLVM's words.
HINTS = {"inline(always)": "alwaysinline", "inline(never)": "noinline", "inline": "inlinehint", "cold": "cold"}
HINTED = re.compile(
    r"#\[(inline(?:\((?:always|never)\))?|cold)\](?:\s|#\[[^\]]*\]|//[^\n]*\n)*"
    r"(?:pub(?:\([^)]*\))?\s+)?(?:const\s+|unsafe\s+)*fn\s+(\w+)"
)
DEFINED = re.compile(r'^define .*?@"([^"]+)"\(')
# Attributes of the checks of memory and of the stack.
CHECKS = re.compile(r'sanitize_address ?|"(?:frame-pointer|probe-stack|stack-probe-size)"="[^"]*" ?')


def read_hints(kit):
    """The hints of the sources, the repository's and the kit's, by crate and function."""
    hints = {}
    for sources in (TOP / "crates", kit.top / "rattle"):
        for path in sources.glob("*/src/**/*.rt"):
            crate = path.relative_to(sources).parts[0]
            for hint, name in HINTED.findall(path.read_text(encoding="utf-8")):
                hints.setdefault((crate, name), set()).add(HINTS[hint])
    return hints


def hints_of(line, hints):
    """The hints for the function that a line of LLVM's text defines: none where two of its name have other ones."""
    defined = DEFINED.match(line)
    if not defined:
        return ""
    parts = re.sub(r"::<[^>]*>", "", defined[1]).split("::")
    found = hints.get((parts[0], parts[-1]), set())
    if "alwaysinline" in found:
        return "" if "noinline" in found else "alwaysinline"
    return " ".join(sorted(found))


def without_check(line, hints):
    """A line of LLVM's text without what the kit adds to check a run: traps, and bytes that no one may read."""
    if "call void @llvm.trap()" in line or ("call void @llvm.memset" in line and "i8 -86" in line):
        return ""
    if line.startswith("attributes #"):
        line = CHECKS.sub("", line).replace('"target-cpu"="x86-64"', '"target-cpu"="x86-64-v2"')
        return line.replace("{ }", "{ nounwind }")
    if line.startswith("define"):
        return re.sub(r"\) (#\d+ \{)$", rf") {hints_of(line, hints)} \1", line)
    return line


def build(kit, crate, folder):
    """Builds the program in a folder, and returns its file."""
    module = lower(kit, crate, folder)
    text, bare, made = (module.with_name(name) for name in ("module.ll", "bare.ll", "made"))
    run_tool(kit, ["clang", "-S", "-emit-llvm", "-Xclang", "-disable-llvm-passes", "-o", text, module], folder)
    hints = read_hints(kit)
    with open(text, encoding="utf-8") as lines, open(bare, "w", encoding="utf-8") as kept:
        kept.writelines(without_check(line, hints) for line in lines)
    compiled = module.with_suffix(".o")
    run_tool(kit, ["clang", "-c", "-O3", "-fPIE", "-o", compiled, bare], folder)
    link(kit, compiled, made)
    return made


def main():
    parser = Parser(__doc__)
    parser.add_argument("crate", nargs="?", default="gczone", metavar="CRATE", help="gczone if left out")
    crate = parser.parse_args().crate
    if not (TOP / "crates" / crate / "src/main.rt").is_file():
        raise Fault(f"{crate} is no program of this repository")
    program = TOP / "crates" / crate / "out" / f"{crate}-unchecked"
    program.parent.mkdir(exist_ok=True)
    try:
        kit = Kit()
        kit.require(kit.toolchain / "bin/ld.lld")
        with tempfile.TemporaryDirectory(prefix="unchecked-") as folder:
            shutil.copy(build(kit, crate, Path(folder)), program)
    except Missing as missing:
        raise Fault(str(missing), 3 if isinstance(missing, Lacking) else 1) from None
    print(program.relative_to(TOP))
    return 0


if __name__ == "__main__":
    run_main(main)
