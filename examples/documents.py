"""Checks what the documents show: commands, links, pictures, the version, counts of lines, and clauses and edits.

tools/test runs this. The commands run the program that ./gczone finds.
"""

import os
import re
import shutil
import subprocess
from functools import partial
from pathlib import Path

from checks import Check, NotRun, Outcome

TOP = Path(__file__).resolve().parent.parent
SECONDS = 120
# Of a page that a reader goes through: docs/PROOFS.md has one row a promise.
MOST_ROWS = 100
MOST_WORDS = 60
# The crates whose laws are about the definitions alone; docs/SPECIFICATION.md lists these.
LAWS = ("colour_defs", "spec_laws", "collection_laws", "group_laws")
# tools/draw needs Graphviz, but not for these.
NO_DOT = ("--dot", "--check", "timeline")
PICTURES = "tools/draw pictures --check"
# The documents show what the proved program writes, so ./gczone is not to say that another one runs.
ENVIRONMENT = {**os.environ, "GCZONE_NO_NOTICE": "1"}


def documents():
    folders = (".", "docs", "examples", "examples/differences")
    return sorted(path for folder in folders for path in (TOP / folder).glob("*.md"))


def commands(text):
    """Each command of a fenced block: the number of its line, the command, and the lines that are to be its output."""
    found = []
    fenced = False
    for number, line in enumerate(text.splitlines(), 1):
        if line.startswith("```"):
            fenced = not fenced
            found.append(None)
        elif fenced and line.startswith("$ "):
            found.append((number, line[2:], []))
        elif fenced and found and found[-1]:
            found[-1][2].append(line)
    return [entry for entry in found if entry]


def fits(wanted, found):
    """Whether lines are those wanted, of which `..` stands for any lines."""
    if not wanted:
        return not found
    if wanted[0] == "..":
        return any(fits(wanted[1:], found[at:]) for at in range(len(found) + 1))
    return bool(found) and found[0] == wanted[0] and fits(wanted[1:], found[1:])


def without_blank_end(lines):
    while lines and not lines[-1]:
        lines = lines[:-1]
    return lines


def stop_if_lacking(command, is_own):
    """Raises NotRun if a command cannot be run here, or would run another program than the one to be checked."""
    if not is_own and ("gczone" in command or "tools/" in command):
        raise NotRun("./gczone and the tools would run another program than --program names")
    if "tools/draw" in command and not any(flag in command for flag in NO_DOT) and not shutil.which("dot"):
        raise NotRun("it needs Graphviz (dot)")


def check_command(command, wanted, is_own):
    """Runs a command at the top of the repository and compares what it prints."""
    stop_if_lacking(command, is_own)
    run = subprocess.run(
        ["sh", "-c", command], cwd=TOP, stdin=subprocess.DEVNULL, stdout=subprocess.PIPE, stderr=subprocess.STDOUT,
        timeout=SECONDS, check=False, env=ENVIRONMENT,
    )
    found = [line.rstrip() for line in run.stdout.decode(errors="replace").splitlines()]
    if fits(without_blank_end(wanted), found):
        return Outcome()
    return Outcome(["\n".join([f"`{command}` prints something else", *found[:40]])])


def check_links(path):
    links = re.findall(r"\]\(([^)#\s]+)[^)]*\)", path.read_text())
    missing = [link for link in links if "://" not in link and not (path.parent / link).exists()]
    return Outcome([f"no {link}" for link in missing])


def heads(path):
    """The signature and contract of each function of a file, by its name."""
    found = {}
    begin = r'(?:pub(?:\(crate\))? )?(?:extern "C" )?fn '
    pattern = rf"(?m)^\s*{begin}(\w+).*(?:\n(?!\s*\{{\s*$)(?!\s*{begin}).*)*"
    for match in re.finditer(pattern, path.read_text()):
        found.setdefault(match[1], []).append(match[0])
    return found


def has_clauses(head, clauses):
    """Whether a contract has these clauses; with none named, whether it has one without a name."""
    names = [re.escape(name) + " " for name in clauses] or [""]
    return all(re.search(rf"ensures {name}\{{", head) for name in names)


def missing_names(path):
    """What a document names in backticks that neither sources nor specifications have."""
    sources = [source for folder in ("src", "specs") for source in TOP.glob(f"crates/*/{folder}/**/*.*t*")]
    words = {word for source in sources for word in re.findall(r"\w+", source.read_text())}
    words |= {crate.name for crate in TOP.glob("crates/*")}
    words |= {edit.stem for edit in TOP.glob("crates/*/must-fail/*.edit")}
    named = re.findall(r"`([A-Z]\w+|[a-z]+_\w+)`", path.read_text())
    return [f"no {name}" for name in named if name not in words]


def check_map(path):
    """What docs/MAP.md names that is not there: definitions, source files behind their crate, traces of examples."""
    text = path.read_text()
    wrong = missing_names(path)
    for crate, files in re.findall(r"\b([a-z_]+) ((?:[a-z_/]+\.rt(?:, )?)+)", text):
        there = [(TOP / "crates" / crate / "src" / file).exists() for file in re.findall(r"[a-z_/]+\.rt", files)]
        wrong += [] if all(there) else [f"no {crate} {files}"]
    traces = re.findall(r"(?m)^\|.*\| ([a-z_]+) \|$", text.partition("\n## What a change costs")[0])
    return Outcome(wrong + [f"no trace {name}" for name in traces if not (TOP / f"examples/{name}.trace").exists()])


def check_clauses(path):
    """What docs/PROOFS.md names that is not there: crates, definitions, functions and clauses."""
    wrong = missing_names(path)
    for line in path.read_text().splitlines():
        cells = [cell.strip() for cell in line.strip("|").split("|")]
        if len(cells) != 4 or not cells[2].endswith(".rt"):
            continue
        source = TOP / "crates" / cells[2]
        if not source.exists():
            wrong.append(f"no {cells[2]}")
            continue
        found = heads(source)
        for part in cells[1].split(";"):
            name, _, rest = part.strip().partition(":")
            clauses = re.findall(r"`(\w+)`", rest)
            if not any(has_clauses(head, clauses) for head in found.get(name.strip("`"), [])):
                wrong.append(f"{cells[2]}: {part.strip()}")
    return Outcome(wrong)


def is_public(head):
    """Whether the head of a function begins one that other crates may call."""
    return bool(re.match(r'\s*pub (?:extern "C" )?fn ', head))


def check_paragraphs(path):
    """What is wrong with the clauses that the paragraphs of docs/PROOFS.md name, as `CRATE::FUNCTION`: `CLAUSE`, .."""
    text = path.read_text()
    named = re.findall(r"`([a-z]\w*)::(\w+)`(?::\s+(its\s+one\s+clause|`\w+`(?:,\s+`\w+`)*))?", text)
    named = [(crate, name, rest) for crate, name, rest in named if (TOP / "crates" / crate).exists()]
    wrong = [] if named else ["no paragraph names a clause"]
    for crate, name, rest in named:
        sources = (TOP / "crates" / crate / "src").rglob("*.rt")
        found = [head for source in sources for head in heads(source).get(name, []) if is_public(head)]
        clauses = re.findall(r"`(\w+)`", rest)
        if not rest or not any(has_clauses(head, clauses) for head in found):
            wrong.append(f"{crate}::{name}: {rest or 'no clause'}")
    return Outcome(wrong)


def check_session(path):
    """Whether the calls of a session have the clauses that docs/EMBEDDING.md names in its table of promises."""
    folder = TOP / "crates/slice_driver/src"
    found = {}
    for source in (folder / "session.rt", *(folder / "session").glob("*.rt")):
        for name, several in heads(source).items():
            found.setdefault(name, []).extend(filter(is_public, several))
    table = path.read_text().partition("## What is promised")[2]
    rows = re.findall(r"(?m)^\| (`.*?) \| (.*?) \|", table)
    wrong = [] if rows else ["no table of promises"]
    for calls, rest in rows:
        clauses = re.findall(r"`(\w+)`", rest.partition(":")[0])
        for name in re.findall(r"`(?:Session::)?(\w+)`", calls):
            if not any(has_clauses(head, clauses) for head in found.get(name, [])):
                wrong.append(f"{name}: {rest}")
    return Outcome(wrong)


def named_edits(section):
    """The edits that a section of docs/PROOFS.md names, in its table and in its list by crates."""
    named = re.findall(r"`(\w+/\w+)`", section)
    for crate, rest in re.findall(r"(?m)^- (\w+): (.*(?:\n  .*)*)", section):
        named += [f"{crate}/{edit}" for edit in re.findall(r"`(\w+)`", rest)]
    return named


def check_edits(path):
    """Whether docs/PROOFS.md names each edit that is there, once, and no other: those that the gate tries, and below
    "Tried by hand" those of examples/wrong_bodies."""
    section = path.read_text().partition("\n## Wrong bodies")[2].partition("\n## ")[0]
    gate, _, by_hand = section.partition("\n### Tried by hand")
    in_gate = {f"{edit.parts[-3]}/{edit.stem}" for edit in TOP.glob("crates/*/must-fail/*.edit")}
    others = {f"{edit.parent.name}/{edit.stem}" for edit in TOP.glob("examples/wrong_bodies/*/*.edit")}
    wrong = []
    for named, there in ((named_edits(gate), in_gate), (named_edits(by_hand), others)):
        wrong += [f"no edit {name}" for name in named if name not in there]
        wrong += [f"named twice: {name}" for name in sorted(set(named)) if named.count(name) > 1]
        wrong += [f"not named: {name}" for name in sorted(there.difference(named))]
    return Outcome(wrong)


def check_counts(path):
    """Whether each number marked as `1,700<!--lines:GLOB-->` is that of the lines there, to a twentieth of it."""
    wrong = []
    for count, glob in re.findall(r"([\d,]+)<!--lines:(\S+?)-->", path.read_text()):
        found = sum(source.read_bytes().count(b"\n") for source in TOP.glob(glob))
        if abs(found - int(count.replace(",", ""))) * 20 > found:
            wrong.append(f"{count} lines of {glob}, and there are {found:,}")
    return Outcome(wrong)


def check_version(path):
    """Whether each version marked as `1.0.0<!--version-->` is the first one of CHANGELOG.md."""
    first = re.search(r"(?m)^## (\d+\.\d+\.\d+)", (TOP / "CHANGELOG.md").read_text())[1]
    marked = re.findall(r"([\d.]+)<!--version-->", path.read_text())
    return Outcome([f"version {version}, and CHANGELOG.md has {first}" for version in marked if version != first])


def check_laws(path):
    """Whether docs/SPECIFICATION.md names each law about the definitions."""
    text = path.read_text()
    sources = [source for crate in LAWS for source in (TOP / "crates" / crate / "src").rglob("*.rt")]
    laws = [name for source in sources for name in re.findall(r"pub fn (\w+_law)\(", source.read_text())]
    return Outcome([f"no {law}" for law in laws if f"`{law}`" not in text])


def check_rows(path):
    """Whether the rows of docs/PROOFS.md are short enough to be read, and those of promises few enough."""
    tables = re.findall(r"(?m)^\| (\w+).*\|\n\|[- |]+\|\n((?:\|.*\n)+)", path.read_text())
    rows = [row for _, table in tables for row in table.splitlines()]
    promises = sum(len(table.splitlines()) for head, table in tables if head == "statement")
    wrong = [f"{promises} rows, and {MOST_ROWS} at most"] if promises > MOST_ROWS else []
    words = ((len(row.replace("|", " ").split()), row) for row in rows)
    wrong += [f"{count} words, and {MOST_WORDS} at most: {row[:60]}" for count, row in words if count > MOST_WORDS]
    return Outcome(wrong)


def checks(is_own):
    """All checks of the documents; is_own says whether ./gczone runs the program that is to be checked."""
    for path in documents():
        name = str(path.relative_to(TOP))
        yield Check(f"documents, {name} links", 0.1, partial(check_links, path))
        if "<!--lines:" in path.read_text():
            yield Check(f"documents, {name} counts", 0.1, partial(check_counts, path))
        if "<!--version-->" in path.read_text():
            yield Check(f"documents, {name} version", 0.1, partial(check_version, path))
        for number, command, wanted in commands(path.read_text()):
            call = partial(check_command, command, wanted, is_own)
            yield Check(f"documents, {name} line {number}", 1, call)
    yield Check("documents, clauses of docs/PROOFS.md", 2, partial(check_clauses, TOP / "docs/PROOFS.md"))
    yield Check("documents, paragraphs of docs/PROOFS.md", 1, partial(check_paragraphs, TOP / "docs/PROOFS.md"))
    yield Check("documents, clauses of docs/EMBEDDING.md", 0.1, partial(check_session, TOP / "docs/EMBEDDING.md"))
    yield Check("documents, laws of docs/SPECIFICATION.md", 0.1, partial(check_laws, TOP / "docs/SPECIFICATION.md"))
    yield Check("documents, names of docs/MAP.md", 2, partial(check_map, TOP / "docs/MAP.md"))
    yield Check("documents, edits of docs/PROOFS.md", 0.1, partial(check_edits, TOP / "docs/PROOFS.md"))
    yield Check("documents, rows of docs/PROOFS.md", 0.1, partial(check_rows, TOP / "docs/PROOFS.md"))
    yield Check("documents, pictures", 2, partial(check_command, PICTURES, [], is_own))
