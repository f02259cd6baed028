"""Reads what the repository holds, for the tools: files, lemmas and definitions, functions, comments, must-fail edits.

The files are those that git knows, so a new one counts once it is added. Sources are read by their layout, as `rt fmt`
writes it, and not by a grammar.
"""

import functools
import io
import re
import subprocess
import tokenize
from dataclasses import dataclass, field

from command_line import Fault
from crate_list import TOP, read_crates

# What separates two words of an .antt file.
WORD = re.compile(r"[^\s(){}\[\],;|]+")
USE = re.compile(r"^[ ]*(?:pub )?(?:ghost )?use (Rattle\.[^\s;{]+?)(?:\.\{([^}]*)\})?(?: as (\S+?))?;?[ ]*$", re.M)
ANTT_WORDS = {"pub", "abbrev", "unfoldable", "record", "data"}
FUNCTION = re.compile(r"^( *)(?:pub(?:\(\w+\))? )?(?:const )?fn (\w+)")
TYPE = re.compile(r"^ *(?:pub(?:\(\w+\))? )?(?:struct|enum|trait|const|type|static) (\w+)")
HOLDER = re.compile(r"^(?:impl(?:<.*?>)? (?:.* for )?|(?:pub )?trait )(\w+)")


@dataclass
class Item:
    """A lemma, a definition or an anonymous section of an .antt file, or a function or a type of an .rt file."""

    name: str
    file: str
    first: int
    last: int
    kind: str
    is_public: bool = False
    # Of a section its parameters; of a lemma what a caller gives, with those of the sections that it stands in.
    arguments: int = 0
    holder: str = ""
    head: str = field(default="", repr=False)

    @property
    def full_name(self):
        return f"{self.holder}::{self.name}" if self.holder else self.name


def run_git(*words):
    """What git prints, or a Fault in its own words."""
    try:
        ran = subprocess.run(["git", *words], cwd=TOP, capture_output=True, check=False)
    except OSError as fault:
        raise Fault(f"git: {fault.strerror}") from fault
    if ran.returncode:
        raise Fault(f"git: {ran.stderr.decode(errors='replace').strip().partition(chr(10))[0]}")
    return ran.stdout.decode(errors="replace")


@functools.cache
def files():
    """The files that git knows and that are there, by their names from the top, sorted."""
    return [name for name in sorted(set(run_git("ls-files", "-z").split("\0"))) if name and (TOP / name).is_file()]


@functools.cache
def read(name):
    return (TOP / name).read_text(encoding="utf-8", errors="replace")


@functools.cache
def lines_of(name):
    return read(name).splitlines()


def crate_of(name):
    """The crate that a file belongs to, or an empty text."""
    parts = name.split("/")
    return parts[1] if parts[0] == "crates" and len(parts) > 2 else ""


def place_of(name):
    """The crate of a file, or its folder, or for a file at the top `.`."""
    return crate_of(name) or (name.split("/")[0] if "/" in name else ".")


@functools.cache
def crates():
    return read_crates()


def users_of(names):
    """These crates and all that stand on one of them, each after those that it uses."""
    wanted, ordered, uses = set(names), [], crates()

    def visit(crate):
        if crate in uses and crate not in ordered:
            for library in uses[crate]:
                visit(library)
            ordered.append(crate)

    for crate in uses:
        visit(crate)
    for crate in ordered:
        if wanted & set(uses[crate]):
            wanted.add(crate)
    return [crate for crate in ordered if crate in wanted]


@functools.cache
def test_files(crate):
    """The files under `src` of a crate that its `#[cfg(test)] mod` lines name."""
    found = set()
    for name in files():
        if name.startswith(f"crates/{crate}/src/") and name.endswith(".rt"):
            for module in re.findall(r"#\[cfg\(test\)\]\s*(?:pub )?mod (\w+);", read(name)):
                folder = f"crates/{crate}/src/{module}"
                found |= {it for it in files() if it == f"{folder}.rt" or it.startswith(f"{folder}/")}
    return frozenset(found)


def is_test(name, line=0):
    """Whether a file, or a line of it, is for tests alone."""
    if name in test_files(crate_of(name)):
        return True
    inside = re.search(r"#\[cfg\(test\)\]\s*mod \w+ \{", read(name)) if line else None
    return bool(inside) and line > read(name).count("\n", 0, inside.start())


def without_comment(line, mark):
    """A line up to its comment, which begins with the mark."""
    at = line.find(mark)
    while at > 0 and (line[:at].count('"') % 2 or (mark == "--" and line[at - 1] != " ")):
        at = line.find(mark, at + 1)
    return line if at < 0 else line[:at]


@functools.cache
def code_lines(name):
    """The lines of an .antt, .rt or .rs file without their comments."""
    mark = "--" if name.endswith(".antt") else "//"
    return [without_comment(line, mark).rstrip() for line in lines_of(name)]


def without_imports(name):
    """The text of a file without comments, with a blank in place of each letter of a `use` line."""
    text = "\n".join(code_lines(name))
    return USE.sub(lambda found: re.sub(r"[^\n]", " ", found[0]), text)


@functools.cache
def words_by_line(name):
    """For each line of an .antt or .rt file that has any, its number and the words in it, `use` lines left out."""
    numbered = enumerate(without_imports(name).split("\n"), 1)
    return [(number, WORD.findall(line)) for number, line in numbered if line.strip()]


@functools.cache
def imports(name):
    """Each import: module, names with what each is called here (None: all), the module's short name, whether `pub`."""
    found = []
    for match in USE.finditer("\n".join(code_lines(name))):
        names = None
        if match[2] is not None:
            pairs = (entry.split(" as ") for entry in match[2].replace("\n", " ").split(",") if entry.strip())
            names = {pair[0].strip(): pair[-1].strip() for pair in pairs}
        found.append((match[1], names, match[3] or match[1].split(".")[-1], match[0].lstrip().startswith("pub")))
    return found


def module_of(name):
    """The module that an .antt file is, as a `use` line names it."""
    _, crate, *rest = name.removesuffix(".antt").split("/")
    return ".".join(["Rattle", crate, *rest])


def split_signature(text):
    """What stands before the first `:` of a signature that is in no bracket, and what stands behind it."""
    depth = 0
    for at, word in [(found.start(), found[0]) for found in re.finditer(r"[(){}\[\]]|[^\s(){}\[\]]+", text)]:
        if word in "([{":
            depth += 1
        elif word in ")]}":
            depth -= 1
        elif depth == 0 and word == ":":
            return text[:at], text[at + 1:]
        elif depth == 0 and word in ("=", "where"):
            return text[:at], ""
    return text, ""


def binders(text):
    """How many names the brackets `(a b : A)` of a text bind, or None where something else stands beside them."""
    count, depth, begun = 0, 0, 0
    for at, letter in enumerate(text):
        if letter in "({[":
            begun = at if depth == 0 else begun
            depth += 1
        elif letter in ")}]":
            depth -= 1
            if depth == 0 and text[begun] == "(":
                names, colon, _ = text[begun + 1:at].partition(" : ")
                if not colon:
                    return None
                count += len(names.split())
        elif depth == 0 and not letter.isspace():
            return None
    return count


def premises(text):
    """The parts of a type that an arrow in no bracket follows."""
    depth, begun, found = 0, 0, []
    for at, letter in enumerate(text):
        depth += (letter in "({[") - (letter in ")}]")
        if letter == "→" and depth == 0:
            found.append(text[begun:at])
            begun = at + 1
    return found


def count_arguments(signature):
    """How many arguments a caller writes: the names in round brackets, and the premises without a name."""
    before, behind = split_signature(signature)
    count = binders(" ".join(before.split(" ")[1:])) or 0
    for premise in premises(behind):
        named = binders(premise)
        count += 1 if named is None else named
    return count


def begins_item(text):
    """Whether a paragraph begins a definition: it has a word for one, or a `:` before any `=`."""
    if text.split(" ", 1)[0] in ANTT_WORDS:
        return True
    before, behind = split_signature(text)
    return bool(behind) and len(WORD.findall(re.sub(r"[({].*", "", before, flags=re.S))) == 1


def paragraphs(name):
    """The lines of an .antt file that say something, `use` lines left out: number, indentation, text."""
    numbered = enumerate(without_imports(name).split("\n"), 1)
    return [(number, len(line) - len(line.lstrip()), line) for number, line in numbered if line.strip()]


def end_of_paragraph(lines, at, level):
    """Where the paragraph that begins at a place ends: a section's head at `where`, else before the next line."""
    end = at + 1
    if lines[at][2].lstrip().startswith("module "):
        while end < len(lines) and not re.search(r"\bwhere$", lines[end - 1][2]):
            end += 1
    else:
        while end < len(lines) and lines[end][1] > level:
            end += 1
    return end


def read_item(name, text, first, last):
    """The section, definition or lemma that a paragraph begins, or None."""
    if text.startswith("module "):
        parameters = re.sub(r"\s+where$", "", text).split(" ", 2)[2]
        return Item("_", name, first, last, "section", arguments=binders(parameters) or 0, head=text)
    if not begins_item(text):
        return None
    words = text.split()
    keys = [word for word in words[:4] if word in ANTT_WORDS]
    kind = next((word for word in keys if word in ("record", "data")), "definition")
    head = text[re.match(rf"(?:\w+\s+){{{len(keys)}}}", text).end():]
    if kind != "definition":
        # The parts of a record, and the cases of a sum, are what it says and no arguments of it.
        head = re.split(r"\bwhere\b", head, maxsplit=1)[0]
    return Item(WORD.match(head)[0], name, first, last, kind, "pub" in keys, count_arguments(head), head=text)


@functools.cache
def antt_items(name):
    """The definitions, lemmas and anonymous sections of an .antt file, in order."""
    lines, found, open_sections, current, at = paragraphs(name), [], [], None, 0
    while at < len(lines):
        first, indent, line = lines[at]
        while open_sections and indent < open_sections[-1][0]:
            open_sections.pop()
        level = open_sections[-1][0] if open_sections else 0
        end = end_of_paragraph(lines, at, level)
        last = lines[end - 1][0]
        if indent == level and line.lstrip()[0] not in ")]}":
            text = "\n".join(it[2] for it in lines[at:end]).strip()
            item = None if re.match(r"(pub )?mod |unfolding ", text) else read_item(name, text, first, last)
            if item and item.kind != "section":
                item.arguments += sum(section.arguments for _, section in open_sections)
            if item:
                found.append(item)
                current = item
        if current:
            current.last = max(current.last, last)
        for _, section in open_sections:
            section.last = last
        if current and current.kind == "section" and current.first == first:
            open_sections.append((level + 2, current))
        at = end
    return found


def end_of_function(lines, at, indent):
    """The number of the last line of the function whose first line stands at a place."""
    has_body = False
    for number in range(at + 1, len(lines) + 1):
        line = lines[number - 1]
        if line.startswith(indent + "}") and has_body:
            return number
        if not has_body and (line.endswith(";") or line == indent + "{}" or (number == at + 1 and line.endswith("}"))):
            return number
        if line.startswith(indent) and not line.startswith(indent + " ") and line.endswith("{"):
            has_body = True
    return len(lines)


@functools.cache
def functions(name):
    """The functions of an .rt file, with the type or trait that each belongs to."""
    found, holder, lines = [], "", code_lines(name)
    for at, line in enumerate(lines):
        named = HOLDER.match(line)
        if named:
            holder = named[1]
        elif line.startswith("}"):
            holder = ""
        begun = FUNCTION.match(line)
        if begun:
            last = end_of_function(lines, at, begun[1])
            head = " ".join(it.strip() for it in lines[at:last])
            arguments = count_parameters(head)
            item = Item(begun[2], name, at + 1, last, "function", "pub " in line.split("fn ")[0], arguments, head=head)
            item.holder = holder if begun[1] else ""
            found.append(item)
    return found


def count_parameters(head):
    """How many parameters a function has, with `self`."""
    at = re.sub(r"->", "  ", head)
    begun = re.search(r"fn \w+", at).end()
    depth, angle, count, inside, start = 0, 0, 0, False, 0
    for place in range(begun, len(at)):
        letter = at[place]
        if not inside:
            angle += (letter == "<") - (letter == ">")
            if letter == "(" and angle == 0:
                inside, start = True, place + 1
            continue
        if letter in "([{<":
            depth += 1
        elif letter in ")]}>" and depth:
            depth -= 1
        elif letter == ")" or (letter == "," and depth == 0):
            count += bool(at[start:place].strip())
            start = place + 1
            if letter == ")":
                break
    return count


@functools.cache
def types(name):
    """The types, traits and constants that an .rt file defines."""
    numbered = enumerate(code_lines(name), 1)
    named = [(number, line, TYPE.match(line)) for number, line in numbered]
    return [
        Item(match[1], name, number, number, "type", line.lstrip().startswith("pub"))
        for number, line, match in named if match
    ]


@functools.cache
def edits():
    """Each edit that the prover must refuse: its file, the file that it changes, and its pairs of a line, an old text
    and a new one. The gate tries those of a crate's must-fail/, tools/wrong-bodies those of examples/wrong_bodies."""
    found = []
    for name in files():
        held = re.fullmatch(r"(?:crates/(\w+)/must-fail|examples/wrong_bodies/(\w+))/[^/]+\.edit", name)
        if held:
            target, pairs = "", []
            for number, line in enumerate(lines_of(name), 1):
                key, _, text = line.partition(": ")
                if key == "file":
                    target = f"crates/{held[1] or held[2]}/{text}"
                elif key == "old":
                    pairs.append([number, text, ""])
                elif key == "new" and pairs:
                    pairs[-1][2] = text
            found.append((name, target, pairs))
    return found


@functools.cache
def python_files():
    """The files of Python, by their end or their first line."""
    begins = "#!/usr/bin/env python3"
    return {
        name for name in files()
        if name.endswith(".py") or ("." not in name.split("/")[-1] and read(name).startswith(begins))
    }


def python_comments(name):
    """The comments and docstrings of a file of Python, each line with its number."""
    found, before = [], tokenize.NEWLINE
    for token in tokenize.generate_tokens(io.StringIO(read(name)).readline):
        if token.type == tokenize.COMMENT and not token.string.startswith("#!"):
            found.append((token.start[0], token.string.lstrip("# ")))
        elif token.type == tokenize.STRING and before in (tokenize.NEWLINE, tokenize.INDENT, tokenize.DEDENT):
            text = token.string.strip("rbuf\"'")
            found += [(token.start[0] + at, line.strip()) for at, line in enumerate(text.splitlines())]
        if token.type not in (tokenize.NL, tokenize.COMMENT):
            before = token.type
    return found


def document_lines(name):
    """The lines of a document outside its fenced and indented blocks, without what stands in backticks."""
    found, fenced = [], False
    for number, line in enumerate(lines_of(name), 1):
        if line.startswith("```"):
            fenced = not fenced
        elif not fenced and not line.startswith("    "):
            found.append((number, re.sub(r"`[^`]*`", "`", line)))
    return found


@functools.cache
def prose(name):
    """What a file says to its reader, line by line with numbers: a document's text, or a source's comments."""
    if name.endswith(".md"):
        return document_lines(name)
    if name in python_files():
        return python_comments(name)
    if name.endswith((".rt", ".rs", ".antt")):
        mark = "--" if name.endswith(".antt") else "//"
        both = enumerate(zip(lines_of(name), code_lines(name)), 1)
        said = [(at, line[len(code):].strip()) for at, (line, code) in both if mark in line]
        return [(at, text.lstrip(mark[0] + "!").strip()) for at, text in said]
    if read(name).startswith("#!/bin/sh"):
        found = [(at, re.search(r"(?:^|\s)#(?!!)(.*)", line)) for at, line in enumerate(lines_of(name), 1)]
        return [(at, match[1].strip()) for at, match in found if match]
    return []
