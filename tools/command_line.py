"""What the tools share at the command line: options, and faults told in words."""

import argparse
import os
import shutil
import subprocess
import sys
from pathlib import Path

from crate_list import TOP
from program import Missing, find_program


class Fault(Exception):
    """What is wrong, in words, and the status that the tool ends with: 2 where what it was given is wrong."""

    def __init__(self, text, status=2):
        super().__init__(text)
        self.status = status


class Parser(argparse.ArgumentParser):
    """A parser whose faults look as those of all tools."""

    def __init__(self, text):
        super().__init__(description=text, formatter_class=argparse.RawDescriptionHelpFormatter, allow_abbrev=False)
        self.add_argument("--version", action=Version)

    def add_program(self, stands_for="gczone"):
        self.add_argument("--program", metavar="PATH", help=f"a program to run in place of {stands_for}")

    def error(self, message):
        self.print_usage(sys.stderr)
        self.exit(2, f"{self.prog}: {message}\n")


class Version(argparse.Action):
    """Prints which gczone this is, and ends the tool."""

    def __init__(self, option_strings, dest):
        super().__init__(option_strings, dest, nargs=0, help="print the version of gczone that this tool belongs to")

    def __call__(self, parser, *_):
        print(version())
        parser.exit()


def version():
    """The first line of `./gczone version`."""
    ran = subprocess.run([TOP / "gczone", "version"], stdin=subprocess.DEVNULL, capture_output=True, check=True)
    return ran.stdout.decode().splitlines()[0]


def at_least(least):
    """The type of an argument that is a number from this one on."""

    def number(text):
        if not text.isdecimal() or int(text) < least:
            raise argparse.ArgumentTypeError(f"'{text}' is no number from {least} on")
        return int(text)

    return number


def program_of(path, crate="gczone"):
    """The program that --program names, or the one of the repository."""
    if path is None:
        try:
            return find_program(crate)
        except Missing as missing:
            raise Fault(str(missing), 1) from None
    found = shutil.which(path)
    if not found:
        raise Fault(f"{path} is {'no program' if Path(path).exists() else 'not there'}", 1)
    # A link stays one: some programs do what their name says.
    return Path(found).absolute()


def read_file(path):
    """The bytes of a file, or of standard input where the path is -."""
    try:
        return sys.stdin.buffer.read() if path == "-" else Path(path).read_bytes()
    except OSError as error:
        raise Fault(f"{path}: {error.strerror}") from None


def run_main(main):
    """Runs a tool, and ends it: with the status that it returns, or with a message."""
    name = Path(sys.argv[0]).name
    try:
        status = main()
        sys.stdout.flush()
    except Fault as fault:
        print(f"{name}: {fault}", file=sys.stderr)
        status = fault.status
    except BrokenPipeError:
        # Nobody reads on. What is still held back must not fail once more at the end.
        os.dup2(os.open(os.devnull, os.O_WRONLY), sys.stdout.fileno())
        status = 1
    except OSError as error:
        print(f"{name}: {error.filename or 'a file'}: {error.strerror}", file=sys.stderr)
        status = 1
    except MemoryError:
        print(f"{name}: out of memory", file=sys.stderr)
        status = 1
    except KeyboardInterrupt:
        status = 130
    sys.exit(status)
