"""Transcripts of a collector, and what gcjudge says of them: for tools/judge and tools/check-step."""

import subprocess

from command_line import Fault

REPORTS = (b"started", b"groups", b"ended", b"told", b"swept", b"done", b"stopped")
DUMPED = (b"cell", b"edge", b"weak")
# The words whose answer may have lines before its last one, and the first words of these.
BEFORE_LAST = {b"slice": REPORTS, b"finish": REPORTS, b"collect": REPORTS, b"reset": REPORTS, b"dump": DUMPED}
MARK = b"> "
STATUS_LAWFUL, STATUS_BAD_LINE, STATUS_UNLAWFUL, STATUS_CUT = 0, 3, 8, 9


def lines_of(data):
    """The lines of some bytes; the last one may lack its line feed."""
    lines = data.split(b"\n")
    return lines if lines[-1] else lines[:-1]


def first_word(line):
    return line.split(b" ", 1)[0]


def answer_end(command, output, start):
    """Where the answer to a command ends that begins at a line of the output."""
    before = BEFORE_LAST.get(first_word(command), ())
    end = start
    while end < len(output) and first_word(output[end]) in before:
        end += 1
    return min(end + 1, len(output))


def unmarked(line):
    """A line of the output, which must not look as one of the trace. No lawful line begins so."""
    return b"?" + line if line.startswith(MARK) else line


class Transcript:
    """The lines of a transcript, and for each one which line of the trace and of the output it is."""

    def __init__(self, trace, output):
        self.trace = trace
        self.lines, self.places = [], []
        at = 0
        for number, command in enumerate(trace, 1):
            self.add(MARK + command, number, at + 1)
            end = answer_end(command, output, at)
            for place in range(at, end):
                self.add(unmarked(output[place]), number, place + 1)
            at = end
        for place in range(at, len(output)):
            self.add(unmarked(output[place]), len(trace), place + 1)

    def add(self, line, in_trace, in_output):
        self.lines.append(line)
        self.places.append((in_trace, in_output))

    def data(self):
        return b"".join(line + b"\n" for line in self.lines)

    def wrong(self, program):
        """What gcjudge finds wrong, in words; None where the transcript is lawful."""
        ran = subprocess.run([program], input=self.data(), capture_output=True, check=False)
        if ran.returncode == STATUS_LAWFUL and ran.stdout == b"lawful\n":
            return None
        if ran.returncode == STATUS_CUT:
            in_trace, in_output = self.places[-1]
            end = in_output + (not self.lines[-1].startswith(MARK))
            return f"at line {end}, for line {in_trace} of the trace: the output ends within an answer"
        if ran.returncode == STATUS_UNLAWFUL:
            place, kind = ran.stdout.decode("ascii").removeprefix("at line ").rstrip("\n").split(": ", 1)
            in_trace, in_output = self.places[int(place) - 1]
            command = self.trace[in_trace - 1].decode()
            return f'at line {in_output}, for line {in_trace} of the trace, "{command}": {kind}'
        if ran.returncode == STATUS_BAD_LINE:
            place = int(ran.stderr.split()[2].rstrip(b":"))
            line = self.places[place - 1][0]
            raise Fault(f"line {line} of the trace is none of the language")
        raise Fault(ran.stderr.decode(errors="replace").strip() or f"gcjudge ended with status {ran.returncode}", 1)
