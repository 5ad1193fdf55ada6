"""What the scripts on hostile use share: folders of files, calls of the program, and the forms of its notes."""
import argparse
import hashlib
import os
import pathlib
import re
import shutil
import signal
import subprocess
import sys
import tempfile

TOP = pathlib.Path(__file__).resolve().parent.parent
EXAMPLES = TOP / "examples"
FILES = ("bfs.vp", "k.vp", "components.vp", "rank.vp", "sample.vp", "diamond.txt", "triangle-with-tail.txt")

NAME = rb"(?:(?:refresh|push|tally|verdict)(?: \d+){3}|(?:dep|update)(?: \d+){5})"
PLACE = rb"line [1-9]\d*: "
NOTES = {
    0: rb"",
    1: rb"symple: (?:unknown command|bad arguments)\n",
    2: rb"symple: cannot read (?s:.+)\n",
    3: rb"symple: program: (?:L[1-3]|P[1-3]|Y[1-8]) at [1-9]\d*:[1-9]\d*\n",
    4: rb"symple: (?:graph: (?:E[1-5] at line [1-9]\d*|E[4-7] at byte \d+)|part: K[1-4])\n",
    5: rb"symple: schedule: (?:line 1: bad header|more than 67108864 bytes|machine \d+ did not go|"
    + NAME + rb" was not taken|" + PLACE + rb"(?:bad line|no machine \d+|machine \d+ waits for " + NAME
    + rb"|machine \d+ is over|the run is over|" + NAME + rb" (?:is not under way|cannot be sent again)"
    + rb"|no ack of " + NAME + rb" is under way))\n",
    6: rb"symple: cannot write\n",
    7: rb"symple: out of memory\n",
    8: rb"symple: message: (?:M[1-5] at byte \d+|M6 waits for " + NAME + rb")\n",
}
FORMS = {status: re.compile(form) for status, form in NOTES.items()}
NOT_THERE = (1, b"symple: unknown command\n")


def asked(text, *more, program="symple"):
    """The options of a script with this text at its head, which calls this program; each of `more` is a name and what
    argparse is told of it."""
    parser = argparse.ArgumentParser(description=text, formatter_class=argparse.RawDescriptionHelpFormatter)
    parser.add_argument("--program", default=str(TOP / "crates" / program / "out" / program))
    for name, told in more:
        parser.add_argument(name, **told)
    found = parser.parse_args()
    # So that folders go when the script is told to stop.
    signal.signal(signal.SIGTERM, lambda *_: sys.exit(128 + signal.SIGTERM))
    found.program = str(pathlib.Path(found.program).resolve())
    return found


class Answer:
    """How a call ended: its status (below 0 the signal, None where it was stopped), its output and its note."""

    def __init__(self, status, out, note):
        self.status, self.out, self.note = status, out, note

    def is_there(self):
        return (self.status, self.note) != NOT_THERE

    def is_named(self):
        form = FORMS.get(self.status)
        return bool(form and form.fullmatch(self.note))

    def __str__(self):
        note = self.note.decode(errors="backslashreplace").strip()
        return f"status {self.status}, {note if len(note) < 100 else note[:60] + ' ..'}"


def call(program, words, folder, seconds=60, **how):
    """Calls the program in the folder and gives its Answer. Streams are collected where `how` names none."""
    how = {"stdin": subprocess.DEVNULL, "stdout": subprocess.PIPE, "stderr": subprocess.PIPE, **how}
    ran = subprocess.Popen([program, *words], cwd=folder, **how)
    try:
        out, note = ran.communicate(timeout=seconds)
    except subprocess.TimeoutExpired:
        ran.send_signal(signal.SIGKILL)
        ran.communicate()
        return Answer(None, b"", b"")
    return Answer(ran.returncode, out or b"", note or b"")


class Folder:
    """A new folder with the example files in it, which goes when its block ends."""

    def __init__(self, *names):
        self.names = names or FILES

    def __enter__(self):
        self.path = pathlib.Path(tempfile.mkdtemp(prefix="symple-"))
        self.path.chmod(0o755)
        for name in self.names:
            shutil.copy(EXAMPLES / name, self.path / name)
        return self

    def __exit__(self, *_):
        for folder, _, _ in os.walk(self.path):
            os.chmod(folder, 0o700)
        shutil.rmtree(self.path)

    def sums(self):
        """The sum of each file below the folder; of what is no file, what it is."""
        found = {}
        for it in sorted(self.path.rglob("*")):
            name = str(it.relative_to(self.path))
            if it.is_file() and it.stat().st_size < 1 << 24:
                found[name] = hashlib.sha256(it.read_bytes()).hexdigest()
            else:
                found[name] = "folder" if it.is_dir() else f"{it.stat().st_size} bytes" if it.is_file() else "other"
        return found


def changed(before, after):
    """The names whose files aren't as before."""
    return sorted(name for name in before.keys() | after.keys() if before.get(name) != after.get(name))
