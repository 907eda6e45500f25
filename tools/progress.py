#!/usr/bin/env python3
"""Runs a command that proves or builds, keeps all that it says in a log, and shows on standard error how far it is.

usage: tools/progress.py --in crates/NAME LOG rt check    which crate is proved, how many there are, the time so far
       tools/progress.py --in crates/NAME LOG rt lib
       tools/progress.py LOG rt all check                 the same of every crate, where crates.txt is
       tools/progress.py --what WORDS LOG COMMAND ..      for another command: these words, and the time so far

A terminal has one line, which is written over; a file or a pipe gets a line for each crate. What takes less than a
second is not shown. Where the command fails, the end of the log is shown.
Its status is the command's, or 127 where there is no such command. The tools in Python call `run` and `show_end`.
"""
import os
import re
import subprocess
import sys
import time
from typing import BinaryIO, Optional, TextIO

# `rt` says of a crate, when it begins it: rt: chose --jobs 2 for NAME; and when it is done with it: crate NAME: modules loaded=3 checked=9 and, some
# lines below, logic=proved .. or logic=not-proved. It says nothing of a library that is built already.
BEGUN = re.compile(r"rt: chose --jobs \d+ for (\w+)$")
CHECKED = re.compile(r"crate (\w+): modules loaded=\d+ checked=\d+$")
OUTCOME = re.compile(r"logic=(proved|not-proved)\b")
# Seconds: how long a command is silent before something is shown; and how often its log is looked at.
PATIENCE = 1.0
TICK = 0.2
# Where the command fails: how many lines of the log's end are shown, how many of the first errors, and how much of a line.
END = 20
FIRST = 5
CUT = 300
ERROR = re.compile(r"(^|: )error(\[\w+\])?:")


def ordered(wanted: list[str], listing: str) -> list[str]:
    """The crates that have to be proved for those that are wanted, in the order in which `rt` takes them: before each the libraries that it needs.
    `listing` is what crates.txt says: NAME: DEP DEP .."""
    pairs = [line.split("#")[0].partition(":") for line in listing.splitlines()]
    needs = {name.split()[0]: deps.split() for name, colon, deps in pairs if colon}
    order: list[str] = []
    begun: set[str] = set()

    def visit(name: str) -> None:
        if name in needs and name not in begun:  # also where crates are in a circle, which `rt` refuses
            begun.add(name)
            for dep in needs[name]:
                visit(dep)
            order.append(name)

    for name in wanted or needs:
        visit(name)
    return order


def crates_of(command: list[str], folder: str) -> list[str]:
    """The crates that a command of `rt` proves in a folder; none for another command."""
    folder = os.path.abspath(folder)
    top, wanted = folder, []
    if command[:2] in (["rt", "check"], ["rt", "lib"], ["rt", "run"]):
        top, wanted = os.path.dirname(os.path.dirname(folder)), [os.path.basename(folder)]
    elif command[:2] != ["rt", "all"]:
        return []
    try:
        with open(os.path.join(top, "crates.txt"), encoding="utf-8") as f:
            return ordered(wanted, f.read())
    except OSError:
        return []


def lasted(seconds: float) -> str:
    minutes, rest = divmod(int(seconds), 60)
    return f"{minutes} min {rest} s" if minutes else f"{rest} s"


class Shown:
    """What stands on standard error. Where nobody can read it any longer, the command still runs to its end."""

    def __init__(self, out: Optional[TextIO]) -> None:
        self.out = out
        self.in_place = out is not None and out.isatty()
        self.wide = 0  # of the line that can be written over

    def write(self, text: str) -> None:
        try:
            if self.out is not None:
                self.out.write(text)
                self.out.flush()
        except OSError:
            self.out = None

    def line(self, text: str) -> None:
        """A line that stays."""
        self.write(("\r" if self.wide else "") + text.ljust(self.wide) + "\n")
        self.wide = 0

    def passing(self, text: str) -> None:
        """A line that the next one is written over."""
        text = text[: self.columns() - 1]
        self.write("\r" + text.ljust(self.wide))
        self.wide = len(text)

    def clear(self) -> None:
        if self.wide:
            self.write("\r" + " " * self.wide + "\r")
            self.wide = 0

    def columns(self) -> int:
        try:
            return os.get_terminal_size(self.out.fileno()).columns or 80
        except (OSError, AttributeError):
            return 80


class Progress:
    """Which crates are done, by what the command has said, and what has been shown of it."""

    def __init__(self, command: list[str], folder: str, what: str, log: str, shown: Shown) -> None:
        crates = crates_of(command, folder)
        self.left, self.total, self.in_turn = list(crates), len(crates), command[1:2] != ["all"]
        self.what, self.log, self.shown = what, log, shown
        self.now = self.checked = ""  # the crate that is proved now, and the one that the next outcome is of
        self.began = self.heard_at = time.monotonic()
        self.named: set[str] = set()  # of what has been shown

    def heard(self, line: str) -> None:
        """Takes in a line that the command has said."""
        if self.in_turn and (begun := BEGUN.match(line)) and begun[1] in self.left:
            # those before it that nothing was said of are built already
            self.now, self.left = begun[1], self.left[self.left.index(begun[1]) :]
            self.heard_at = time.monotonic()
        elif checked := CHECKED.match(line):
            self.checked = checked[1]
        elif (outcome := OUTCOME.match(line)) and self.checked in self.left:
            crate, self.checked = self.checked, ""
            self.heard_at = time.monotonic()
            if outcome[1] == "not-proved":
                self.shown.line(f"{crate} is not proved")
            elif crate not in self.named and len(self.left) > 1:
                self.show("proved", crate)
            self.left.remove(crate)
            self.now = ""

    def waiting(self) -> None:
        """The command still runs: shows what it does, unless it has only just said something."""
        if time.monotonic() - self.heard_at < PATIENCE:
            return
        if self.now:
            self.show("proving", self.now)
        elif self.left:
            self.show("looking what is proved")
        else:
            self.show(self.what or "finishing")

    def show(self, does: str, crate: str = "") -> None:
        if not self.named and self.total:
            number = "1 crate" if self.total == 1 else f"{self.total} crates"
            self.shown.line(f"Proved first: what is not proved yet of {number}. From nothing, that takes some minutes. Log: {self.log}")
        so_far = f"{lasted(time.monotonic() - self.began)} so far"
        text = f"{does} ({so_far})"
        if crate:
            text = f"{does} {crate} ({self.total - len(self.left) + 1} of {self.total}, {so_far})"
        if self.shown.in_place:
            self.shown.passing(text)
        elif (crate or does) not in self.named:
            self.shown.line(text)
        self.named.add(crate or does)

    def ended(self, status: int) -> None:
        self.shown.clear()
        if self.named:
            self.shown.line(f"{'done' if status == 0 else 'failed'} after {lasted(time.monotonic() - self.began)}")


def followed(child: subprocess.Popen, log: BinaryIO, progress: Progress) -> int:
    """Waits for the command, and shows how far it is, by its log. Gives its status."""
    rest = b""
    while True:
        try:
            status = child.wait(TICK)
        except subprocess.TimeoutExpired:
            status = None
        *lines, rest = (rest + log.read()).split(b"\n")
        for line in lines:
            progress.heard(line.decode(errors="replace"))
        if status is not None:
            # as a shell says it, where a signal has ended the command
            return status if status >= 0 else 128 - status
        progress.waiting()


def run(command: list[str], log: str, what: str = "", folder: str = ".") -> int:
    """Runs a command in a folder, with nothing to read. Gives its status."""
    os.makedirs(os.path.dirname(log) or ".", exist_ok=True)
    progress = Progress(command, folder, what, log, Shown(sys.stderr))
    with open(log, "wb") as kept, open(log, "rb") as said:
        try:
            child = subprocess.Popen(command, cwd=folder, stdin=subprocess.DEVNULL, stdout=kept, stderr=subprocess.STDOUT)
        except OSError as error:
            kept.write(f"{command[0]}: {error.strerror}; README says what is needed\n".encode())
            return 127
        try:
            status = followed(child, said, progress)
        except KeyboardInterrupt:
            # the command is interrupted too, and is not to write to its log when this has ended
            child.wait()
            status = 130
    progress.ended(status)
    return status


def shortened(line: str) -> str:
    return line if len(line) <= CUT else line[:CUT] + ".."


def end_of(log: str, count: int = END) -> str:
    """The last lines of a log, after the first errors where these stand further up: much may follow from one of them."""
    with open(log, encoding="utf-8", errors="replace") as f:
        lines = [shortened(line) for line in f.read().splitlines()]
    errors = [line for line in lines[:-count] if ERROR.search(line)][:FIRST]
    return "\n".join([*errors, *([".."] if lines[:-count] else []), *lines[-count:]])


def show_end(log: str) -> None:
    Shown(sys.stderr).line(f"{end_of(log)}\nThat was the end of {log}")


def main() -> int:
    words = sys.argv[1:]
    given = {"--what": "", "--in": "."}
    while len(words) > 1 and words[0] in given:
        given[words[0]], words = words[1], words[2:]
    if len(words) < 2:
        print(__doc__.strip(), file=sys.stderr)
        return 2
    status = run(words[1:], words[0], given["--what"], given["--in"])
    if status != 0:
        show_end(words[0])
    return status


if __name__ == "__main__":
    sys.exit(main())
