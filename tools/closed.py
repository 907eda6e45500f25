"""Closed statements about the definitions: text for the checker, and a check of it in a copy of the crate `rules`.

A script (see second/README.md) is a start pool and a list of requests; what it should leave comes from elsewhere, and the
checker is asked to prove by `refl` that the definitions of document 01 leave exactly that.
"""
import os, shutil, subprocess, tempfile

ROOT = os.path.dirname(os.path.dirname(os.path.abspath(__file__)))

HEAD = """-- Closed statements, written by tools/.
use Rattle.std.specs.Prelude.{◌≡◌, refl, List, [], ◌∷◌, ℕ, ℤ, pos, replicate}
use Rattle.std.specs.Float.{binary64}
use Rattle.std.specs.Float.Ieee.{of_bits}
use Rattle.rules.specs.declared.Edition.TheVariants.{One, Two}
use Rattle.rules.specs.declared.Request.{Request}
use Rattle.rules.specs.declared.Answer.{Answer}
use Rattle.rules.specs.declared.Query.TheVariants.{Point, Box, Disc}
use Rattle.std.specs.Prelude.{Ok, Err}
use Rattle.rules.specs.declared.SurveyFault.TheVariants.{BadSurvey}
use Rattle.rules.specs.Owners.{owner}
use Rattle.rules.specs.Pool.{number, rectangle, no_record}
use Rattle.rules.specs.Answers.{answer}
use Rattle.rules.specs.Call.{Left}
use Rattle.rules.specs.Frames.{dustmap}
use Rattle.rules.specs.Survey.{query_window}
use Rattle.rules.specs.Computed.{document01, document02}
use Rattle.rules.specs.Histories.{minus, asking, history_of}
use Rattle.rules.specs.Layout.{blank_words_of}
"""


def integer(n):
    return f"pos {n}" if n >= 0 else f"minus {-n}"


def listed(items, rest="[]"):
    return "".join(f"{i} ∷ " for i in items) + rest


def words(ns):
    return listed(integer(n) for n in ns)


def rect(ns):
    return "(rectangle " + " ".join(f"({integer(n)})" for n in ns) + ")"


def record(ns):
    return f"record {{ number = number ({integer(ns[0])}); rect = {rect(ns[1:])} }}"


# the words that a script has for requests, with their kinds; the last three are the modes of a search, which have a window and no number
KINDS = {"insert": 1, "delete": 2, "update": 3, "search": 4, "inside": 5, "enclosing": 6}
SEARCHES = ("search", "inside", "enclosing")


def request(line):
    """A line of a script as a request of ten words."""
    kind, *ns = line.split()
    ns = [int(n) for n in ns]
    number, rest = (0, ns) if kind in SEARCHES else (ns[0], ns[1:])
    first, second = rest[:4], (rest[4:] + [0] * 4)[:4]
    return f"asking {KINDS[kind]} ({integer(number)}) {rect(first)} {rect(second)}"


def lines_of(text, *heads):
    return [l for l in text.splitlines() if l.split(" ", 1)[0] in heads]


def numbers(line):
    return [int(n) for n in line.split()[1:]]


EDITIONS = {1: "One", 2: "Two"}


def start(script):
    blank = lines_of(script, "blank")
    if blank:
        slots, edition = (numbers(blank[0]) + [1])[:2]
        return f"blank_words_of {EDITIONS[edition]} {slots}"
    return words(numbers(lines_of(script, "pool")[0]))


def statement(name, script, output):
    """That the definitions leave, for a script, what the output of `second script` says."""
    whose = numbers((lines_of(script, "owner") or ["owner 1"])[0])[0]
    places = numbers((lines_of(script, "found") or ["found 64"])[0])[0]
    filled = [record(numbers(l)) for l in lines_of(output, "found")]
    pool = words(numbers(lines_of(output, "pool")[0]))
    answers = [f"answer {' '.join(l.split()[1:])}" for l in lines_of(output, "answer")]
    result = numbers(lines_of(output, "result")[0])[0]
    requests = [request(l) for l in lines_of(script, *KINDS)]
    workspace = pool if result == 0 else start(script)
    return f"""
{name}_start : List ℤ
{name}_start = {start(script)}

{name}_requests : List Request
{name}_requests = {listed(requests)}

{name}_pool : List ℤ
{name}_pool = {pool}

{name}_left : Left
{name}_left =
    record {{
      number = {integer(result)};
      pool = {name}_pool;
      workspace = {workspace};
      answers = {listed(answers)};
      found = {listed(filled, f'replicate {places - len(filled)} no_record')} }}

{name} : history_of (owner ({integer(whose)})) {name}_start {places} {name}_requests ≡ {name}_left
unfolding document01 {name}_start {name}_requests {name}_pool {name}_left
{name} = refl
"""


def run_statement(name, frames, lines):
    """That the definitions print, for the bytes of frames, the bytes of lines."""
    return f"""
{name}_input : List ℕ
{name}_input = {listed(frames)}

{name}_output : List ℕ
{name}_output = {listed(lines)}

{name} : dustmap {name}_input ≡ {name}_output
unfolding document01 {name}_input {name}_output
{name} = refl
"""


def survey_statement(name, line):
    """That the definitions make of a query what the second program says: a line `KIND BITS .. -> A B C D`, or `-> 12`."""
    asked, becomes = line.split(" -> ")
    kind, *bits = asked.split()
    doubles = [f"(of_bits binary64 {n})" for n in bits]
    if kind == "box":
        sides = "; ".join(f"{side} = {x}" for side, x in zip(("lowX", "lowY", "highX", "highY"), doubles, strict=True))
        query = f"Box (record {{ {sides} }})"
    else:
        query = f"{kind.capitalize()} {' '.join(doubles)}"
    rounded = "Err BadSurvey" if becomes == "12" else f"Ok {rect([int(n) for n in becomes.split()])}"
    return f"""
{name} : query_window ({query}) ≡ {rounded}
unfolding document02
{name} = refl
"""


def prove(statements, head=HEAD):
    """Has the checker prove the statements, in a copy of the crate `rules` outside the repository. (proved, what it said)"""
    room = tempfile.mkdtemp()
    try:
        no_edits = shutil.ignore_patterns("must-fail", "wrong", "out")
        shutil.copytree(os.path.join(ROOT, "crates", "rules"), os.path.join(room, "crates", "rules"), ignore=no_edits)
        specs = os.path.join(room, "crates", "rules", "specs")
        with open(os.path.join(room, "crates.txt"), "w") as f:
            f.write("rules:\n")
        with open(os.path.join(specs, "Lib.antt"), "a") as f:
            f.write("pub mod Closed\n")
        with open(os.path.join(specs, "Closed.antt"), "w") as f:
            f.write(head + "".join(statements))
        run = subprocess.run(["rt", "check"], cwd=os.path.join(room, "crates", "rules"), capture_output=True, text=True, stdin=subprocess.DEVNULL)
        said = run.stdout + run.stderr
        return run.returncode == 0 and "logic=proved" in said, said
    finally:
        shutil.rmtree(room, ignore_errors=True)
