"""The second program (second/), built once and called by its subcommands."""
import os, subprocess, sys
import progress

ROOT = os.path.dirname(os.path.dirname(os.path.abspath(__file__)))
TARGET = os.path.join(ROOT, "target", "second")


def build():
    log = os.path.join(ROOT, "target", "second-build.log")
    build = ["cargo", "build", "--release", "--offline", "--target-dir", TARGET]
    if progress.run(build, log, what="building the second program", folder=os.path.join(ROOT, "second")) != 0:
        progress.show_end(log)
        sys.exit("the second program could not be built")


def say(words, given=b""):
    """What `second WORDS` writes for what it is given, as bytes."""
    run = subprocess.run([os.path.join(TARGET, "release", "second"), *words], input=given, capture_output=True, check=True)
    return run.stdout
