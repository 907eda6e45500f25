"""A repository outside the checkout, with copies of some crates and of those below them, where `rt check` is asked what the checkout is not changed for.

Not a command: tools/promised and tools/wrong-versions use it. What is built of the crates comes with them, so that only what is new is proved there.
"""
import os
import re
import shutil

PARTS = ("src", "specs", "proofs")


def read(*path):
    with open(os.path.join(*path), encoding="utf-8") as f:
        return f.read()


def write(text, *path, mode="w"):
    os.makedirs(os.path.dirname(os.path.join(*path)), exist_ok=True)
    with open(os.path.join(*path), mode, encoding="utf-8") as f:
        f.write(text)


def listed(root):
    """What each crate needs that crates.txt lists, by its name, and its line there."""
    found = {}
    for line in read(root, "crates.txt").splitlines():
        name, colon, deps = line.split("#")[0].partition(":")
        if colon:
            found[name.split()[0]] = deps.split(), line
    return found


def below(root, crates):
    """The crates of a repository, in a list, that some of them need, directly or not, and those."""
    needs = listed(root)
    found, news = [], list(crates)
    while news:
        found += news
        news = list(dict.fromkeys(dep for name in news for dep in needs[name][0] if dep in needs and dep not in found))
    return found


def linked(one, other):
    """Gives a checked file another name, which the prover replaces and does not write into; copies what is no such file, or where the other is on another disk."""
    try:
        if one.endswith(".oantt"):
            return os.link(one, other)
    except OSError:
        pass
    return shutil.copy2(one, other)


def room(root, folder, crates, kept=None):
    """Makes a repository in `folder`, from nothing, with copies of these crates and of those below them, and what is built of them. `kept` has, by crate, a folder
    of what `rt check` keeps of it, from which a check there begins."""
    shutil.rmtree(folder, ignore_errors=True)
    lines = listed(root)
    needed = below(root, crates)
    write("".join(lines[name][1] + "\n" for name in needed), folder, "crates.txt")
    for name in needed:
        ours, theirs = os.path.join(root, "crates", name), os.path.join(folder, "crates", name)
        for part in PARTS:
            if os.path.isdir(os.path.join(ours, part)):
                shutil.copytree(os.path.join(ours, part), os.path.join(theirs, part))
        if os.path.isdir(os.path.join(ours, "out", "rlib")):
            shutil.copytree(os.path.join(ours, "out", "rlib"), os.path.join(theirs, "out", "rlib"), copy_function=linked)
    for name, folder_of in (kept or {}).items():
        if os.path.isdir(folder_of):
            shutil.copytree(folder_of, os.path.join(folder, "crates", name, "out", "incremental"), copy_function=linked)


def crates_named(text):
    """The crates whose modules a text cites."""
    return set(re.findall(r"\bRattle\.(\w+)\.", text)) - {"std", "core"}
