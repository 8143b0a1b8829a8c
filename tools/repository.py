"""What the scripts of this folder share: where the repository stands, its crates, and files read and written."""
import os

ROOT = os.path.dirname(os.path.dirname(os.path.abspath(__file__)))


def listed():
    """the crates of crates.txt in its order, each with the crates that it names; a line is `NAME: NAMES`, or `NAME staticlib: NAMES`"""
    found = {}
    for line in read(os.path.join(ROOT, "crates.txt")).split("\n"):
        head, colon, names = line.split("#")[0].partition(":")
        if colon: found[head.split()[0]] = names.split()
    return found


def crates(): return list(listed())


def read(path):
    with open(path, encoding="utf-8") as f: return f.read()


def write(path, text):
    with open(path, "w", encoding="utf-8") as f: f.write(text)
