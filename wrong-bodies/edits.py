"""Edits, in the form of crates/NAME/must-fail/: how they are read and applied, and the copy to which they are. For wrong-bodies/try and show."""
import os
import re
import shutil

HERE = os.path.dirname(os.path.realpath(__file__))
ROOT = os.path.dirname(HERE)
PARTS = ("src", "specs", "proofs")
HEAD = re.compile(r"^(\s*)(?:pub(?:\([^)]*\))?\s+)?(?:const\s+|unsafe\s+)*fn\s+(\w+)")


def read(file):
    with open(file, encoding="utf-8") as it:
        return it.read()


def pairs_of(text):
    """The edit's (file, old, new), in order."""
    path, old, found = "", None, []
    for line in text.split("\n"):
        if line.startswith("file: "):
            path = line[len("file: ") :].strip()
        elif line.startswith("old: "):
            old = line[len("old: ") :]
        elif line.startswith("new:") and path and old:
            found.append((path, old, re.sub(r"\A ", "", line[len("new:") :])))
            old = None
    return found


def applied(texts, pairs, folder):
    """Applies the pairs to the texts, which are read as they are needed. Answers the lines that it changed, or why the edit does not fit."""
    were = {}
    for path, old, new in pairs:
        if path not in texts:
            if not os.path.isfile(f"{folder}/{path}"):
                return None, f"there is no file {path}"
            texts[path] = read(f"{folder}/{path}")
        were.setdefault(path, texts[path])
        if texts[path].count(old) != 1:
            return None, f"its text stands in {path} {texts[path].count(old)} times: {old[:80]}"
        texts[path] = texts[path].replace(old, new)
    # (a TEXT is one line, so an edit adds and takes away none)
    both = [(path, zip(were[path].split("\n"), texts[path].split("\n"))) for path in were]
    return {(path, at) for path, rows in both for at, (old, new) in enumerate(rows) if old != new}, None


def function_at(text, place):
    """The name and the first and last line of the function whose body holds this line, if there is one."""
    rows = text.split("\n")
    for at in range(place, -1, -1):
        found = HEAD.match(rows[at])
        if not found:
            continue
        end = next((it for it in range(at, len(rows)) if rows[it] == f"{found[1]}}}"), None)
        start = next((it for it in range(at, len(rows)) if rows[it].rstrip().endswith("{")), None)
        # (the body begins behind a line that is '{' alone, or that ends the signature)
        opens = next((it for it in range(at, (end or at) + 1) if rows[it] == f"{found[1]}{{"), start)
        if end is not None and opens is not None and opens < place < end:
            return found[2], at, end
        return None
    return None


def put(folder, texts):
    for path, text in texts.items():
        with open(f"{folder}/{path}", "w", encoding="utf-8") as it:
            it.write(text)


def copied(room, parts_of=lambda crate: PARTS):
    """Copies the repository's crates, of each these parts."""
    for it in ("crates.txt", "HANDLES"):
        if os.path.isfile(f"{ROOT}/{it}"):
            shutil.copy(f"{ROOT}/{it}", room)
    for crate in sorted(os.listdir(f"{ROOT}/crates")):
        for part in parts_of(crate):
            if os.path.isdir(f"{ROOT}/crates/{crate}/{part}"):
                shutil.copytree(f"{ROOT}/crates/{crate}/{part}", f"{room}/crates/{crate}/{part}")
