"""What documents name, held to the sources. `tools/check` calls `check_documents`.

- A link, and a path in backticks, leads to a file that is there; `file.rt::name` to a function in
  it. A path is looked for from the top, beside the document, in crates/, and in the document's own
  crate. Words in capitals, as NAME, stand for others.
- Each other name in backticks is a word of some source, without its comments: of `Type::name` both
  in one crate, of `name` of `crate` in that crate.
- Of `Type::name` (`one`, `other`) each in the brackets is a clause of that function's contract, or
  a word of its crate that names no clause anywhere.
- A block marked rt stands so in a source, but for blanks and for lines `..`, which stand for
  others. So does each line `old:` of a block, and each line `new:` in an edit.
"""
import os
import re
from collections import defaultdict

NAME = re.compile(r"[^\W\d][\w']*(?:-[\w']+)*")
SPAN = re.compile(r"(?<!`)(`+)(?!`)(.+?)(?<!`)\1(?!`)", re.S)
LINK = re.compile(r"\[[^\]\n]*\]\(([^)\s]+)\)")
OTHERS = re.compile(r"[A-Z][A-Z0-9_]*")
# What stands for others in a path.
PARTS = ("NAME", "CRATE", "EDIT", "FILE", "TYPE", "FUNCTION", "FOLDER", "SCENARIO", "T")
CALL = re.compile(r"([A-Z]\w*)(?:<\w+>)?::([a-z]\w*)")
PATH = re.compile(r"[\w.*<>-]*/[\w./*<>-]*|[\w-]+\.(?:md|rt|antt|json|py|svg|edit|txt)")
CLAUSE = re.compile(r"^\s*(?:ensures|requires) (\w+) \{", re.M)
FUNCTION = re.compile(r"^\s*(?:pub(?:\([^)]*\))? )?(?:const )?fn (\w+)", re.M)
# What a name may stand in beside the sources: words of the toolchain and of the machine.
OUTSIDE = set("""
rt rattle ci doc try verdict must-fail plant tidy fmt lib rustc clang git grep gate anew only jobs
RT_JOBS cases allow-holes proved no dev full
""".split())


def squeezed(text):
    return re.sub(r"\s+", " ", text).strip()


def without_comments(path, text):
    if path.endswith(".rt"):
        return re.sub(r"(?m)^\s*//.*$|(?<=\s)// .*$", "", text)
    if path.endswith(".antt"):
        return re.sub(r"(?m)^\s*--.*$", "", text)
    return text


def read(path):
    try:
        with open(path, encoding="utf-8") as it:
            return it.read()
    except (OSError, UnicodeDecodeError):
        return ""


class Sources:
    """The words of all sources and of each crate, the clauses of functions, and the texts."""

    def __init__(self, root, files):
        self.root, self.files = root, set(files)
        self.folders = {part for path in files for part in parents(path)}
        self.words, self.of_crate = set(OUTSIDE), defaultdict(set)
        self.clauses, self.all_clauses, self.functions = defaultdict(set), set(), defaultdict(set)
        self.codes, self.edits = [], []
        for path in files:
            if not path.endswith((".md", ".svg")):
                self.read(path, read(f"{root}/{path}"))
        self.edit_text = "\n".join(self.edits)

    def read(self, path, text):
        parts = path.split("/")
        crate = parts[1] if parts[0] == "crates" and len(parts) > 2 else None
        own = set(NAME.findall(without_comments(path, text)))
        own |= {word for part in parts for word in NAME.findall(part)}
        own |= {os.path.splitext(parts[-1])[0], parts[-1]}
        self.words |= own
        if crate:
            self.of_crate[crate] |= own
        if path.endswith(".edit"):
            self.edits.append(squeezed(text))
        if path.endswith((".rt", ".antt")):
            self.codes.append(squeezed(text))
        if path.endswith(".rt"):
            self.read_functions(crate, path, text)

    def read_functions(self, crate, path, text):
        heads = list(FUNCTION.finditer(text))
        for head, after in zip(heads, [*heads[1:], None]):
            body = text[head.end() : after.start() if after else len(text)]
            found = set(CLAUSE.findall(body))
            self.functions[path].add(head[1])
            self.clauses[crate, head[1]] |= found
            self.all_clauses |= found

    def stands(self, code):
        return any(code in text for text in self.codes)

    def crates_with(self, *names):
        return [it for it, words in self.of_crate.items() if all(name in words for name in names)]

    def finds(self, path, page):
        """Whether a path that a page names leads somewhere."""
        path = path.rstrip("/.")
        own = page.split("/")
        places = ["", os.path.dirname(page), "crates"]
        places += [f"crates/{own[1]}"] if own[0] == "crates" and len(own) > 2 else []
        places += ["wrong-bodies"]
        for place in places:
            for ending in ("", ".antt", ".rt", ".edit"):
                whole = os.path.normpath(f"{place}/{path}" if place else path) + ending
                if whole in self.files or whole in self.folders:
                    return True
        crate, _, edit = path.partition("/")
        if f"crates/{crate}/must-fail/{edit}.edit" in self.files:
            return True
        ends = tuple(f"/{path}{ending}" for ending in ("", ".antt", ".rt"))
        return any(it.endswith(ends) for it in self.files | self.folders)


def parents(path):
    found = []
    while os.path.dirname(path):
        path = os.path.dirname(path)
        found.append(path)
    return found


class Page:
    def __init__(self, path, text):
        self.path, self.lines = path, text.split("\n")
        self.plain, self.blocks, block = [], [], None
        for number, line in enumerate(self.lines, 1):
            if line.lstrip().startswith("```"):
                if block is None:
                    block = (number, line.strip()[3:], [])
                else:
                    self.blocks.append(block)
                    block = None
                self.plain.append("")
            elif block is not None:
                block[2].append(line)
                self.plain.append("")
            else:
                self.plain.append(line)

    def spans(self):
        text = "\n".join(self.plain)
        for match in SPAN.finditer(text):
            yield text.count("\n", 0, match.start()) + 1, squeezed(match[2]), match, text

    def links(self):
        for number, line in enumerate(self.plain, 1):
            for target in LINK.findall(re.sub(r"`[^`]*`", "", line)):
                yield number, target


def slug(head):
    words = re.sub(r"[^\w\- ]", "", head.lstrip("#").strip().lower())
    return words.replace(" ", "-")


def check_links(root, page, wrong):
    for number, target in page.links():
        if re.match(r"\w+:", target):
            continue
        file, _, anchor = target.partition("#")
        path = os.path.normpath(f"{os.path.dirname(page.path)}/{file}") if file else page.path
        if not os.path.exists(f"{root}/{path}"):
            wrong.append((page.path, number, f"there is no {target}"))
        elif anchor and path.endswith(".md"):
            heads = [it for it in read(f"{root}/{path}").split("\n") if it.startswith("#")]
            if anchor not in map(slug, heads):
                wrong.append((page.path, number, f"{path} has no head #{anchor}"))


def is_open(word):
    """Whether it stands for other words, or for a number."""
    return OTHERS.fullmatch(word) is not None and len(word) < 12


def is_other(part):
    """Whether a part of a path stands for others, or for a number, as in L/32."""
    return part in PARTS or len(part) == 1 or part.isdigit()


def wrong_path(path, sources, page):
    parts = path.split("/")
    others = any(is_other(part.split(".")[0]) for part in parts)
    apart = "out" in parts or ".." in parts or path.startswith(("/", "-"))
    if others or apart or "*" in path or "<" in path:
        return None
    return None if sources.finds(path, page.path) else f"there is no file {path}"


def wrong_span(text, sources, page):
    """What is wrong with what stands in backticks, or None."""
    if "error" in text or text.startswith("Rattle."):
        return None
    for file, name in re.findall(r"([\w./-]+\.rt)::(\w+)", text):
        whole = [it for it in sources.functions if it.endswith(f"/{file}")]
        if not any(name in sources.functions[it] for it in whole):
            return f"{file} has no fn {name}"
    text = re.sub(r"[\w./-]+\.rt::\w+", "", text)
    for path in PATH.findall(text):
        said = wrong_path(path, sources, page)
        if said:
            return said
    text = PATH.sub(" ", text)
    for owner, name in CALL.findall(text):
        if not sources.crates_with(owner, name):
            return f"no crate has {owner}::{name}"
    for word in NAME.findall(re.sub(r"(?<!\w)\d+(?:\.\d+)*", " ", text)):
        known = word in sources.words or is_open(word)
        parts = word.split("-")
        if not known and not all(it in sources.words or is_open(it) for it in parts):
            return f"no source has {word}"
    return None


def clauses_behind(text, match):
    """The names in brackets behind a span, as (`one`, `other`)."""
    behind = re.match(r"\s*\(((?:`\w+`(?:,\s*)?)+)\)", text[match.end() :])
    return re.findall(r"`(\w+)`", behind[1]) if behind else []


def wrong_clauses(span, names, sources):
    call = CALL.fullmatch(span)
    if not call:
        return None
    crates = sources.crates_with(call[1], call[2])
    for name in names:
        is_its = any(name in sources.clauses[it, call[2]] for it in crates)
        is_word = any(name in sources.of_crate[it] for it in crates)
        if not is_its and (name in sources.all_clauses or not is_word):
            return f"{span} has no clause {name}"
    return None


def wrong_block(block, sources):
    """What is wrong with a block, as line and text, or None."""
    start, kind, lines = block
    if kind == "rt":
        parts = re.split(r"(?m)^\s*\.\.\s*$", "\n".join(lines))
        for part in parts:
            if squeezed(part) and not sources.stands(squeezed(part)):
                return start, "no source has this block"
    for number, line in enumerate(lines, start + 1):
        if line.startswith("old: ") and not sources.stands(squeezed(line[5:])):
            return number, "no source has this line"
        if line.startswith("new: ") and squeezed(line) not in sources.edit_text:
            return number, "no edit has this line"
    return None


def check_page(sources, page, wrong):
    for number, span, match, text in page.spans():
        said = wrong_span(span, sources, page)
        said = said or wrong_clauses(span, clauses_behind(text, match), sources)
        of = re.match(r"\s+of\s+`(\w+)`", text[match.end() :])
        if not said and of and of[1] in sources.of_crate:
            for word in NAME.findall(PATH.sub(" ", span)):
                if word not in sources.of_crate[of[1]] and not is_open(word):
                    said = f"{of[1]} has no {word}"
        if said:
            wrong.append((page.path, number, said))
    for block in page.blocks:
        found = wrong_block(block, sources)
        if found:
            wrong.append((page.path, *found))


def check_documents(root, files, wrong):
    sources = Sources(root, files)
    for path in sorted(files):
        if path.endswith(".md"):
            page = Page(path, read(f"{root}/{path}"))
            check_links(root, page, wrong)
            check_page(sources, page, wrong)
