"""The documents of the repository: which they are, and their texts and sentences."""
import glob
import os
import re

TOP = os.path.dirname(os.path.dirname(os.path.dirname(os.path.abspath(__file__))))
PAGES = ("README.md", "CONTRIBUTING.md", "CHANGELOG.md", "docs/*.md", "examples/README.md")
ABBREVIATIONS = ("e.g.", "i.e.", "vs.", "No.")
CODE = "CODE"


def pages():
    """All documents, in order."""
    return [path for pattern in PAGES for path in sorted(glob.glob(pattern, root_dir=TOP))]


def prose_lines(path):
    """(number, line) of each line outside fenced blocks and indented code."""
    fenced, blank, listed = False, True, False
    with open(os.path.join(TOP, path), encoding="utf-8") as page:
        for number, line in enumerate(page.read().split("\n"), 1):
            if line.lstrip().startswith("```"):
                fenced = not fenced
                line = ""
            elif fenced or (line.startswith("    ") and blank and not listed):
                yield number, ""
                continue
            if re.match(r"\s*([-*]|\d+\.)\s", line):
                listed = True
            elif line and not line.startswith(" "):
                listed = False
            blank = not line.strip()
            yield number, line


def texts(path):
    """(number of its first line, text) of each paragraph, item, heading and cell."""
    number, text = 0, ""
    for at, line in prose_lines(path):
        stripped = line.strip()
        starts = re.match(r"([-*]|\d+\.|#+|>)\s+", stripped)
        if not stripped or starts or stripped.startswith("|"):
            if text:
                yield number, text
            number, text = at, ""
        if stripped.startswith("|"):
            for cell in re.split(r"(?<!\\)\|", plain(stripped))[1:-1]:
                if not re.fullmatch(r"[\s:-]*", cell):
                    yield at, cell.strip()
        elif stripped:
            number = number if text else at
            text = (text + " " + stripped[starts.end() if starts else 0:]).strip()
    if text:
        yield number, text


def plain(text):
    """A text without code, emphasis, pictures and the targets of links."""
    text = re.sub(r"</?a\b[^>]*>", "", text)
    text = re.sub(r"(`+).+?\1", CODE, text)
    text = re.sub(r"!?\[([^\]]*)\]\([^)]*\)", r"\1", text)
    return text.replace("**", "").replace("*", "")


def sentences(text):
    """The sentences of a plain text: up to a full stop, a question or an exclamation mark before a new beginning."""
    found, begin = [], 0
    for end in re.finditer(r"[.?!][)\"']*(?=\s|$)", text):
        word = text[begin:end.end()].split()[-1:] or [""]
        if word[0] in ABBREVIATIONS or word[0].endswith(".."):
            continue
        found.append(text[begin:end.end()].strip())
        begin = end.end()
    found.append(text[begin:].strip())
    return [sentence for sentence in found if sentence]
