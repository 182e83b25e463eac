"""The form of a page: lines of at most 120 columns, and sentences of at most 40 words.

Fences, indented code, tables and lines with a picture may be wider. Code within a line counts as one word. The cells of a table are
lists of which each item, up to a semicolon, is a sentence.
"""
import re

WIDEST = 120
LONGEST = 40
FENCE = "`" * 3
ITEM = re.compile(r"\s*(?:[-*]|\d+\.) ")
END = re.compile(r"(?<=[.!?])[\"*_)]*\s+(?=[A-Z*_`\"(\[])")


def kinds_of_lines(text):
    """Each line with its number and what it is: code, table, blank, item, head, picture, comment or text."""
    fenced, before = False, "blank"
    for number, line in enumerate(text.split("\n"), 1):
        if line.strip().startswith(FENCE) or fenced:
            fenced ^= line.strip().startswith(FENCE)
            kind = "code"
        else:
            kind = kind_of(line, before)
        yield number, line, kind
        before = kind


def kind_of(line, before):
    if not line.strip():
        return "blank"
    if re.match(r" {4,}\S", line) and before in ("blank", "code"):
        return "code"
    starts = {"|": "table", "#": "head", "![": "picture", "<!--": "comment"}
    found = [kind for start, kind in starts.items() if line.startswith(start)]
    return found[0] if found else "item" if ITEM.match(line) else "text"


def wide_lines(text):
    """The numbers of the lines that are wider than they may be."""
    return [number for number, line, kind in kinds_of_lines(text) if kind in ("text", "item", "head") and len(line) > WIDEST]


def paragraphs(text):
    """The paragraphs, items and parts of cells of a page, each with the number of its first line."""
    begun, words = 0, []
    for number, line, kind in kinds_of_lines(text):
        if kind != "text" and words:
            yield begun, " ".join(words)
            words = []
        if kind == "table":
            yield from ((number, part) for cell in line.split("|") for part in cell.split(";"))
        elif kind in ("text", "item"):
            begun = begun if words else number
            words.append(line.strip().removeprefix("> ") if kind == "text" else ITEM.sub("", line, count=1))
    if words:
        yield begun, " ".join(words)


def long_sentences(text):
    """The sentences with too many words, each with the number of the line in which its paragraph begins."""
    for number, paragraph in paragraphs(text):
        for sentence in END.split(re.sub(r"`[^`]*`", "CODE", paragraph)):
            if len(re.findall(r"[A-Za-z0-9_']+", sentence)) > LONGEST:
                yield number, sentence
