"""The declarations of a C header with the comment above each, in its sections: for tools/reference.py.

It reads the layout of bindings/c/include: a comment and its declaration follow each other without an empty line, and a
comment of one line with dashes begins a section.
"""

import re
from collections import namedtuple

# A declaration: its keyword, its name, its text with the comments in it, and the comment above it.
Declared = namedtuple("Declared", "word name code docs")

SECTION = re.compile(r"/\* -+ (.*?) -+ \*/$")
NAMES = (("macro", re.compile(r"#define (\w+)")), ("enum", re.compile(r"typedef enum (\w+)")),
         ("struct", re.compile(r"typedef struct (\w+)")), ("type", re.compile(r"typedef .*?\(\*(\w+)\)")),
         ("function", re.compile(r"(?s)(?:YALWYTHEN_USE_RESULT )?[\w *]*?\b(\w+)\(")))
# What a reader of the header needs and a reader of the reference doesn't.
LEFT_OUT = re.compile(r'#(?:if|else|endif|include|undef)|#define YALWYTHEN(?:_SCRIPT|_THREADS)?_H$|extern "C"|}$'
                      r"|#define YALWYTHEN_(?:USE_RESULT|VERSION)")


def prose(comment):
    """The lines of a comment, without its signs."""
    lines = comment.strip().removeprefix("/*").removesuffix("*/").splitlines()
    return [line.strip().removeprefix("* ").removeprefix("*").rstrip() for line in lines]


def end_of(lines, at):
    """The line after the declaration that begins with this one."""
    if lines[at].startswith("#"):
        while lines[at].endswith("\\"):
            at += 1
        return at + 1
    depth = 0
    for end in range(at, len(lines)):
        line = re.sub(r"/\*.*", "", lines[end]).rstrip()
        depth += sum(map(line.count, "({")) - sum(map(line.count, ")}"))
        if depth == 0 and line.endswith((";", '"C" {', "}")):
            return end + 1
    return len(lines)


def declared(text, docs):
    for word, name in NAMES:
        found = name.match(text)
        if found:
            return Declared(word, found[1], text, docs)
    raise ValueError("no declaration: %s" % text)


def sections(file):
    """The comment of a header, and its sections: the name of each, or none, with its declarations."""
    text = file.read_text(encoding="utf-8")
    head, _, rest = text.partition("*/\n")
    lines, at, docs, found = rest.splitlines(), 0, [], [(None, [])]
    while at < len(lines):
        line = lines[at]
        section = SECTION.match(line)
        if section:
            found.append((section[1], []))
        if line.startswith("/*"):
            end = next(row for row in range(at, len(lines)) if lines[row].endswith("*/")) + 1
            docs = [] if section else prose("\n".join(lines[at:end]))
        elif line.strip() == "":
            docs, end = [], at + 1
        else:
            end = at + 1 if LEFT_OUT.match(line) and not line.startswith("#define") else end_of(lines, at)
            if not LEFT_OUT.match(line):
                found[-1][1].append(declared("\n".join(lines[at:end]), docs))
                # A macro between a comment and a declaration has the comment too.
                docs = docs if line.startswith("#define") else []
        at = end
    return prose(head), [(name, items) for name, items in found if items]
