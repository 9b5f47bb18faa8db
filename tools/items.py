"""The public items of a crate in Rattle or in Rust, read from its sources: for tools/reference.py.

It reads the sources by their lines, as the formatters of both languages lay them out, and knows no grammar. It follows
`use` through modules and crates to the source that defines a name.
"""

import re
from collections import namedtuple
from functools import cached_property

# A declaration: whether it is `pub`, its keyword and its name, its lines, and its comment and attributes above them.
Head = namedtuple("Head", "public word name start end docs attributes")
# A field, a variant or an associated type: its text and its comment.
Part = namedtuple("Part", "label docs")
# An item: what declares it, its text without a body, its clauses, its parts, its functions, and the traits that it
# implements, each with its source and its declaration if it is one of these crates.
Item = namedtuple("Item", "word name owner code docs attributes clauses parts functions traits source scopes")

HEAD = re.compile(r"(?P<public>pub )?(?:pub\([^)]*\) )?"
                  r"(?:(?:const|unsafe|async) (?=const|unsafe|async|fn|trait|impl))*"
                  r"(?P<word>fn|struct|enum|trait|const|static|type|impl|use|mod|macro_rules!)(?!\w)\s*(?P<name>\w+)?")
CLAUSE = re.compile(r"\s*(?:requires|ensures)\b")
HIDDEN = re.compile(r'"(?:[^"\\]|\\.)*"|' r"'(?:[^'\\]|\\.)'|//.*")
PATH = re.compile(r"(?<![\w:'])((?:\w+::)*[A-Z]\w*)")
GHOST_USE = re.compile(r"^\s*ghost use Rattle\.((?:txc|yalwythen)_\w+)\.specs\.([\w.]+?)\.\{([^}]*)\}", re.M)
IMPL = re.compile(r"(?:(?P<trait>.*) for )?(?P<type>&?(?:'\w+ )?(?:mut )?(?:\w+::)*(?P<name>\w+)\b.*)", re.S)
# What needs no `use`.
PRELUDE = set("Vec Option Some None Result Ok Err String Box Drop Send Sync Copy Clone Sized Fn FnMut FnOnce Iterator "
              "IntoIterator Default From Into FromStr PartialEq Eq PartialOrd Ord Self Debug Hash Error".split())
STANDARD = ("std", "core", "alloc")


def indent_of(line):
    return len(line) - len(line.lstrip())


def split_at_top(text, sign=","):
    """The parts of a text between these signs, those within brackets left out."""
    parts, depth, begun = [], 0, 0
    for at, letter in enumerate(text):
        if letter in "([{<":
            depth += 1
        elif letter in ")]}" or letter == ">" and text[at - 1:at] not in "-=":
            depth -= 1
        elif letter == sign and depth == 0:
            parts.append(text[begun:at])
            begun = at + 1
    return [part.strip() for part in [*parts, text[begun:]] if part.strip()]


def angled(text):
    """What is between the `<` that a text begins with and its `>`, and what follows; all of it if there is none."""
    depth = 0
    for at, letter in enumerate(text):
        if not text.startswith("<"):
            break
        depth += (letter == "<") - (letter == ">" and text[at - 1] not in "-=")
        if depth == 0:
            return text[1:at], text[at + 1:]
    return "", text


def expanded(tree):
    """Each path of the tree of a `use`, with the name that it gets."""
    prefix, brace, inside = tree.partition("{")
    if brace:
        parts = split_at_top(inside.rstrip().removesuffix("}"))
        return [(prefix + path, name) for part in parts for path, name in expanded(part)]
    path, _, name = tree.strip().partition(" as ")
    return [(path.removesuffix("::self"), name or path.removesuffix("::self").rpartition("::")[2])]


def generics(text):
    """The parameters that a declaration has."""
    found = re.match(r"(?:impl|.*?\b(?:fn|struct|enum|trait|type) \w+)\s*(?=<)", text, re.S)
    inside = angled(text[found.end():])[0] if found else ""
    return {re.match(r"(?:const )?('?\w+)", part)[1] for part in split_at_top(inside)}


class Source:
    """A file of a crate, and the module that it is."""

    def __init__(self, crate, path, file):
        self.crate, self.path, self.file = crate, path, file
        self.text = file.read_text(encoding="utf-8")
        self.lines = self.text.splitlines()
        self.masked = [HIDDEN.sub(lambda it: " " * len(it[0]), line) for line in self.lines]

    @cached_property
    def heads(self):
        return [*self.heads_in(0, len(self.lines), 0), *self.made_by_macros()]

    @cached_property
    def page(self):
        """The comment of the module."""
        return [line[3:].removeprefix(" ") for line in self.lines if line.startswith("//!")]

    @cached_property
    def uses(self):
        """The path of each name that this module uses, and whether it hands it on."""
        found = {}
        for head in self.heads:
            if head.word == "use":
                text = " ".join(line.strip() for line in self.masked[head.start:head.end])
                for path, name in expanded(text[text.index("use ") + 4:].rstrip("; ")):
                    found[name] = (tuple(path.split("::")), head.public, head.docs, head.attributes)
        return found

    @cached_property
    def words(self):
        """The file that defines each name which the contracts of this file use."""
        top, found = self.crate.folder.parent.parent, {}
        for crate, module, names in GHOST_USE.findall(self.text):
            file = top.joinpath(crate, "specs", *module.split(".")).with_suffix(".antt")
            if file.is_file():
                found.update({name.split(" as ")[0].strip(): file for name in names.split(",")})
        return found

    def above(self, at):
        """The comment and the attributes that end above a line."""
        docs, attributes = [], []
        while at > 0 and re.match(r"\s*(///|#\[)", self.lines[at - 1]):
            at -= 1
            line = self.lines[at].strip()
            if line.startswith("///"):
                docs.insert(0, line[3:].removeprefix(" "))
            else:
                attributes.insert(0, line)
        return docs, attributes

    def end_of(self, start, indent):
        """The line after the declaration that begins with this one."""
        depth = 0
        for at in range(start, len(self.lines)):
            line = self.masked[at].rstrip()
            depth += sum(map(line.count, "([{")) - sum(map(line.count, ")]}"))
            if depth <= 0 and (line.endswith(";") or line.endswith("}") and indent_of(line) == indent):
                return at + 1
        return len(self.lines)

    def heads_in(self, start, end, indent):
        while start < end:
            line = self.masked[start]
            found = HEAD.match(line, indent) if line.strip() and indent_of(line) == indent else None
            after = self.end_of(start, indent) if found else start + 1
            if found:
                yield Head(bool(found["public"]), found["word"], found["name"], start, after, *self.above(start))
            start = after

    def made_by_macros(self):
        """The types that calls of the file's macros declare, with the comment that the call has."""
        for at, line in enumerate(self.lines):
            call = re.match(r"(\w+)!\($", line)
            body = self.text.partition("macro_rules! %s {" % call[1])[2] if call else ""
            made = re.search(r"pub (enum|struct) \$name", body)
            row = next((row for row in range(at, len(self.lines)) if re.match(r"    [A-Z]\w*,", self.lines[row])), 0)
            if made and row:
                yield Head(True, made[1], re.match(r"\s*(\w+)", self.lines[row])[1], row, row + 1, *self.above(row))

    def code(self, head):
        """The text of a declaration without its clauses and its body, and its clauses."""
        first = next((at for at in range(head.start + 1, head.end) if CLAUSE.match(self.masked[at])), head.end)
        indent, depth, text = indent_of(self.lines[head.start]), 0, []
        for at in range(head.start, first):
            for place, letter in enumerate(self.masked[at]):
                depth += (letter in "([") - (letter in ")]")
                if letter in "{;" and depth == 0:
                    text.append(self.lines[at][indent:place])
                    return "\n".join(text).rstrip().rstrip(","), self.clauses(first, head.end, indent)
            text.append(self.lines[at][indent:])
        return "\n".join(text).rstrip().rstrip(","), self.clauses(first, head.end, indent)

    def clauses(self, start, end, indent):
        found = []
        for at in range(start, end):
            if CLAUSE.match(self.lines[at]):
                found.append(self.lines[at].strip())
            elif indent_of(self.lines[at]) == indent:
                break
            else:
                found[-1] += " " + self.lines[at].strip()
        return [clause.rstrip(";") for clause in found]

    def parts(self, head):
        """The public fields of a struct, or the variants of an enum."""
        indent = indent_of(self.lines[head.start]) + 4
        at, found = head.start + 1, []
        while at < head.end - 1:
            line = self.masked[at]
            is_part = indent_of(line) == indent and re.match(
                r"\s*pub \w+:" if head.word == "struct" else r"\s*[A-Z]\w*\b", line)
            after = at + 1
            if is_part:
                depth = 0
                for after in range(at, head.end):
                    depth += sum(map(self.masked[after].count, "([{")) - sum(map(self.masked[after].count, ")]}"))
                    if depth <= 0:
                        break
                after += 1
                text = " ".join(row.strip() for row in self.lines[at:after]).rstrip(",")
                docs, attributes = self.above(at)
                if "#[doc(hidden)]" not in attributes:
                    found.append(Part(re.sub(r",( [}\])])", r"\1", text), docs))
            at = after
        return found


class Crate:
    """A crate, by the folder of its sources, with the crates that it can use."""

    def __init__(self, name, folder, suffix, others):
        self.name, self.folder, self.suffix, self.others = name, folder, suffix, others
        self.sources = {}

    def source(self, path):
        """The file of a module; none if there is no such module."""
        if path not in self.sources:
            under = self.folder.joinpath(*path)
            files = [under.with_suffix(self.suffix), under / ("mod" + self.suffix)] if path else []
            files += [] if path else [self.folder / ("lib" + self.suffix)]
            file = next((file for file in files if file.is_file()), None)
            self.sources[path] = Source(self, path, file) if file else None
        return self.sources[path]

    @cached_property
    def all_sources(self):
        files = sorted(self.folder.glob("**/*" + self.suffix))
        paths = [file.relative_to(self.folder).with_suffix("").parts for file in files]
        return [self.source(path[:-1] if path[-1] in ("mod", "lib") else path) for path in paths]

    def resolved(self, source, path):
        """The source and the declaration that a path leads to; none of either if it leads out of these crates."""
        crate, first, rest = source.crate, path[0], path[1:]
        if first == "crate":
            module = ()
        elif first in ("self", "super"):
            module = source.path[:-1] if first == "super" else source.path
        elif len(path) > 1 and crate.source((*source.path, first)):
            module, rest = source.path, path
        elif len(path) > 1 and first in source.uses and source.uses[first][0] != path[:1]:
            return self.resolved(source, (*source.uses[first][0], *rest))
        elif first in self.others and rest:
            crate, module = self.others[first], ()
        else:
            return None
        target = crate.source((*module, *rest[:-1]))
        return crate.found(target, rest[-1]) if target and rest else None

    def found(self, source, name):
        """The source and the declaration of a name that a module declares or uses."""
        for head in source.heads:
            if head.name == name and head.word not in ("use", "mod", "impl"):
                return source, head
        used = source.uses.get(name)
        return self.resolved(source, used[0]) if used else None

    @cached_property
    def impls(self):
        """Each `impl` of each type: its source, its declaration, its trait, and the type as it says it."""
        impls = {}
        for source in self.all_sources:
            for head in (head for head in source.heads if head.word == "impl"):
                rest = angled(source.code(head)[0].removeprefix("impl"))[1]
                found = IMPL.match(rest.split("\nwhere")[0].strip())
                if found:
                    impls.setdefault(found["name"], []).append((source, head, found["trait"], found["type"]))
        return impls


def functions_of(source, block, owner, scopes):
    """The functions and constants that a block shows: those of a trait, or the public ones of an `impl`."""
    for head in source.heads_in(block.start + 1, block.end - 1, 4):
        is_shown = (head.public or block.word == "trait") and "#[doc(hidden)]" not in head.attributes
        if is_shown and head.word in ("fn", "const"):
            code, clauses = source.code(head)
            yield Item(head.word, head.name, owner, code, head.docs, head.attributes, clauses, [], [], [], source,
                       [*scopes, code])


def associated(source, block):
    return [Part(source.code(head)[0], head.docs) for head in source.heads_in(block.start + 1, block.end - 1, 4)
            if head.word == "type" and "#[doc(hidden)]" not in head.attributes]


def derived(attributes):
    found = re.findall(r"derive\(([^)]*)\)", " ".join(attributes))
    return [name.strip() for names in found for name in names.split(",")]


def item_of(source, head):
    """All that is public of an item."""
    made = head.word in ("struct", "enum") and not source.masked[head.start].lstrip().startswith("pub")
    code, clauses = ("pub %s %s {}" % (head.word, head.name), []) if made else source.code(head)
    clauses = clauses if head.word == "fn" else []
    parts, functions, traits = [], [], [(name, None) for name in derived(head.attributes)]
    if head.word in ("struct", "enum") and not made:
        parts = source.parts(head)
    if head.word == "trait":
        parts, functions = associated(source, head), list(functions_of(source, head, head.name, [code]))
    if head.word in ("struct", "enum"):
        for other, block, trait, typed in source.crate.impls.get(head.name, ()):
            if trait is None:
                functions += functions_of(other, block, head.name, [code, other.code(block)[0]])
            elif re.match(r"(\w+::)*Model$", trait) is None:
                path = tuple(re.match(r"(?:\w+::)*\w+", trait)[0].split("::"))
                label = re.sub(r"^(?:\w+::)*", "", trait) + (" for " + typed if typed.startswith("&") else "")
                traits.append((label, other.crate.resolved(other, path) or other.crate.found(other, path[-1])))
    return Item(head.word, head.name, None, code, head.docs, head.attributes, clauses, parts, functions, traits,
                source, [code])


def types_in(item):
    """The texts of an item that name types: its own, and those of its parts without their names."""
    return [item.code, *(re.sub(r"^(?:pub |type )*\w+", "", part.label) for part in item.parts)]


def named(item, text):
    """The paths of the types that a text of an item names, without its parameters."""
    parameters = set().union(*(generics(scope) for scope in item.scopes))
    for path in PATH.findall(HIDDEN.sub("", text)):
        parts = path.split("::")
        size = next(at for at, part in enumerate(parts, 1) if part[0].isupper())
        if parts[0] not in parameters and parts[0] != "Self":
            yield tuple(parts[:size])
