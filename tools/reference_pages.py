"""The pages of the reference, as tools/reference.py writes them: items of tools/items.py and declarations of
tools/header.py as Markdown, with links between them."""

import posixpath
import re
import textwrap
from collections import namedtuple

from items import named, types_in

# A page: its path in docs/reference, its title, its comment, which language it is of, and its items by groups.
Page = namedtuple("Page", "path title intro language groups")
WIDTH = 116
# The groups of a page, with the keywords of their items.
GROUPS = (("Macros", ("macro",)), ("Functions", ("fn",)), ("Types", ("struct", "enum", "type")), ("Traits", ("trait",)),
          ("Constants", ("const", "static")))
NOTE = "<!-- Written by tools/reference.py: a change here is lost. -->\n"


def slug(heading):
    """The anchor of a heading."""
    return re.sub(r"[^\w\- ]", "", heading.lower()).replace(" ", "-")


def name_of(item):
    """The name of an item on its page."""
    if getattr(item, "owner", None):
        return "%s::%s" % (item.owner, item.name)
    return item.name + ("!" if item.word == "macro" and item.name.islower() else "")


def heading(item):
    """The heading of an item, by which links name it."""
    return "`%s`%s" % (name_of(item), " (macro)" if name_of(item).endswith("!") else "")


def grouped(items):
    """The items by their groups, in the order in which they came."""
    found = [(name, [item for item in items if item.word in words]) for name, words in GROUPS]
    return [(name, some) for name, some in found if some]


def with_functions(items):
    for item in items:
        yield item
        yield from getattr(item, "functions", ())


def items_of(page):
    return [item for _, some in page.groups for item in with_functions(some)]


def plural(count, word):
    return "%d %s%s" % (count, word, "" if count == 1 else "s")


class Index:
    """Where each name of a language has its entry."""

    def __init__(self, pages):
        self.by_name, self.by_place = {}, {}
        for page in pages:
            for item in items_of(page):
                self.by_name.setdefault((page.language, name_of(item).rstrip("!")), []).append((page, item))
                if getattr(item, "source", None) and not item.owner:
                    self.by_place.setdefault((item.source.file, item.name), []).append((page, item))

    def entry(self, page, owner, name):
        """The page and the item that a text means by a name; none if it means none."""
        parts = [part for part in name.removesuffix("()").rstrip("!").split("::") if part not in ("crate", "self")]
        parts = [owner if part == "Self" and owner else part for part in parts]
        if not parts:
            return None
        for words in ("::".join([owner or "", parts[0]]) if len(parts) == 1 else "", "::".join(parts[-2:]), parts[-1]):
            found = self.by_name.get((page.language, words), [])
            if found and (words.count("::") or len(parts) == 1 or parts[0].islower()):
                first = [it for it in found if len(parts) > 1 and it[0].path.endswith(parts[-2] + ".md")]
                return next((it for it in first or found if it[0] is page), (first or found)[0])
        return None

    def link(self, page, found):
        """The address of an entry, on a page."""
        other, item = found
        path = posixpath.relpath(other.path, posixpath.dirname(page.path) or ".")
        return ("" if other is page else path) + "#" + slug(heading(item))


def prose(lines, page, index, owner=None, own=None, deeper="#"):
    """A comment as Markdown, with links; its headings are deeper by so many signs, and none in an entry."""
    out, in_code = [], False

    def linked(found):
        text, name = found[1] or found[3], found[2] or found[3].strip("`")
        entry = index.entry(page, owner, name)
        is_link = entry and entry[1] is not own
        return "[%s](%s)" % (text, index.link(page, entry)) if is_link else text

    for line in lines:
        if line.startswith("```"):
            in_code = not in_code
            out.append("```rust" if in_code and not line.startswith("```text") else line[:3] if not in_code else line)
        elif in_code:
            out += [] if re.match(r"\s*# |\s*#$", line) else [line]
        else:
            line = re.sub(r"^(#+) (.*)", "**\\2**" if own else deeper + "\\1 \\2", line)
            line = re.sub(r"\[(`[\w:!()]+`)\](?!\()", r"\1", line)
            out.append(re.sub(r"\[([^\]]+)\]\(([\w:!]+)\)|(`[\w:!]+(?:\(\))?`)", linked, line))
    return "\n".join(out) + "\n"


def types_named(item, page, index, texts):
    """Links to the types of these crates that texts of an item name."""
    links = {}
    for path in (path for text in texts for path in named(item, text)):
        place = item.source.crate.resolved(item.source, path) or item.source.crate.found(item.source, path[-1])
        found = index.by_place.get((place[0].file, place[1].name), []) if place else []
        if found and found[0][1].name not in (item.name, item.owner):
            near = next((it for it in found if it[0] is page), found[0])
            links[path[-1]] = "[`%s`](%s)" % (path[-1], index.link(page, near))
    return "Types: %s.\n" % ", ".join(links.values()) if links else ""


def clause_text(clause):
    found = re.match(r"(requires|ensures)\*?\s+(?:(\w+) )?\{\s*(.*?)\s*\}$", clause, re.S)
    words = "%s%s: %s" % (found[1], " " + found[2] if found[2] else "", found[3]) if found else clause
    return textwrap.fill(words, WIDTH, subsequent_indent="    ", break_long_words=False, break_on_hyphens=False)


def contract(item, up, root):
    """The clauses of a function, folded."""
    if not item.clauses:
        return ""
    count = sum(clause.startswith("requires") for clause in item.clauses)
    sums = [plural(count, "requirement")] if count else []
    sums += [plural(len(item.clauses) - count, "promise")] if len(item.clauses) > count else []
    words = dict.fromkeys(word for clause in item.clauses for word in re.findall(r"\w+", clause)
                          if word in item.source.words)
    where = ", ".join("[`%s`](%s%s)" % (word, up, item.source.words[word].relative_to(root)) for word in words)
    return "\n".join(["<details><summary>Contract (proved): %s</summary>\n" % ", ".join(sums), "```",
                      *map(clause_text, item.clauses), "```", *(["", "Defined in the specifications: %s." % where]
                                                                if where else []), "</details>\n"])


def parts_table(item, page, index):
    name = {"struct": "Field", "enum": "Variant", "trait": "Type"}.get(item.word)
    rows = ["| `%s` | %s |" % (part.label.removeprefix("pub ").replace("|", "\\|"),
                               prose(part.docs, page, index, item.name, item).strip().replace("\n", " ").replace(
                                   "|", "\\|"))
            for part in item.parts]
    return "\n".join(["| %s | Meaning |" % name, "|---|---|", *rows, ""]) if rows else ""


def facts(item, index, up, root, of):
    """Where an item is declared, for which feature it is there, and what it implements."""
    file = item.source.file.relative_to(root)
    cfg = re.findall(r'cfg\(feature = "(\w+)"\)', " ".join(item.attributes))
    crate = "Crate `%s`, " % item.source.crate.name if item.source.file.suffix == ".rt" else ""
    is_there = of and of.source is item.source
    texts = [] if is_there else ["%s[`%s`](%s%s)." % (crate, "/".join(file.parts[-2:]), up, file)]
    texts += ["Feature `%s`." % name for name in cfg]
    traits = [name for name, place in item.traits if not place or (place[0].file, place[1].name) in index.by_place]
    texts += ["Implements %s." % ", ".join("`%s`" % name for name in dict.fromkeys(traits))] if traits else []
    return " ".join(texts) + "\n" if texts else ""


def entry(item, page, index, root, of=None):
    """The entry of an item."""
    up = "../" * (2 + page.path.count("/"))
    code = item.code
    if item.word == "macro":
        code = "macro_rules! %s { .. }" % item.name
    elif item.word in ("struct", "enum", "trait") and not code.endswith(("}", ")")):
        code += " { .. }"
    return "\n".join(text for text in [
        "%s %s\n" % ("####" if of else "###", heading(item)),
        "```rust\n%s\n```\n" % code,
        prose(item.docs, page, index, item.owner or item.name, item),
        parts_table(item, page, index),
        types_named(item, page, index, types_in(item)),
        contract(item, up, root),
        facts(item, index, up, root, of),
        *(entry(function, page, index, root, item) for function in item.functions)] if text)


def declared_entry(item, page, index):
    """The entry of a declaration of a header."""
    code = item.code
    if item.word == "function":
        first, *rest = code.removeprefix("YALWYTHEN_USE_RESULT ").splitlines()
        code = "\n".join([first, *(" " * (first.index("(") + 1) + line.strip() for line in rest)])
    return "### %s\n\n```c\n%s\n```\n\n%s" % (heading(item), code, prose(item.docs, page, index, None, item))


def contents(page):
    """A list of the items of a page, by its groups."""
    return "\n".join("- %s: %s" % (name, ", ".join("[`%s`](#%s)" % (name_of(it), slug(heading(it))) for it in some))
                     for name, some in page.groups) + "\n"


def page_text(page, index, root):
    """The text of a page."""
    out = [NOTE, "# %s\n" % page.title, prose(page.intro, page, index), contents(page)]
    for name, some in page.groups:
        out.append("## %s\n" % name)
        for item in some:
            is_c = page.language == "c"
            out.append(declared_entry(item, page, index) if is_c else entry(item, page, index, root))
    return re.sub(r"\n{3,}", "\n\n", "\n".join(out)).rstrip() + "\n"


def first_sentence(page):
    paragraph = " ".join(page.intro).partition("  ")[0]
    return re.split(r"(?<=\.) ", re.sub(r"\[(`[^`]*`)\](\([^)]*\))?", r"\1", paragraph))[0]


def index_text(parts, index):
    """The text of the first page: the pages of each part, each with its items."""
    out = [NOTE, "# API reference\n", "Each comment and each signature is copied from the sources by "
           "`tools/reference.py`. A contract is what is proved of a function; it is folded below the comment.\n"]
    for title, intro, pages in parts:
        top = Page("README.md", title, intro, pages[0].language, [])
        out += ["## %s\n" % title, prose(intro, top, index, deeper="##")]
        out += ["| Page | What it has | Entries |", "|---|---|--:|"]
        out += ["| [%s](%s) | %s | %d |" % (page.title.replace("|", "\\|"), page.path, first_sentence(page),
                                           len(items_of(page))) for page in pages]
        out.append("")
        for page in pages:
            names = ", ".join("[`%s`](%s#%s)" % (name_of(it), page.path, slug(heading(it)))
                              for _, some in page.groups for it in some)
            out.append("- %s: %s" % (page.title, names))
        out.append("")
    return re.sub(r"\n{3,}", "\n\n", "\n".join(out)).rstrip() + "\n"
