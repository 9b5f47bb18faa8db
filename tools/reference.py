#!/usr/bin/env python3
"""reference.py [--check]: writes the API reference into docs/reference/, from the comments and signatures of the crate
`yalwythen` with the crates that it hands on, of the Rust crate in bindings/rust, and of the C headers in
bindings/c/include. It needs no toolchain.

With --check it writes nothing, and counts what passes and fails of these:

- Each public item, function, field and variant has a comment. NOT_COMMENTED lists those that have none yet.
- Each page is what would be written now, and no other file is in docs/reference/.
- Each type that a public signature or field of `yalwythen` names can be named by a program that uses only that crate.
  NOT_EXPORTED lists those that cannot be named yet.
- No two headings of a page have one anchor, and each link on a page leads to a heading or a file.

An exception that isn't needed any more fails too. The last line is 'N passed, M failed'.
"""

import re
import sys
from pathlib import Path

from header import sections
from items import PRELUDE, STANDARD, Crate, Item, item_of, named, types_in
from reference_pages import Index, Page, grouped, heading, index_text, items_of, name_of, page_text, slug
import pages as checked_pages

ROOT = Path(__file__).resolve().parent.parent
OUT = ROOT / "docs/reference"
HEADERS = ROOT / "bindings/c/include"
# Exceptions: fields without a comment (none), and types that `yalwythen` doesn't export. `Append` stays: it bounds a handle,
# and every handle has it.
NOT_COMMENTED = set()
NOT_EXPORTED = {"txc_cast::Append"}


def rattle_crates():
    crates = {}
    for folder in sorted((ROOT / "crates").iterdir()):
        crates[folder.name] = Crate(folder.name, folder / "src", ".rt", crates)
    return crates


def macro_of(source, head):
    return Item("macro", re.match(r"macro_rules! (\w+)", source.lines[head.start])[1], None, "", head.docs,
                head.attributes, [], [], [], [], source, [""])


def own_items(source):
    """What a module declares itself."""
    for head in source.heads:
        is_hidden = "#[doc(hidden)]" in head.attributes
        if head.word == "macro_rules!" and "#[macro_export]" in head.attributes and not is_hidden:
            yield macro_of(source, head)
        elif head.public and head.word not in ("use", "mod", "impl") and not is_hidden:
            yield item_of(source, head)


def handed_on(source):
    """What a module hands on: each item with the name of the first module of its path."""
    for name, (path, is_public, _, attributes) in source.uses.items():
        if is_public and "#[doc(hidden)]" not in attributes:
            place = source.crate.resolved(source, path)
            if place is None:
                raise ValueError("%s: %s leads nowhere" % (source.file, "::".join(path)))
            item = item_of(*place)
            if "#[doc(hidden)]" not in item.attributes:
                yield path[0], item._replace(name=name, attributes=[*attributes, *item.attributes])


def modules(source):
    return [(head.name, head.public) for head in source.heads if head.word == "mod"]


def rattle_pages(crate):
    """A page for each module of `yalwythen`. What two modules hand on is described on the page of the first."""
    first = {}
    for name, _ in modules(crate.source(())):
        source = crate.source((name,))
        items = [*own_items(source), *(item for _, item in handed_on(source))]
        for at, item in enumerate(items):
            module = first.setdefault((item.source.file, item.name), name)
            if module != name:
                docs = ["The same as `%s::%s`, which is described there." % (module, item.name)]
                items[at] = item._replace(docs=docs, clauses=[], parts=[], functions=[], traits=[])
        yield Page(name + ".md", "`yalwythen::%s`" % name, source.page, "rattle", grouped(items))


def rust_pages(crate):
    """A page for each public module of the Rust crate, and for each module from which it hands items on."""
    root = crate.source(())
    handed = list(handed_on(root))
    for name, is_public in modules(root):
        source = crate.source((name,))
        items = [item for first, item in handed if first == name]
        if is_public:
            items = [*own_items(source), *(item for _, item in handed_on(source))]
        elif items:
            items += [item for other in crate.all_sources if other.path[:1] == (name,)
                      for item in own_items(other) if item.word == "macro"]
        if items:
            title = "`yalwythen::%s` (Rust)" % name if is_public else "`yalwythen` (Rust): %s" % name
            yield Page("rust/%s.md" % name, title, source.page, "rust", grouped(items))


def c_pages():
    for file in sorted(HEADERS.glob("*.h"), key=lambda file: len(file.name)):
        intro, groups = sections(file)
        groups = [(name or "Declarations", items) for name, items in groups]
        yield Page("c/%s.md" % file.stem, "`%s`" % file.name, intro, "c", groups)


def all_parts():
    crates = rattle_crates()
    facade = crates["yalwythen"]
    rust = Crate("yalwythen", ROOT / "bindings/rust/src", ".rs", {})
    return [("Rattle: the crate `yalwythen`", facade.source(()).page, list(rattle_pages(facade))),
            ("Rust: the crate in `bindings/rust`", ["See [Rust](../RUST.md) for how to use it."],
             list(rust_pages(rust))),
            ("C: the headers in `bindings/c/include`", ["See [C](../C.md) for how to use them."], list(c_pages()))]


def texts(parts):
    """The text of each page, by its path in docs/reference/."""
    index = Index([page for _, _, pages in parts for page in pages])
    found = {page.path: page_text(page, index, ROOT) for _, _, pages in parts for page in pages}
    return {"README.md": index_text(parts, index), **found}


def comments(pages):
    """What should have a comment: its name, and whether it has one."""
    for page in pages:
        for item in items_of(page):
            yield "%s: %s" % (page.path, name_of(item)), bool(item.docs)
            for part in getattr(item, "parts", ()):
                label = re.match(r"(?:pub |type )*(\w+)", part.label)[1]
                yield "%s: %s.%s" % (page.path, item.name, label), bool(part.docs)


def is_standard(source, path):
    used = source.uses.get(path[0], (path,))[0]
    return used[0] in STANDARD or path[0] in PRELUDE


def types_exposed(pages):
    """Each type that a signature or a field names: the crate and its name, and whether a page has it."""
    there = {(item.source.file, item.name) for page in pages for item in items_of(page)}
    for page in pages:
        for item in items_of(page):
            for path in (path for text in types_in(item) for path in named(item, text)):
                place = item.source.crate.resolved(item.source, path)
                place = place or (item.source.crate.found(item.source, path[0]) if len(path) == 1 else None)
                if place:
                    yield "%s::%s" % (place[0].crate.name, place[1].name), (place[0].file, place[1].name) in there
                else:
                    yield "::".join(path), is_standard(item.source, path)


def excepted(found, exceptions, what):
    """What is wrong with each of these, where an exception is known; and with exceptions that aren't needed."""
    names = dict(sorted(found))
    for name, is_right in names.items():
        is_known = any(name.endswith(known) for known in exceptions)
        yield None if is_right or is_known else "%s: %s" % (name, what)
    for known in sorted(exceptions):
        is_needed = any(name.endswith(known) and not is_right for name, is_right in names.items())
        yield None if is_needed else "%s: no exception any more: take it out of tools/reference.py" % known


def stale(wanted):
    """What is wrong with each file of docs/reference/."""
    there = {str(file.relative_to(OUT)) for file in OUT.glob("**/*") if file.is_file()}
    for path in sorted(there | set(wanted)):
        is_same = path in there and path in wanted and (OUT / path).read_text(encoding="utf-8") == wanted[path]
        yield None if is_same else "docs/reference/%s is stale: run tools/reference.py" % path


def wrong_places(wanted, all_pages):
    """Whether the headings of each page have anchors of their own, and whether each link leads somewhere."""
    for page in all_pages:
        anchors = [slug(heading(item)) for item in items_of(page)]
        twice = sorted({it for it in anchors if anchors.count(it) > 1})
        yield "%s: anchors of two headings: %s" % (page.path, ", ".join(twice)) if twice else None
    for path in sorted(path for path in wanted if (OUT / path).is_file()):
        for link in re.findall(r"\]\(([^)\s]+)\)", checked_pages.BLOCK.sub("", wanted[path])):
            wrong = None if link.startswith("http") else checked_pages.wrong_link(OUT / path, link)
            yield "docs/reference/%s: %s" % (path, wrong) if wrong else None


def check(parts, wanted):
    all_pages = [page for _, _, pages in parts for page in pages]
    wrong = [*excepted(comments(all_pages), NOT_COMMENTED, "no comment"),
             *excepted(types_exposed(parts[0][2]), NOT_EXPORTED, "a signature names it, but `yalwythen` has no export"),
             *stale(wanted), *wrong_places(wanted, all_pages)]
    print("".join(it + "\n" for it in wrong if it), end="")
    failed = sum(it is not None for it in wrong)
    print(f"{len(wrong) - failed} passed, {failed} failed")
    return 1 if failed else 0


def write(wanted):
    for file in OUT.glob("**/*.md"):
        if str(file.relative_to(OUT)) not in wanted:
            file.unlink()
    for path, text in wanted.items():
        (OUT / path).parent.mkdir(parents=True, exist_ok=True)
        (OUT / path).write_text(text, encoding="utf-8")
    words = sum(len(text.split()) for text in wanted.values())
    print(f"docs/reference: {len(wanted)} pages, {words} words")


def main():
    if sys.argv[1:] not in ([], ["--check"]):
        print("usage: reference.py [--check]", file=sys.stderr)
        return 2
    parts = all_parts()
    wanted = texts(parts)
    if sys.argv[1:]:
        return check(parts, wanted)
    write(wanted)
    return 0


if __name__ == "__main__":
    sys.exit(main())
