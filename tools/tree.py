"""What tools/map, tools/believed and tools/engines read off the tree: the crates and their groups, what a source declares, and the printed parts of a page."""
import functools
import glob
import os
import re

ROOT = os.path.dirname(os.path.dirname(os.path.abspath(__file__)))
END = "<!-- end -->\n"
# What stands before the name of a definition or a theorem.
HEAD = r" *(?:(?:abbrev|unfoldable) )?(?:pub )?(?:record |data )?"


@functools.lru_cache(None)
def read(path):
    with open(os.path.join(ROOT, path), encoding="utf-8") as f:
        return f.read()


@functools.lru_cache(None)
def groups():
    """The comments of crates.txt, each with the crates below it and what they need."""
    found = []
    for line in read("crates.txt").split("\n"):
        if line.startswith("#"):
            found.append((line.lstrip("# "), {}))
        elif ":" in line:
            name, needs = line.split("#")[0].split(":")
            found[-1][1][name.split()[0]] = needs.split()
    return found


@functools.lru_cache(None)
def needed():
    return {crate: needs for _, crates in groups() for crate, needs in crates.items()}


def declared(text):
    """The functions, types and constants that a source declares, each with the line's number: a method with its type before it, a conversion with
    what it takes behind it."""
    owner = came = ""
    for number, line in enumerate(text.split("\n")):
        into = re.match(r"impl(?:<[^>]*>)? (?:From<(\w+)> for )?(\w+)", line)
        if into:
            came, owner = into[1], into[2] + "::"
        named = re.match(r"( {0,4})(?:pub(?:\(\w+\))? )?(?:const )?(?:extern \"C\" )?(?:fn|struct|enum|const|type) (\w+)", line)
        if named:
            yield (owner if named[1] else "") + named[2] + (f"({came})" if came and named[1] else ""), number
        if line == "}":
            owner = came = ""


@functools.lru_cache(None)
def ours():
    """Where each function and type of the crates stands, by its path: file and line."""
    found = {}
    for path in sorted(glob.glob(os.path.join(ROOT, "crates/*/src/**/*.rt"), recursive=True)):
        crate, module = re.search(r"crates/(\w+)/src/(.*)\.rt$", path).groups()
        inside = "" if module in ("lib", "main") else module.replace("/", "::") + "::"
        found[f"{crate}::{inside[:-2]}"] = (os.path.relpath(path, ROOT), 0)
        for name, number in declared(read(path)):
            found[f"{crate}::{inside}{name}"] = (os.path.relpath(path, ROOT), number)
    return found


def standing(name, here):
    """Where a function or type of a crate stands, whatever the module in that crate."""
    crate, rest = name.split("::", 1)
    return [place for path, place in here.items() if path == name or path.startswith(crate + "::") and path.endswith("::" + rest)]


def named(page):
    """The names that a page says stand in a file, with the file."""
    for names, file in re.findall(r"((?:`[^`/]+`(?:,\s+|\s+and\s+)?)+)\s+in\s+`(\w+/(?:specs|proofs)/\w+\.antt)`", page):
        if os.path.exists(os.path.join(ROOT, "crates", file)):
            yield re.findall(r"`([^`]+)`", names), file


def unknown(path):
    """What a page names and the tree lacks: files of crates, names said to stand in a file, functions of crates."""
    page = read(path)
    for name in re.findall(r"`(\w+/(?:specs|proofs|must-fail|src)/[^`*]*)`", page):
        if not glob.glob(os.path.join(ROOT, "crates", name)):
            yield f"{path} names {name}, which isn't there"
    for names, file in named(page):
        for name in names:
            if not re.search("(?m)^" + HEAD + re.escape(name) + r"(?=[ :])", read("crates/" + file)):
                yield f"{path} names {name} in {file}, which isn't there"
    for name in re.findall(r"`(\w+::[\w:]+)`", page):
        if name.split("::")[0] in needed() and not standing(name, ours()):
            yield f"{path} names {name}, which isn't there"


def part(page, begin):
    return page.split(begin)[1].split(END)[0]


def with_part(page, begin, text):
    """The page with another text between the mark and its end."""
    return page.replace(begin + part(page, begin) + END, begin + text + END)
