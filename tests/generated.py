#!/usr/bin/env python3
"""Usage: tests/generated.py [--check]

Writes the two pages that repeat the code:
  docs/DEFINITIONS.md   the definitions in specs/ that contracts of public functions use, with the comment above each
  docs/CONTRACTS.md     the public functions of each crate, with their docs and the names of their clauses
The text in front of a page's first crate is written by hand, and stays. With --check nothing is written: it names each
page that is stale, and ends with status 1 if there is one."""
import glob
import os
import re
import sys
import textwrap

os.chdir(os.path.join(os.path.dirname(os.path.abspath(__file__)), ".."))
IMPORT = re.compile(r"use Rattle\.(\w+)\.specs\.([\w.]+?)(?: as (\w+)|\.\{([^}]*)\})")
DEFINITION = re.compile(r"(?:(?:unfoldable|abbrev|pub|record|data) )+(?!mod |use |mutual)([\w'-]+)")
OWNER = re.compile(r"(?:impl(?:<.*?>)?|(pub trait)) (?:\S.*? for )?(\w+)")
FUNCTION = re.compile(r"( {4})?(pub )?(?:unsafe )?(?:const )?fn (\w+)")
CLAUSE = re.compile(r"\s*(requires|ensures)\*? (\w*) ?\{")


def text_of(path):
    with open(path, encoding="utf-8") as file:
        return file.read()


def crates():
    """The crates of crates.txt, the lowest first."""
    return [line.split()[0].rstrip(":") for line in text_of("crates.txt").split("\n") if ":" in line.split("#")[0]]


def wrapped(text, bullet=""):
    """A paragraph or a point of a list. No span of code is broken, and none keeps a link."""
    text = re.sub(r"\[(`[^`]*`)\](?:\([^)]*\))?", r"\1", " ".join(text.split()))
    whole = re.sub(r"`[^`]*`", lambda code: code[0].replace(" ", "\0"), text)
    lines = textwrap.wrap(bullet + whole, 120, subsequent_indent=" " * len(bullet), break_long_words=False,
                          break_on_hyphens=False)
    return "\n".join(lines).replace("\0", " ") + "\n"


class Imports:
    """The definitions that a file may cite, each as crate, module and name. Other names are of its `own` module."""
    def __init__(self, text, own=None):
        self.names, self.modules, self.own = {}, {}, own
        for crate, module, alias, listed in IMPORT.findall(text):
            if alias:
                self.modules[alias] = (crate, module)
            for entry in filter(None, (entry.strip() for entry in listed.split(","))):
                name, _, other = entry.partition(" as ")
                self.names[other or name] = (crate, module, name)

    def cited(self, text):
        for front, name in re.findall(r"(?:\b(\w+)\.)?([A-Za-z_][\w'-]*)", text):
            where = self.modules.get(front) or self.own
            if name in self.names or where:
                yield self.names[name] if name in self.names and front not in self.modules else (*where, name)


class Specs:
    """All definitions: the comment of each, the names that it cites, and the first comment of each file."""
    def __init__(self):
        self.comments, self.cites, self.heads, self.passed_on = {}, {}, {}, {}
        for crate in crates():
            for path in sorted(glob.glob(f"crates/{crate}/specs/**/*.antt", recursive=True)):
                self.read((crate, path.split("/specs/")[1][:-5].replace("/", ".")), text_of(path))

    def read(self, where, text):
        imports, comment, at, mutual = Imports(text, where), [], None, ""
        for entry in re.findall(r"(?m)^pub (use .*)", text):
            self.passed_on |= {(*where, name): key for name, key in Imports(entry).names.items()}
        for line in text.split("\n"):
            if line.startswith("--"):
                comment = [] if line.startswith("-- ---") else comment + [line[2:].strip()]
                continue
            if line.startswith("use ") and comment:
                self.heads.setdefault(where, " ".join(comment))
            if line and not line.startswith(" "):
                mutual = " ".join(comment) if line.startswith("abbrev mutual") else ""
            found = DEFINITION.match(line.strip() if mutual else line)
            if found:
                at = (*where, found[1])
                self.comments.setdefault(at, mutual or " ".join(comment))
            if at:
                self.cites.setdefault(at, set()).update(key for key in imports.cited(line) if key != at)
            comment = []

    def known(self, keys):
        """Those of the keys that are definitions, in the file that has them."""
        for key in keys:
            while key in self.passed_on:
                key = self.passed_on[key]
            if key in self.comments:
                yield key

    def page(self, cited):
        """The part of DEFINITIONS.md by crates: the definitions that are cited, and those that they are made of."""
        used, rest = set(), list(cited)
        while rest:
            key = rest.pop()
            if key not in used:
                used.add(key)
                rest += self.known(self.cites[key])
        page, crate, file = [], None, None
        for key in filter(used.__contains__, self.comments):
            if key[0] != crate:
                page.append(f"\n## `{key[0]}`\n")
            if key[:2] != (crate, file):
                path = f"specs/{key[1].replace('.', '/')}.antt"
                page.append("\n" + wrapped(f"In `{path}`. {self.heads.get(key[:2], '')}") + "\n")
            crate, file, name = key
            name = f"**{name}**" if key in cited else name
            page.append(wrapped(f"{name}: {self.comments[key]}".removesuffix(": "), "- "))
        return "".join(page)


def heads_in(text):
    """Each function of a file that may be public: its type, name, doc, and the lines above its body. And each line of
    a type's model, without a name."""
    owner, trait, doc, head, depth = "", None, "", [], 0
    for line in text.split("\n"):
        code, function = line.strip(), FUNCTION.match(line)
        if not head:
            if OWNER.match(line) or line.startswith("}"):
                trait, owner = OWNER.match(line).groups() if OWNER.match(line) else (None, "")
            if code.startswith(("ghost view", "ghost Value", "ghost invariant")):
                yield owner, "", "", [code]
            if function and (function[2] or trait):
                name, indent, depth = function[3], function[1] or "", 0
            else:
                doc = f"{doc} {code[3:]}" if code.startswith("///") else doc if code.startswith("#") else ""
                continue
        starts_body = line in (indent + "{", indent + "{}")
        head += [] if starts_body else [line]
        depth += line.count("{") - line.count("}")
        ends = (";",) if any(map(CLAUSE.match, head)) else (";", "{", "{}")
        if starts_body or line.endswith(ends) and (depth == 0 or ends != (";",)):
            yield owner, name, doc, head
            doc, head = "", []


def clauses_of(head):
    """The clauses above a body: kind, name and text of each."""
    clauses, depth = [], 0
    for line in head:
        found = CLAUSE.match(line) if depth == 0 else None
        if found:
            clauses.append([found[1], found[2], line[found.end():].strip()])
        elif clauses:
            clauses[-1][2] += " " + line.strip()
        depth += line.count("{") - line.count("}") if clauses else 0
    return clauses


def crate_part(crate, specs, cited):
    """A crate's part of CONTRACTS.md. The definitions that its contracts cite are added to `cited`."""
    root = text_of(f"crates/{crate}/src/lib.rt")
    shown = set(re.findall(r"\w+", " ".join(re.findall(r"\npub (?:use [^;]*|\w+ \w+)", root))))
    about = " ".join(line[3:] for line in root.split("//!\n")[0].split("\n") if line.startswith("//!"))
    part = [f"\n## `{crate}`\n\n", wrapped(about)]
    for path in sorted(glob.glob(f"crates/{crate}/src/**/*.rt", recursive=True)):
        text, points = text_of(path), []
        imports = Imports(text)
        for owner, name, doc, head in heads_in(text):
            if (owner or name) not in shown and f"pub mod {os.path.basename(path)[:-3]};" not in root:
                continue
            said = {"requires": [], "ensures": []}
            cited.update(() if name else specs.known(imports.cited(head[0])))
            for kind, clause, words in clauses_of(head):
                keys = list(specs.known(imports.cited(words)))
                cited.update(keys)
                cites = ", ".join(dict.fromkeys(f"`{key[2]}`" for key in keys))
                said[kind].append(f"`{clause}`" if clause else cites or f"`{words.rstrip(';')[:-1].strip()}`")
            ends = [f"*{kind.capitalize()}* {', '.join(names)}." for kind, names in said.items() if names]
            point = f"`{owner}{'::' if owner else ''}{name}`: {doc} {' '.join(ends)}"
            points += [wrapped(point, "- ")] if name else []
        part += [f"\nIn `{path.split('/', 2)[2]}`:\n\n", *points] if points else []
    return "".join(part)


def main():
    specs, cited = Specs(), set()
    named = [crate for crate in reversed(crates()) if os.path.exists(f"crates/{crate}/src/lib.rt")]
    contracts = "".join(crate_part(crate, specs, cited) for crate in named)
    stale = []
    for path, part in (("docs/CONTRACTS.md", contracts), ("docs/DEFINITIONS.md", specs.page(cited))):
        page = text_of(path).split("\n## `")[0] + part
        stale += [path] if page != text_of(path) else []
        if "--check" not in sys.argv:
            with open(path, "w", encoding="utf-8") as file:
                file.write(page)
    if "--check" in sys.argv:
        print("generated pages:", f"{' '.join(stale)}: run tests/generated.py" if stale else "fresh")
        sys.exit(1 if stale else 0)


main()
