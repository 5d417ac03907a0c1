#!/usr/bin/env python3
"""Checks functions of a crate over libraries of statements, while the crates below it are still being proved.

    tests/statements.py make POOL CRATE..             builds libraries of these crates into POOL, over those already there
    tests/statements.py check POOL CRATE [FUNCTION..] checks these functions and what they call, or all, over POOL

A library of statements has a crate's contracts, definitions and lemmas, which are checked, and no bodies or answers. Make
the lowest first. FUNCTION is a path below the crate, such as `module::Type::method`; '' checks only clauses and definitions.
Results are kept in POOL. They aren't proofs: only the gate proves.
"""
import os, re, shutil, subprocess, sys, tempfile

KIT = os.path.dirname(subprocess.run(["rt", "doc"], capture_output=True, text=True, check=True).stdout.split()[0])
TOP = os.path.dirname(os.path.dirname(os.path.abspath(__file__)))
FUNCTION = re.compile(r"\bfn\s+[A-Za-z_]\w*")
CLAUSE = re.compile(r"\b(requires|ensures|ghost|decreases)\b")
NO_BODY = "{ unsafe { crate::no_body::no_body() } unreachable!() }"
FALSE = "unsafe extern \"C\" {\n    pub fn no_body()\n        ensures { ⊥ };\n}\n"


def crates():
    lines = (line.split("#")[0].partition(":") for line in open(f"{TOP}/crates.txt"))
    return {name.split()[0]: rest.split() for name, colon, rest in lines if colon}


def past_text(text, i):
    """The place behind a comment, a string or a character at i, or i."""
    if text.startswith("//", i): return (text.find("\n", i) + 1 or len(text) + 1) - 1
    if text[i] == '"':
        j = i + 1
        while text[j] != '"': j += 2 if text[j] == "\\" else 1
        return j + 1
    found = re.compile(r"'(\\x[0-9a-fA-F]{2}|\\u\{[0-9a-fA-F]+\}|\\.|[^\\'])'").match(text, i)
    return found.end() if found else i


def past_braces(text, i, is_code):
    depth = 0
    while True:
        j = past_text(text, i) if is_code else text.find('"', i + 1) + 1 if text[i] == '"' else i
        if j != i: i = j; continue
        depth += {"{": 1, "}": -1}.get(text[i], 0); i += 1
        if not depth: return i


def without_bodies(text):
    out, i, last = [], 0, 0
    while i < len(text):
        j = past_text(text, i)
        if j != i: i = j; continue
        is_word = not (i and (text[i - 1].isalnum() or text[i - 1] == "_"))
        if is_word and re.compile(r"ghost\s+\w+\s*[:={]").match(text, i):
            while text[i] not in "{;": i += 1
            i = past_braces(text, i, False) if text[i] == "{" else i + 1
            continue
        found = is_word and FUNCTION.match(text, i)
        if not found: i += 1; continue
        i = since = found.end(); depth = 0
        while True:
            j = past_text(text, i) if text[i] != "'" else i
            if j != i: i = j; continue
            depth += {"(": 1, "[": 1, ")": -1, "]": -1}.get(text[i], 0)
            if text[i] == ";" and not depth: break
            if text[i] == "{" and (depth or CLAUSE.search(text[since:i])): i = since = past_braces(text, i, False); continue
            if text[i] == "{":
                out.append(text[last:i] + NO_BODY); i = last = past_braces(text, i, True); break
            i += 1
    return re.sub(r"^[ \t]*#\[(tactic|cycle)[^\]]*\][ \t]*\n", "", "".join(out) + text[last:], flags=re.M)


def words(command, pool, crate, root):
    deps = crates()
    libs = [f"{d}={pool if d in deps else KIT + '/rlibs'}/{d}.rlib" for d in ["std", *deps[crate]]]
    return [f"{KIT}/bin/rattle", command, "--crate-name", crate, root, *(w for lib in libs for w in ("--extern", lib)),
            "-L", f"dependency={KIT}/rlibs", "-L", f"dependency={pool}", "--antt-project", f"{KIT}/rattle/logic/antt-project.json",
            "--logic-built", f"{KIT}/logic_built", "--jobs", "1"]


def make(pool, crate):
    with tempfile.TemporaryDirectory() as room:
        for part in ("src", "specs", "proofs"):
            if os.path.isdir(f"{TOP}/crates/{crate}/{part}"): shutil.copytree(f"{TOP}/crates/{crate}/{part}", f"{room}/{part}")
        for folder, _, files in os.walk(room):
            for path in (f"{folder}/{file}" for file in files):
                if folder.startswith(f"{room}/proofs/") and path.endswith(("/Answers.antt", "/Invariants.antt", "/Proof.antt")): os.remove(path)
                if path.endswith(".rt"):
                    text = without_bodies(open(path).read())
                    if path == f"{room}/src/lib.rt":
                        at = max((m.end() for m in re.finditer(r"^(#!\[.*\]|//!.*)$", text, flags=re.M)), default=0)
                        text = f"{text[:at]}\n\nmod no_body;\n{text[at:]}"
                    open(path, "w").write(text)
        open(f"{room}/src/no_body.rt", "w").write(FALSE)
        done = subprocess.run([*words("build", pool, crate, "src/lib.rt"), "--statements", "-o", f"{room}/made"], cwd=room, capture_output=True, text=True)
        if not os.path.isdir(f"{room}/made"): sys.exit("\n".join(l for l in (done.stdout + done.stderr).split("\n") if "error" in l) or done.stderr)
        shutil.rmtree(f"{pool}/{crate}.rlib", ignore_errors=True); shutil.move(f"{room}/made", f"{pool}/{crate}.rlib")
    print(f"{crate}: made", flush=True)


def check(pool, crate, functions):
    folder = f"{TOP}/crates/{crate}"; os.makedirs(f"{pool}/kept/{crate}", exist_ok=True)
    root = "src/main.rt" if os.path.exists(f"{folder}/src/main.rt") else "src/lib.rt"
    only = [w for f in functions for w in ("--only", f)]
    return subprocess.run([*words("check", pool, crate, root), "--incremental", f"{pool}/kept/{crate}", *only], cwd=folder).returncode


if len(sys.argv) < 4 or sys.argv[1] not in ("make", "check"): sys.exit(__doc__)
os.makedirs(sys.argv[2], exist_ok=True); POOL = os.path.abspath(sys.argv[2])
if sys.argv[1] == "check": sys.exit(check(POOL, sys.argv[3], sys.argv[4:]))
for name in sys.argv[3:]: make(POOL, name)
