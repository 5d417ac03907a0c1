#!/usr/bin/env python3
"""pages.py [PROGRAM [SVG [TELL]]]: runs the scripts that the pages show, and those in examples/, and reports each difference.

PROGRAM is crates/layout/out/layout if none is given. SVG is `layout_svg`; with it the drawings in examples/ are compared too.
TELL is `layout_tell`; with it the findings that the guide shows are compared too.

A script is an indented block that begins with a command: the left column is sent, the right one comes back. `..` stands for
lines left out, `ok` is left out everywhere, and so may any line of `frames` be. A block continues the session before it or
begins one, and is right if either gives what it shows. If a block begins with a name and a colon, it is a script for many
scenes, of the mode `host`. If a section begins with a link to a script in examples/, its blocks show parts of that script and
its output. If a block begins with `row`, it is a claim, and `check` must say `yes`. Ends with 1 if something differs."""
import glob
import os
import re
import subprocess
import sys

TOP = os.path.join(os.path.dirname(os.path.abspath(__file__)), "..")
PROGRAM = os.path.abspath((sys.argv[1:] or [f"{TOP}/crates/layout/out/layout"])[0])
SVG = os.path.abspath(sys.argv[2]) if sys.argv[2:] else None
TELL = os.path.abspath(sys.argv[3]) if sys.argv[3:] else None
PAGES = ["README.md", "docs/GUIDE.md", "docs/LANGUAGE.md"]
SCREEN = re.compile(r"\[\w+\.script\]\(\.\./(examples/\w+)\.script\)")
WORDS = """layout view tree drop metric window vfl constrain remove suggest release direction size unsize keep undo budget
frames rows diagnose certify why sweep ?""".split()
HOSTED = re.compile(r"[A-Za-z_]\w*: ")


def blocks(page):
    """The indented blocks of a page, each with the number of its first line, and the screen that its section begins with."""
    shown, is_new, block, first = None, False, [], 0
    with open(page, encoding="utf-8") as text:
        lines = text.read().split("\n") + [""]
    for number, line in enumerate(lines, 1):
        if line.startswith("    "):
            first = first if block else number
            block.append(line[4:])
            continue
        if block:
            yield first, shown, block
        block = []
        if line.startswith("## "):
            shown, is_new = None, True
        elif line and is_new:
            link = SCREEN.match(line)
            shown, is_new = link and link[1], False


def cells(line):
    return [cell for cell in re.split(r"  +", line.strip()) if cell]


def script_of(block):
    """What is sent, each line with what is said to come back."""
    script = []
    for line in block:
        if line.startswith(" "):
            script[-1][1].extend(cells(line))
        else:
            sent, *back = cells(line)
            script.append((sent, back))
    return script


def run(mode, text):
    return subprocess.run([PROGRAM, mode], input=text, capture_output=True, text=True, check=False).stdout.split("\n")


def replies(mode, sent):
    """What comes back to each line: a line `?` behind each one marks where its reply ends."""
    found, reply = [], []
    for line in run(mode, "".join(f"{line}\n?\n" for line in sent)):
        if reply and line == "refused 1 syntax 0":
            found.append(reply)
            reply = []
        else:
            reply.append(line)
    return found


def is_shown(sent, shown, reply):
    """Whether a reply is what is shown of it."""
    name = HOSTED.match(sent)
    ok = f"{name[0]}ok" if name else "ok"
    if not shown:
        return reply[-1:] == [ok]
    some = "(.*\n)*"
    pattern = [some if line == ".." else re.escape(f"{line}\n") for line in shown if line != ok]
    pattern = some + some.join(pattern) + some if sent.endswith("frames") else "".join(pattern)
    return re.fullmatch(pattern, "".join(f"{line}\n" for line in reply if line != ok)) is not None


def differences(before, script, mode="run"):
    """What of a script doesn't come back as shown, where that of `before` was sent first."""
    got = replies(mode, [sent for sent, _ in before + script])[len(before):]
    return [(sent, shown, reply) for (sent, shown), reply in zip(script, got) if not is_shown(sent, shown, reply)]


def missing(name, block):
    """What of a block isn't in the script that it shows parts of, or in its output."""
    there = []
    for path in (f"{name}.script", f"{name}.out"):
        with open(path, encoding="utf-8") as text:
            there += text.read().split("\n")
    return [(cell, name, []) for line in block for cell in cells(line) if cell not in there]


def stale_examples():
    """The stored outputs and drawings of examples/ that differ from what the programs give now."""
    commands = [(".script", ".out", [PROGRAM, "run"]), (".check", ".out", [PROGRAM, "check"])]
    commands += [(".out", ".svg", [SVG])] if SVG else []
    stale = []
    for given, wanted, command in commands:
        for path in sorted(glob.glob(f"examples/*{given}")):
            beside = path.removesuffix(given) + wanted
            if wanted == ".svg" and not os.path.exists(beside):
                continue
            with open(path, "rb") as before, open(beside, "rb") as after:
                if subprocess.run(command, stdin=before, capture_output=True, check=False).stdout != after.read():
                    stale.append(beside)
    return stale


def missing_findings():
    """The lines that the guide shows of the findings on its script, and `layout_tell` doesn't print."""
    with open("docs/GUIDE.md", encoding="utf-8") as page:
        section = page.read().partition("## When a line is refused")[2]
    script, shown = ([line[4:] for line in block.split("\n")] for block in re.findall(r"(?m)(?:^    .*\n)+", section)[:2])
    done = subprocess.run([TELL], input="\n".join(script), capture_output=True, text=True, check=False)
    there = done.stdout.split("\n") + [".."]
    return [line for line in shown if line not in there]


def main():
    os.chdir(TOP)
    count, wrong, session = 0, 0, []
    for page in PAGES:
        for number, name, block in blocks(page):
            first = block[0].split(" ")[0]
            if name:
                bad = missing(name, block)
            elif first in WORDS:
                script = script_of(block)
                bad = differences([], script)
                session = session + script if bad else script
                bad = bad and differences(session[: -len(script)], script)
            elif HOSTED.match(block[0]):
                bad = differences([], script_of(block), "host")
            elif block[0].startswith("row 1 "):
                verdict = run("check", "\n".join(block) + "\n")[0]
                bad = [] if verdict == "yes" else [("check", ["yes"], [verdict])]
            else:
                continue
            count += 1
            wrong += bool(bad)
            for sent, shown, reply in bad:
                print(f"{page}:{number}: {sent}\n  shown: {shown}\n  comes: {reply}")
    stale = stale_examples()
    for path in stale:
        print(f"{path}: the program gives something else")
    findings = missing_findings() if TELL else []
    for line in findings:
        print(f"docs/GUIDE.md: layout_tell doesn't print: {line}")
    print(f"{count} blocks, {wrong} not as shown; {len(stale)} files of examples/ not as stored")
    sys.exit(1 if wrong or stale or findings else 0)


main()
