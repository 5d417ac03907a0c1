"""Writes a script for the program `layout` to standard output.

    python3 bench/scripts.py chain SEED VIEWS     a chain of so many views under a window that is made smaller at the end
    python3 bench/scripts.py made SEED VIEWS      the script that `layout make SEED VIEWS` runs
    python3 bench/scripts.py resize TIMES         the login form of examples/, then so many windows of two sizes in turn
    python3 bench/scripts.py frames TIMES         the same with `frames` after each window
    python3 bench/scripts.py row VIEWS WHAT       a chain, and after it nothing (`none`), one row more (`add`), or one row that
                                                  joins and leaves again (`remove`)
    python3 bench/scripts.py diagnose VIEWS       a chain, `frames` and `diagnose`
    python3 bench/scripts.py drag TIMES           the login form, then so many suggestions of one width, and its release
    python3 bench/scripts.py changes SEED VIEWS   the script of `made` without the `undo` at its end
    python3 bench/scripts.py metric VIEWS TIMES   a chain, two rows that name a metric, and then so many values of it in turn
    python3 bench/scripts.py widths WHAT          the login form in version 2, and after it nothing (`none`), a sweep of its widths
                                                  from 320 to 2000 (`sweep`), or a window of each of these (`windows`)
    python3 bench/scripts.py bends VIEWS WHAT     a row of views with preferred widths, and after it nothing (`none`), or a sweep
                                                  of its widths from 0 to 100 times as many as there are views (`sweep`)
    python3 bench/scripts.py deep VIEWS           a chain, and a row of each of 900 priorities on its widths
    python3 bench/scripts.py flush VIEWS WHAT     a row of views without widths between the window's sides, and after it nothing
                                                  (`none`), or `diagnose`
    python3 bench/scripts.py certify VIEWS        a chain and `certify`
    python3 bench/scripts.py keep VIEWS NUMBER    a chain, and `keep` of the view of this number
    python3 bench/scripts.py live WIDGETS STEP    a form of so many widgets, half labels and half fields, then windows that make it
                                                  narrower and wider again by so many points each
    python3 bench/scripts.py largest BYTES        of so many bytes: as many views as a session holds, wishes of eight widths each in
                                                  half of them, and windows of two sizes in turn

A chain has for each view a format with an optional width, for each two neighbours a format that stacks them and an optional
constraint between their widths. Its numbers come from a linear congruence, so that the same words give the same script.
"""
import os
import sys

MODULUS = 2 ** 64


def draws(seed):
    """A function that draws the next number below its argument."""
    state = seed

    def draw(below):
        nonlocal state
        state = (5 * state + 7) % MODULUS
        return state // 4 % below

    return draw


def chain(draw, views):
    yield "window 1000 1000"
    for i in range(1, views + 1):
        yield f"view v{i}"
    for i in range(1, views + 1):
        left, width, priority = draw(50), 10 + draw(200), 100 + draw(800)
        yield f"vfl h{i} H:|-{left}-[v{i}({width}@{priority})]"
    for i in range(2, views + 1):
        yield f"vfl t{i} V:[v{i - 1}({10 + draw(90)})]-8-[v{i}]"
    for i in range(2, views + 1):
        more, priority = draw(20), 100 + draw(800)
        yield f"constrain e{i} v{i}.width >= v{i - 1}.width + {more} @{priority}"
    yield "window 800 600"


def changes(seed, views):
    draw = draws(seed)
    yield from chain(draw, views)
    for i in range(1, views + 1):
        yield f"suggest v{i}.width {50 + draw(100)}"


def made(seed, views):
    yield from changes(seed, views)
    yield "undo"


def resize(times, after):
    examples = os.path.join(os.path.dirname(os.path.abspath(__file__)), "..", "examples")
    with open(os.path.join(examples, "login.script"), encoding="utf-8") as script:
        for line in script:
            yield line.rstrip("\n")
    for i in range(times):
        yield "window 320 480" if i % 2 == 0 else "window 375 667"
        yield from after
    yield "frames"


def row(views, what):
    yield from chain(draws(1), views)
    if what in ("add", "remove"):
        yield f"constrain extra v{views // 2}.width == 77 @950"
    if what == "remove":
        yield "remove extra"
    yield "frames"


def diagnose(views):
    yield from row(views, "none")
    yield "diagnose"


def drag(times):
    yield from resize(0, [])
    for i in range(times):
        yield f"suggest cancel.width {100 + i % 50}"
    yield "release cancel.width"
    yield "frames"


def metric(views, times):
    yield from chain(draws(1), views)
    yield "metric gap 8"
    yield f"constrain gaps v{views // 2}.width == 3*gap @950"
    yield f"constrain gaps v{views - 1}.width == 4*gap @950"
    for i in range(times):
        yield f"metric gap {9 + i % 20}"
    yield "frames"


def widths(what):
    yield "layout 2"
    yield from resize(0, [])
    if what == "sweep":
        yield "sweep width 320 2000"
    if what == "windows":
        for width in range(320, 2001):
            yield f"window {width} 480"


def bends(views, what):
    draw = draws(1)
    yield "layout 2"
    yield f"window {40 * views} 600"
    for i in range(1, views + 1):
        yield f"view v{i}"
    row = "-4-".join(f"[v{i}(>={5 + draw(11)},{20 + draw(41)}@{100 + draw(801)})]" for i in range(1, views + 1))
    yield f"vfl r H:|-0-{row}-(>=0)-|"
    if what == "sweep":
        yield f"sweep width 0 {100 * views}"


def deep(views):
    yield from chain(draws(1), views)
    for priority in range(1, 901):
        yield f"constrain p{priority} v{1 + priority % views}.width == {priority % 130} @{priority}"
    yield "frames"


def flush(views, what):
    yield "window 1000 600"
    for i in range(1, views + 1):
        yield f"view v{i}"
    yield "vfl r H:|" + "".join(f"[v{i}]" for i in range(1, views + 1)) + "|"
    if what == "diagnose":
        yield "diagnose"


def keep(views, number):
    yield "layout 2"
    yield from chain(draws(1), views)
    yield f"keep v{number}"
    yield "frames"


def wish(draw, number, views):
    terms = " + ".join(f"{1 + draw(9)}*v{1 + draw(views)}.width" for _ in range(8))
    return f"constrain w{number} {terms} == {draw(3000)} @{1 + draw(900)}"


def largest(size):
    draw, views, length, number = draws(1), 199, 0, 0
    for line in flush(views, "none"):
        length += len(line) + 1
        yield line
    while length < size:
        number += 1
        is_wish = length < size // 2
        line = wish(draw, number, views) if is_wish else f"window {1000 + number % 2} 600"
        length += len(line) + 1
        if length <= size:
            yield line


def widget(name, width, height, least):
    yield f"view {name}"
    yield f"size {name} {width} {height} hug 300 resist 700"
    yield f"metric {name}_w {least}"
    yield f"constrain {name}_m {name}.width >= {name}_w"


def form(rows):
    """Rows of a label and a field. All labels are as wide as the first, and the rows stand below each other."""
    for i in range(rows):
        yield from widget(f"l{i}", 40 + i * 7 % 50, 17, 20)
        yield from widget(f"f{i}", 160, 30, 60)
    for i in range(rows):
        yield f"vfl row{i} H:|-12-[l{i}(==l0)]-6-[f{i}]-12-|"
        yield f"vfl row{i} V:[f{i - 1}]-6-[f{i}]" if i else "vfl row0 V:|-12-[f0]"
        yield f"constrain row{i} l{i}.centerY == f{i}.centerY"
    yield f"constrain bottom f{rows - 1}.bottom <= window.bottom - 12"


def live(widgets, step):
    rows = widgets // 2
    width, height, turn = 600, 40 * rows + 100, 488 // step
    yield "layout 2"
    yield from form(rows)
    yield f"window {width} {height}"
    for i in range(2 * turn):
        yield f"window {width} {height}"
        width += -step if i + 1 < turn else step


def main(words):
    match words:
        case ["chain", seed, views]:
            lines = [*chain(draws(int(seed)), int(views)), "frames"]
        case ["made", seed, views]:
            lines = made(int(seed), int(views))
        case ["changes", seed, views]:
            lines = changes(int(seed), int(views))
        case ["resize", times]:
            lines = resize(int(times), [])
        case ["frames", times]:
            lines = resize(int(times), ["frames"])
        case ["row", views, ("none" | "add" | "remove") as what]:
            lines = row(int(views), what)
        case ["diagnose", views]:
            lines = diagnose(int(views))
        case ["drag", times]:
            lines = drag(int(times))
        case ["metric", views, times]:
            lines = metric(int(views), int(times))
        case ["widths", ("none" | "sweep" | "windows") as what]:
            lines = widths(what)
        case ["bends", views, ("none" | "sweep") as what]:
            lines = bends(int(views), what)
        case ["deep", views]:
            lines = deep(int(views))
        case ["flush", views, ("none" | "diagnose") as what]:
            lines = flush(int(views), what)
        case ["certify", views]:
            lines = [*chain(draws(1), int(views)), "certify"]
        case ["keep", views, number]:
            lines = keep(int(views), int(number))
        case ["live", widgets, step]:
            lines = live(int(widgets), int(step))
        case ["largest", size]:
            lines = largest(int(size))
        case _:
            sys.exit(__doc__)
    sys.stdout.writelines(line + "\n" for line in lines)


main(sys.argv[1:])
