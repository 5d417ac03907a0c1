#!/usr/bin/env python3
"""line_by_line.py [PROGRAM..]: runs the program (`PROGRAM.. run`) over pipes, and reports each wrong answer.

It writes a line, waits for its reply, and only then writes the next one. It cuts a script into pieces of 1, 2 and 5 bytes,
and writes lines and inputs near their limits. It closes the output, fills it, and gives an input that can't be read. It
needs the built program, because `rt try` passes on the input as a whole."""
import array
import fcntl
import os
import select
import subprocess
import sys
import termios
import time

HERE = os.path.dirname(os.path.abspath(__file__))
TOP = os.path.dirname(HERE)
PROGRAM = (sys.argv[1:] or [f"{TOP}/crates/layout/out/layout"]) + ["run"]
WAIT = 5
bad = 0


def expect(what, got, wanted):
    global bad
    if got != wanted:
        bad += 1
        print(f"{what}: {got!r}, and not {wanted!r}")


def start():
    return subprocess.Popen(PROGRAM, stdin=subprocess.PIPE, stdout=subprocess.PIPE, bufsize=0)


def reply(program, last):
    """What comes up to a line that begins so."""
    got = b""
    while not got.endswith(b"\n") or not got.splitlines()[-1].startswith(last):
        if not select.select([program.stdout], [], [], WAIT)[0]:
            return got
        more = os.read(program.stdout.fileno(), 65536)
        if not more:
            return got
        got += more
    return got


def give(program, piece):
    """Writes a piece and waits until the program took it, so that the next one comes by another read."""
    program.stdin.write(piece)
    unread = array.array("i", [1])
    while unread[0] and program.poll() is None:
        fcntl.ioctl(program.stdin, termios.FIONREAD, unread)
        time.sleep(0)


def run(pieces):
    program = start()
    try:
        for piece in pieces:
            give(program, piece)
        program.stdin.close()
    except BrokenPipeError:
        pass
    output = program.stdout.read()
    return output, program.wait()


def talks():
    program = start()
    for line, last, wanted in [
        (b"window 300 100\n", b"ok", b"ok\n"),
        (b"view a\n", b"ok", b"ok\n"),
        (b"vfl g H:|-[a]-|\n", b"ok", b"ok\n"),
        (b"view a\n", b"refused", b"refused 3 taken a\n"),
        (b"# no reply\nframes\n", b"ok", b"frame window 0 0 300 100\nframe a 20 0 260 0\nok\n"),
    ]:
        program.stdin.write(line)
        expect(f"the reply to {line!r}", reply(program, last), wanted)
    program.stdin.write(b"und")
    expect("the reply to a line that has not ended", select.select([program.stdout], [], [], 0.2)[0], [])
    program.stdin.close()
    expect("the reply to the last line", program.stdout.read(), b"refused 1 syntax 3\n")
    expect("the status of the talk", program.wait(), 1)


def talks_of_an_example():
    with open(f"{TOP}/examples/login.script", "rb") as script, open(f"{TOP}/examples/login.out", "rb") as out:
        lines, wanted = script.readlines(), out.read()
    program, got = start(), b""
    for line in lines:
        program.stdin.write(line)
        if line.strip() and not line.lstrip().startswith(b"#"):
            got += reply(program, b"ok")
    program.stdin.close()
    expect("the login form line by line", got, wanted)
    expect("the status of the login form", program.wait(), 0)


def cut():
    script = b"window 1 2\nframes\nfra"
    wanted = (b"ok\nframe window 0 0 1 2\nok\nrefused 1 syntax 3\n", 1)
    for size in [1, 2, 5]:
        pieces = [script[at:at + size] for at in range(0, len(script), size)]
        expect(f"a script cut by {size}", run(pieces), wanted)


def limits():
    long, whole = b"refused 4 limit line\n", b""
    for length, end, wanted in [
        (4096, b"\n", whole), (4096, b"\r\n", whole), (4096, b"", whole),
        (4097, b"\n", long), (4097, b"\r\n", long), (4097, b"", long), (4096, b"\r", long),
        (4098, b"\n", long), (4098, b"\r\n", long), (20000, b"\n", long),
    ]:
        line = b"#" * length + end
        status = 1 if wanted else 0
        for size in [1000, len(line)]:
            pieces = [line[at:at + size] for at in range(0, len(line), size)]
            expect(f"{length} bytes and {end!r}, cut by {size}", run(pieces), (wanted, status))
    expect("two lines, the first too long", run([b"#" * 5000 + b"\nframes\n"]),
           (long + b"frame window 0 0 0 0\nok\n", 1))
    expect("a NUL byte", run([b"frames\0\n"]), (b"refused 1 syntax 6\n", 1))
    expect("no UTF-8", run([b"\xff\xfe\n"]), (b"refused 1 syntax 0\n", 1))
    comments = b"#\n" * 524288
    expect("as many comments as there may be", run([comments]), (b"", 0))
    window = b"window 1 2\n"
    rest = b"#\n" * ((1048576 - len(window)) // 2)
    script = window + rest + b"#x"
    expect("one byte too many", (len(script), run([script[:1048577]])), (1048577, (b"ok\n", 6)))
    expect("one long line", run([b"#" * 1048577]), (b"", 6))


def faults():
    program = start()
    program.stdout.close()
    try:
        program.stdin.write(b"frames\n" * 100)
        program.stdin.close()
    except BrokenPipeError:
        pass
    expect("a closed output", program.wait() in (4, -13), True)
    with open("/dev/full", "wb") as full:
        done = subprocess.run(PROGRAM, input=b"frames\n", stdout=full, check=False)
    expect("an output that is full", done.returncode, 4)
    folder = os.open(HERE, os.O_RDONLY)
    done = subprocess.run(PROGRAM, stdin=folder, stdout=subprocess.PIPE, check=False)
    os.close(folder)
    expect("an input that can't be read", (done.stdout, done.returncode), (b"", 3))


talks()
talks_of_an_example()
cut()
limits()
faults()
print("all as it should be" if not bad else f"{bad} not as it should be")
sys.exit(bad > 0)
