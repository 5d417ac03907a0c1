"""Counts the instructions of kiwi's C++ alone, inside the process of its Python binding.

    python3 kiwi_alone.py OPERATIONS [live]

It runs kiwi_peer.py over the operations under valgrind's callgrind, with the same python3, and adds up the costs of the
solver's methods with everything that they call, by the calls from outside the binding's module. The module has no symbols, so
the beginning of a method is read from its table of methods, where each name is before its address. The work of python, and
the making of terms and constraints, isn't counted. With `live` kiwi_peer.py
runs with it too, and only what it makes with an update after each operation is counted.
"""
import os
import re
import struct
import subprocess
import sys
import tempfile

import kiwisolver

SOLVER = {
    "addConstraint",
    "removeConstraint",
    "addEditVariable",
    "removeEditVariable",
    "suggestValue",
    "updateVariables",
}
SEGMENT = "<IIQQQQQQ"
LOADED = 1


def module_path():
    folder = os.path.dirname(kiwisolver.__file__)
    names = (name for name in os.listdir(folder) if re.fullmatch(r"_cext\..*\.so", name))
    return os.path.join(folder, next(names))


def segments(data):
    """Where each part of the file stands in memory, in the file, and how long it is there."""
    start, count = struct.unpack_from("<Q", data, 32)[0], struct.unpack_from("<H", data, 56)[0]
    heads = (struct.unpack_from(SEGMENT, data, start + struct.calcsize(SEGMENT) * i) for i in range(count))
    return [(head[3], head[2], head[5]) for head in heads if head[0] == LOADED]


def text_at(data, parts, address):
    for memory, place, length in parts:
        if memory <= address < memory + length:
            at = address - memory + place
            return data[at : data.index(b"\0", at)].decode("latin-1")
    return ""


def relocations(path):
    lines = subprocess.run(["readelf", "-rW", path], capture_output=True, text=True, check=True).stdout.splitlines()
    words = (line.split() for line in lines)
    return {int(w[0], 16): int(w[3], 16) for w in words if len(w) >= 4 and w[2] == "R_X86_64_RELATIVE"}


def methods(path):
    """The name of the method that begins at each address."""
    with open(path, "rb") as file:
        data = file.read()
    parts, pointers = segments(data), relocations(path)
    names = {}
    for place, address in pointers.items():
        name = text_at(data, parts, address)
        if place + 8 in pointers and re.fullmatch(r"[A-Za-z_]\w*", name):
            names.setdefault(pointers[place + 8], name)
    return names


class Names:
    """Callgrind's names: each is written once, and then by its number."""

    def __init__(self):
        self.known = {}

    def of(self, text):
        number, name = re.match(r"\((\d+)\)(?: (.*))?", text).groups()
        if name:
            self.known[number] = name
        return self.known[number]


def calls_into(lines, module):
    """Of each call from outside the module into it: the function, and the instructions with all that it calls."""
    objects, functions = Names(), Names()
    here = there = called = None
    is_call = False
    for line in lines:
        key, _, rest = line.rstrip("\n").partition("=")
        if key == "ob":
            here = objects.of(rest)
        elif key == "fn":
            functions.of(rest)
            there = None
        elif key == "cob":
            there = objects.of(rest)
        elif key == "cfn":
            called = functions.of(rest)
        elif key == "calls":
            is_call = True
        elif is_call:
            if (there or here) == module != here:
                yield called, int(line.split()[-1])
            is_call, there = False, None


def address_of(name):
    """Where a function begins that has no symbol, and so is written by its address."""
    found = re.match(r"0x[0-9a-f]+", name)
    return int(found.group(), 16) if found else None


def main(operations, *what):
    module = module_path()
    names = methods(module)
    peer = os.path.join(os.path.dirname(os.path.abspath(__file__)), "kiwi_peer.py")
    with tempfile.TemporaryDirectory() as room:
        counted = os.path.join(room, "callgrind")
        words = ["valgrind", "--tool=callgrind", f"--callgrind-out-file={counted}"]
        if what:
            words.append("--dump-before=getppid")  # what was counted before goes into another file
        subprocess.run([*words, sys.executable, peer, operations, *what], capture_output=True, check=True)
        with open(counted, encoding="utf-8") as lines:
            calls = list(calls_into(lines, os.path.realpath(module)))
    print(sum(cost for name, cost in calls if names.get(address_of(name)) in SOLVER))


main(*sys.argv[1:])
