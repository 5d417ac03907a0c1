"""Gives operations to kiwi, by its Python binding `kiwisolver`.

    python3 kiwi_peer.py OPERATIONS [read | values | live]

With `read` it only reads the operations, so that the cost of reading can be subtracted. With `values` it prints the values. With
`live` the priorities become strengths by their order, so the window outweighs all of them, and the values are updated after
each change of an edit variable, or after each operation behind a line `count`.
"""
import os
import sys

import kiwisolver as kiwi

WINDOW = 1e8


def strength(priority, weight=1):
    """The three digits of the priority become the three strengths of kiwi's scheme."""
    if priority == 1000:
        return kiwi.strength.required
    return kiwi.strength.create(priority // 100, priority // 10 % 10, priority % 10, weight)


def strengths_by_order(operations):
    """A strength for each priority: each outweighs a thousand of the next weaker one."""
    priorities = {int(words[2]) for words in operations if words[0] in ("add", "change", "edit")} - {1000}
    by_order = {priority: min(1000.0**i, WINDOW / 10) for i, priority in enumerate(sorted(priorities))}
    by_order[1000] = kiwi.strength.required
    return lambda priority, weight=1: by_order[priority] * weight if priority != 1000 else by_order[priority]


class Peer:
    def __init__(self, strength_of=strength):
        self.solver, self.variables, self.rows, self.edits = kiwi.Solver(), {}, {}, {}
        self.strength_of = strength_of

    def constraint(self, words):
        priority, weight, relation, constant, *terms = words
        pairs = zip(terms[::2], terms[1::2])
        terms = [kiwi.Term(self.variables[attribute], float(count)) for attribute, count in pairs]
        total = kiwi.Expression(terms, -float(constant))
        return kiwi.Constraint(total, relation, self.strength_of(int(priority), int(weight)))

    def add(self, row, words):
        self.rows[row] = self.constraint(words)
        self.solver.addConstraint(self.rows[row])

    def edit(self, row, priority, attribute, constant):
        self.edits[row] = self.variables[attribute]
        self.solver.addEditVariable(self.edits[row], WINDOW if priority == "1000" else self.strength_of(int(priority)))
        self.solver.suggestValue(self.edits[row], float(constant))

    def remove(self, row):
        if row in self.edits:
            self.solver.removeEditVariable(self.edits.pop(row))
        else:
            self.solver.removeConstraint(self.rows.pop(row))

    def follow(self, words):
        match words:
            case ["var", attribute]:
                self.variables[attribute] = kiwi.Variable(attribute)
            case ["add", row, *rest]:
                self.add(row, rest)
            case ["change", row, *rest]:
                self.remove(row)
                self.add(row, rest)
            case ["edit", row, priority, attribute, constant]:
                self.edit(row, priority, attribute, constant)
            case ["set", row, constant]:
                self.solver.suggestValue(self.edits[row], float(constant))
            case ["remove", row]:
                self.remove(row)


def resize(operations):
    """Makes what is before `count`, and then each other operation by itself with an update of all values. Without a
    `count` all but the changes of edit variables is made first."""
    peer = Peer(strengths_by_order(operations))
    if ["count"] in operations:
        at = operations.index(["count"])
        first, changes = operations[:at], operations[at + 1 :]
    else:
        first = [words for words in operations if words[0] != "set"]
        changes = [words for words in operations if words[0] == "set"]
    for words in first:
        peer.follow(words)
    peer.solver.updateVariables()
    os.getppid()  # kiwi_alone.py begins to count here
    for words in changes:
        peer.follow(words)
        peer.solver.updateVariables()


def main(path, what):
    with open(path, encoding="utf-8") as text:
        operations = [line.split() for line in text]
    if what == "read":
        return
    if what == "live":
        resize(operations)
        return
    peer = Peer()
    for words in operations:
        peer.follow(words)
    peer.solver.updateVariables()
    for attribute, variable in peer.variables.items():
        value = variable.value()
        if what == "values":
            print("value", attribute, repr(value))


main(sys.argv[1], sys.argv[2] if len(sys.argv) > 2 else "")
