"""Lays out the login form, drags its divider, and prints the frames and what moved."""
import sys
from layout import LayoutError, Session, status_name

session, names = Session(), {}


def print_frames(views):
    for view in views:
        if view in names:
            print(" ", names[view], *session.frame(view))


for line in sys.stdin.read().splitlines():
    session.line(line)
    if line.startswith("view "):
        names[session.view(line[5:])] = line[5:]
print("the form, 375 by 667"); print_frames(names)
session.suggest("userLabel", "width", 120)
print("the labels' divider, dragged to 120"); print_frames(session.moved())
session.suggest("userLabel", "width", "501/2")
print("dragged past its limit"); print_frames(session.moved())
session.resize(400, 667)
print("a window of 400 by 667"); print_frames(session.moved())
moved = session.moved()
session.undo()
print("undone"); print_frames(moved)
try:
    session.line("window 100 100")
except LayoutError as refusal:
    print("refused:", refusal.args[1][0])
print("all views")
for view, frame in session.frames().items():
    print(" ", session.name(view), *frame)
session.close()
try:
    session.undo()
except LayoutError as none:
    print(f"status {none.args[0]}: {status_name(none.args[0])}")
