"""Runs on a terminal, and what a terminal is shown of lines."""
import os
import pty
import re
import select
import subprocess

from lib.runs import PROGRAM

# The environment without what speaks of terminals.
PLAIN = {name: it for name, it in os.environ.items() if name not in ("COLUMNS", "NO_COLOR")}
COLOURS = {"REFUSED": 31, "TRUNCATED": 31, "FAULT": 31, "FAULTS": 31, "FINDING": 33, "ADVICE": 33, "GOOD": 32}
# What stands before the text of an explanation: a label, or spaces where the text of the line before goes on.
LABEL = re.compile("  [a-z ]{9} (?=.)")
# How many bytes a line has at most that isn't left as it is.
LONGEST = 1024
# How far the lines are indented at most into which one is broken.
DEEPEST = 48


def read_ready(ours):
    """All that can be read of a terminal now."""
    shown = b""
    try:
        while True:
            shown += os.read(ours, 65536)
    except BlockingIOError:
        return shown


def read_terminal(ours, ran):
    """All that a run writes to a terminal whose other end stays open here: a read could else say that nobody writes any more, where the
    last bytes are still to be read."""
    os.set_blocking(ours, False)
    end = os.pidfd_open(ran.pid)
    shown, has_ended = b"", False
    while not has_ended:
        has_ended = end in select.select([ours, end], [], [])[0]
        shown += read_ready(ours)
    os.close(end)
    ran.wait()
    return shown.replace(b"\r\n", b"\n")


def on_terminal(*words, settings=None, stream="stdout"):
    """The status of a run of which that stream is a terminal, and what it writes there."""
    ours, theirs = pty.openpty()
    streams = {"stdout": subprocess.DEVNULL, "stderr": subprocess.DEVNULL, stream: theirs}
    ran = subprocess.Popen([PROGRAM, *words], stdin=subprocess.DEVNULL, env={**PLAIN, **(settings or {})}, **streams)
    shown = read_terminal(ours, ran)
    os.close(theirs)
    os.close(ours)
    return ran.returncode, shown.decode("latin-1")


def piped(*words, settings=None, stream="stdout"):
    """The status of a run into pipes, and what it writes to that one."""
    ran = subprocess.run([PROGRAM, *words], stdin=subprocess.DEVNULL, capture_output=True, check=False, env={**PLAIN, **(settings or {})})
    return ran.returncode, getattr(ran, stream).decode("latin-1")


def columns(text):
    """How many columns a text takes, whose characters are bytes: a character of UTF-8 one, and control bytes none."""
    return sum(it >= " " and not "\x80" <= it < "\xc0" for it in text)


def has_room(width, column):
    """Whether there is room for lines that begin in that column."""
    return column <= DEEPEST and column + 20 <= width


def broken(front, text, name, width):
    """A text broken at words, behind its line's front and a name before that."""
    begun = columns(name) + columns(front)
    indent = begun if has_room(width, begun) else len(front) if has_room(width, len(front)) else 0
    first, *words = re.split("(?<=[^ ]) (?=[^ ])", text)
    shown, column = name + front + first, begun + columns(first)
    for word in words:
        breaks = column + 1 + columns(word) > width
        shown += ("\n" + " " * indent if breaks else " ") + word
        column = (indent if breaks else column + 1) + columns(word)
    return shown


def shown_line(line, width, coloured, named):
    """A line as a terminal shows it."""
    at = line.find(": ") + 2 if named and ": " in line else 0
    name, own = line[:at], line[at:]
    if len(line) > LONGEST:
        return line
    if LABEL.match(own):
        return broken(own[:12], own[12:], name, width) if width else line
    word = re.match("[^\\x00- ]*", own)[0]
    if coloured and word in COLOURS:
        return f"{name}\x1b[{COLOURS[word]}m{word}\x1b[39m{own[len(word):]}"
    return line


def shown_text(text, width=80, coloured=True, named=False):
    """A text as a terminal shows it, line by line."""
    return "\n".join(shown_line(it, width, coloured, named) for it in text.split("\n"))


def help_line(line, width):
    """A line of help as a terminal shows it."""
    at = line.rfind("  ") + 2 if "  " in line else 0
    return line if len(line) > LONGEST else broken(line[:at], line[at:], "", width)


def shown_help(text, width=80):
    """Help as a terminal shows it."""
    return "\n".join(help_line(it, width) for it in text.split("\n"))
