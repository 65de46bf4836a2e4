"""Standard input, output and error of a tool: closed, full, or in another encoding, they end in a line and not in a traceback.

`guard` runs a tool and turns whatever stops it into one line and a status; `read_bytes` and `read_text` read a file or
standard input. This file is read by Pythons that are too old for the tools, too.
"""

import os
import signal
import sys

# The streams that were closed when the tool was started, by number.
CLOSED = set()
NAMES = ("standard input", "standard output", "standard error")


class Unreadable(Exception):
    """A file, or standard input, that can't be read as text; the message names it."""


def prepare():
    """Opens what is closed, so that no file gets its number, and writes texts as UTF-8, on a terminal in its encoding.

    Ctrl-C ends the tool at once, without a word, unless `interruptible` was called.
    """
    if signal.getsignal(signal.SIGINT) is signal.default_int_handler:
        signal.signal(signal.SIGINT, signal.SIG_DFL)
    for number, name in enumerate(("stdin", "stdout", "stderr")):
        try:
            os.fstat(number)
        except OSError:
            CLOSED.add(number)
            os.open(os.devnull, os.O_RDWR)
        if getattr(sys, name) is None:
            setattr(sys, name, open(number, "r" if number == 0 else "w", closefd=False, encoding="utf-8"))
    for stream in (sys.stdout, sys.stderr):
        if stream.isatty():
            stream.reconfigure(errors="backslashreplace")
        else:
            stream.reconfigure(encoding="utf-8", errors="backslashreplace")


def interruptible():
    """Ctrl-C raises KeyboardInterrupt, for a tool that has something to say or to clear away then."""
    signal.signal(signal.SIGINT, signal.default_int_handler)


def complain(name, message):
    """One line on standard error, if anybody hears it."""
    try:
        print("%s: %s" % (name, message), file=sys.stderr, flush=True)
    except OSError:
        silence(sys.stderr)


def silence(stream):
    """What is still held for the stream goes nowhere, so that nothing fails at the end."""
    null = os.open(os.devnull, os.O_WRONLY)
    os.dup2(null, stream.fileno())
    os.close(null)


def flush():
    """Writes what is held for standard output; a fault of it is raised here and not after the end."""
    try:
        sys.stdout.flush()
    except OSError:
        silence(sys.stdout)
        raise


def guard(name, body, known=()):
    """Runs the body and ends with its status: what it can't do is one line and status 1.

    `known` are pairs of exceptions and of their statuses; their texts are written for the person who reads them.
    """
    if 1 in CLOSED:
        complain(name, "standard output is closed")
        return 1
    status, message = 0, None
    try:
        status = body() or 0
        flush()
    except SystemExit as end:
        status = end.code if isinstance(end.code, int) else 1 if end.code else 0
        message = end.code if isinstance(end.code, str) else None
    except KeyboardInterrupt:
        status = 130
    except BrokenPipeError:
        # Who reads has gone, as `head` does, and wants no more.
        status = 1
        silence(sys.stdout)
    except Unreadable as fault:
        status, message = 1, fault
    except OSError as error:
        status = 1
        message = "%s: %s" % (error.filename, error.strerror) if error.filename else error.strerror or error
    except MemoryError:
        status, message = 1, "want of memory"
    except Exception as error:  # noqa: the last resort: a person gets a line, the place of the mistake in it
        status, message = next(((s, error) for kinds, s in known if isinstance(error, kinds)), (1, None))
        if message is None:
            message = mistake(error)
    try:
        flush()
    except OSError as error:
        if not message:
            status, message = 1, "standard output: %s" % error.strerror
    if message:
        complain(name, message)
    return status


def mistake(error):
    """What a mistake of the tool itself says."""
    place = error.__traceback__
    while place.tb_next is not None:
        place = place.tb_next
    where = "%s, line %d" % (os.path.basename(place.tb_frame.f_code.co_filename), place.tb_lineno)
    return "this is a mistake of the tool, in %s: %s: %s" % (where, type(error).__name__, error)


def read_bytes(path):
    """The bytes of a file, `-` for standard input."""
    if path != "-":
        with open(path, "rb") as file:
            return file.read()
    if 0 in CLOSED:
        raise Unreadable("standard input is closed")
    if sys.stdin.isatty():
        print("(reading from the keyboard; Ctrl-D ends it)", file=sys.stderr)
    try:
        return sys.stdin.buffer.read()
    except OSError as error:
        raise Unreadable("standard input: %s" % error.strerror) from None


def read_text(path):
    """The text of a file, `-` for standard input."""
    try:
        return read_bytes(path).decode("utf-8-sig")
    except UnicodeDecodeError as error:
        name = "standard input" if path == "-" else path
        raise Unreadable("%s: byte %d is no UTF-8: this is no text" % (name, error.start + 1)) from None
