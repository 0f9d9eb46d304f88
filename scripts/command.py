"""How each script is called: its options, what it says of itself, and one line for whatever goes wrong; where the toolchain is."""
import argparse
import os
import shutil
import subprocess
import sys
from functools import cache
from pathlib import Path


def fail(text):
    """Ends the program with one line on standard error, status 1."""
    print(f"fault: {text}", file=sys.stderr)
    sys.exit(1)


# The status of a check that was skipped; the last line that it prints names the Debian packages that it wants.
SKIPPED = 77


def skip(packages):
    print(", ".join(packages))
    sys.exit(SKIPPED)


@cache
def kit():
    """The folder of the toolchain."""
    if not shutil.which("rt"):
        fail("rt is missing: it is the command of the Rattle toolchain")
    return Path(subprocess.run(["rt", "doc"], stdout=subprocess.PIPE, text=True, check=True).stdout.strip()).parent


class Parser(argparse.ArgumentParser):
    """Options of a script, whose help is the text at its top; a mistake is one line, status 2."""

    def __init__(self, text):
        super().__init__(description=text, formatter_class=argparse.RawDescriptionHelpFormatter, allow_abbrev=False)

    def error(self, message):
        self.exit(2, f"error: {message}; {self.prog} --help says more\n")


def whole(least, most):
    """Reads a whole number within limits, for an option."""

    def read(text):
        if not (text.isascii() and text.isdigit() and len(text) <= 12 and least <= int(text) <= most):
            raise argparse.ArgumentTypeError(f"takes a number of {least} to {most}")
        return int(text)

    return read


def open_streams():
    """Standard streams that are closed are opened on the null device, as gn does."""
    for name, mode in (("stdin", "r"), ("stdout", "w"), ("stderr", "w")):
        if getattr(sys, name) is None:
            setattr(sys, name, open(os.devnull, mode, encoding="utf-8"))


def flush():
    """Writes what is left in the buffer. Where it can't be written it goes nowhere, so that the interpreter's own flush has nothing
    to say."""
    try:
        sys.stdout.flush()
    except OSError:
        os.dup2(os.open(os.devnull, os.O_WRONLY), sys.stdout.fileno())
        raise


def run(main):
    """Runs a script to its end. A reader that goes away ends it in silence, as does an interrupt."""
    open_streams()
    # names of files are said as they are, also where they are no text
    sys.stdout.reconfigure(errors="surrogateescape")
    try:
        try:
            status = main()
        finally:
            flush()
    except BrokenPipeError:
        status = 141
    except KeyboardInterrupt:
        status = 130
    except OSError as error:
        fail(f"{error.filename}: {error.strerror}" if error.filename else error.strerror or str(error))
    sys.exit(status)
