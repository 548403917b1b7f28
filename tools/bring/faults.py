"""Faults: input, words or a file that can't be taken, told in one line; and how a command ends."""
import json
import os
import re
import sys


class Fault(Exception):
    """What can't be taken. Its text is the line that is shown, with the place in front."""


class Bad(Exception):
    """A value that can't be taken. Whoever knows its place makes it a Fault."""


def visible(text):
    """A text on one line, without characters that a terminal doesn't show as they are."""
    return "".join(it if it.isprintable() else f"\\u{ord(it):04x}" for it in text)


def shown(text, most=60):
    """A text of the input in quotes, and not too long."""
    return visible(json.dumps(text if len(text) <= most else text[:most] + "…", ensure_ascii=False))


def named(name):
    """A name of the input: as it stands where it is plain, else in quotes."""
    return name if re.fullmatch(r"[\w.()*-]{1,60}", name) else shown(name)


def count_of(number, thing, things=None):
    """A number with its word: 1 row, 2 rows."""
    return f"{number} {thing if number == 1 else things or thing + 's'}"


def run(name, main):
    """Runs a command; a fault is one line on standard error and exit status 2."""
    try:
        status = main(sys.argv[1:])
        sys.stdout.flush()
        return status
    except Fault as fault:
        said = str(fault)
    except BrokenPipeError:
        os.dup2(os.open(os.devnull, os.O_WRONLY), sys.stdout.fileno())
        said = "standard output was closed"
    except OSError as fault:
        said = f"{fault.filename}: {fault.strerror}" if fault.filename else fault.strerror or str(fault)
    except KeyboardInterrupt:
        said = "interrupted"
    print(f"{name}: {said}", file=sys.stderr)
    return 2
