"""Files that are read line by line, and files that appear only when all of them is written."""
import os
import shutil
import sys
import tempfile

from bring.faults import Fault

LONGEST_LINE = 16 * 1024 * 1024


class Input:
    """A file or standard input, in lines. With `again` it can be read more than once, by way of a temporary file where need be."""

    def __init__(self, path, again=False):
        self.name = "standard input" if path == "-" else path
        self.file = sys.stdin.buffer if path == "-" else open(path, "rb")
        self.was_read = False
        if again and not (path != "-" and self.file.seekable()):
            copy = tempfile.TemporaryFile()
            shutil.copyfileobj(self.file, copy)
            self.file = copy
            self.was_read = True

    def lines(self):
        """The lines with their numbers and their ends. A byte order mark before the first is left out."""
        if self.was_read:
            self.file.seek(0)
        self.was_read, number = True, 0
        while raw := self.file.readline(LONGEST_LINE + 1):
            number += 1
            if len(raw) > LONGEST_LINE:
                raise Fault(f"{self.name}:{number}: the line is longer than {LONGEST_LINE} bytes")
            try:
                text = raw.decode("utf-8-sig" if number == 1 else "utf-8")
            except UnicodeDecodeError as wrong:
                raise Fault(f"{self.name}:{number}: byte {wrong.start + 1} of the line isn't UTF-8") from None
            yield number, text


class Outputs:
    """One file or more that are written under other names and get their own at the end; `-` is standard output."""

    def __init__(self, to):
        if to != "-" and os.path.exists(to) and not os.path.isfile(to):
            raise Fault(f"{to}: is there, and isn't a file that can be replaced")
        self.to, self.files = to if to == "-" else os.path.realpath(to), []
        self.shown = to

    def __enter__(self):
        return self

    def __exit__(self, *_):
        for file in self.files:
            file.close()
            if self.to != "-" and os.path.exists(file.name):
                os.unlink(file.name)

    def start(self):
        """A further file, open for bytes."""
        if self.to == "-":
            file = tempfile.TemporaryFile()
        else:
            folder, name = os.path.split(self.to)
            file = tempfile.NamedTemporaryFile(dir=folder or ".", prefix=f".{name}.", delete=False)
        self.files.append(file)
        return file

    @staticmethod
    def numbered(name, at):
        """The name of a file: the first has the name that was given, the next ones have a number before its ending."""
        stem, ending = os.path.splitext(name)
        return name if at == 0 else f"{stem}.{at + 1}{ending}"

    def place(self):
        """Gives the files their names, or writes them to standard output; gives the names."""
        for file in self.files:
            file.flush()
        if self.to == "-":
            for file in self.files:
                file.seek(0)
                shutil.copyfileobj(file, sys.stdout.buffer)
            sys.stdout.buffer.flush()
            return []
        mask = os.umask(0)
        os.umask(mask)
        for at, file in enumerate(self.files):
            os.fchmod(file.fileno(), 0o666 & ~mask)
            os.replace(file.name, self.numbered(self.to, at))
        return [self.numbered(self.shown, at) for at in range(len(self.files))]


def write_whole(to, data):
    """Writes bytes to a file, or to standard output for `-`: all of them or none."""
    with Outputs(to) as outputs:
        outputs.start().write(data)
        outputs.place()
