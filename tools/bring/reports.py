"""Reports of the program: read whole, and checked against their form (docs/FORMATS.md)."""
import re
from dataclasses import dataclass, field
from fractions import Fraction

from bring.faults import Fault, count_of, shown, visible

REPLY = re.compile(r"([1-9][0-9]?)\.([1-9][0-9]*) (.*)")
ANSWER = re.compile(r"answer ([0-9]+) rows ([0-9]+)")
REFUSED = re.compile(r"refused ([0-9]+) ([A-Z].*)")
FAILED = re.compile(r"store fault(?: halt [0-9]+)?|damaged [0-9]+ [0-9]+|no memory|stopped [0-9]+")
FINE = re.compile(r"accepted [0-9]+(?: rows [0-9]+| edge [0-9]+)?|opened [0-9]+|closed|committed [0-9]+|nothing|merged [0-9]+|"
                  r"swept [0-9]+|asked")
STREAM = re.compile(r"stream [a-z0-9_]+ upto [0-9]+")
JOURNAL = re.compile(r"[0-9]+ (?:0|[0-9]+\.[0-9]+) [0-9]+(?: halt| step .*)?")
STATEMENT = re.compile(r"([1-9][0-9]?):[ \t]*(.*)")
CELL = re.compile(r"(NULL)|(true|false)|(-?[0-9]+)(?:/([0-9]+))?|'((?:[^']|'')*)'")


class Average(Fraction):
    """An average: its quotient, which keeps the sum and the count as the report has them."""

    def __new__(cls, total, count):
        made = super().__new__(cls, total, count)
        made.text = f"{total}/{count}"
        return made


@dataclass
class Reply:
    """A reply: to which statement, in which line of the report, what it says; and, of an answer, its header and rows.

    A cell is None, a bool, an int, an Average or a text."""
    session: int
    ordinal: int
    line: int
    said: str
    form: str = "fine"
    version: int = 0
    header: list = field(default_factory=list)
    rows: list = field(default_factory=list)

    @property
    def who(self):
        return f"{self.session}.{self.ordinal}"


class Lines:
    """The lines of a report, one after another."""

    def __init__(self, source):
        self.name, self.lines, self.number = source.name, source.lines(), 0

    def next(self, wanted):
        """The next line; where there is none, the report is only a beginning."""
        self.number, text = next(self.lines, (self.number + 1, None))
        if text is None or not text.endswith("\n"):
            raise self.fault(f"the report ends here, and {wanted} is missing")
        return text[:-1]

    def fault(self, text):
        return Fault(f"{self.name}:{self.number}: {text}")


def cells_of(text):
    """The cells of a row, or None where the text isn't one."""
    cells, at = [], 0
    while True:
        found = CELL.match(text, at)
        if not found:
            return None
        null, truth, number, count, quoted = found.groups()
        if count is not None and int(count) == 0:
            return None
        if null:
            cells.append(None)
        elif truth:
            cells.append(truth == "true")
        elif number:
            cells.append(int(number) if count is None else Average(int(number), int(count)))
        else:
            cells.append(quoted.replace("''", "'"))
        at = found.end()
        if at == len(text):
            return cells
        if text[at] != ",":
            return None
        at += 1


def read_answer(reply, rows, lines):
    """The header and the rows of an answer."""
    reply.header = lines.next("the header of an answer").split(",")
    for _ in range(rows):
        text = lines.next("a row of an answer")
        cells = cells_of(text)
        if cells is None:
            raise lines.fault(f"{shown(text)} is no row of an answer")
        if len(cells) != len(reply.header):
            columns = count_of(len(reply.header), "column")
            raise lines.fault(f"the row has {count_of(len(cells), 'cell')}, and the header has {columns}")
        reply.rows.append(cells)


def read_reply(found, lines):
    """A reply, with the rows that follow it."""
    reply = Reply(int(found.group(1)), int(found.group(2)), lines.number, found.group(3))
    answer, refused = ANSWER.fullmatch(reply.said), REFUSED.fullmatch(reply.said)
    if answer:
        reply.form, reply.version = "answer", int(answer.group(1))
        read_answer(reply, int(answer.group(2)), lines)
    elif refused:
        reply.form, reply.version, reply.said = "refused", int(refused.group(1)), refused.group(2)
    elif FAILED.fullmatch(reply.said):
        reply.form = "failed"
    elif not FINE.fullmatch(reply.said):
        raise lines.fault(f"{shown(reply.said)} is no reply")
    return reply


def read_report(source):
    """The replies of a whole report, in their order."""
    lines = Lines(source)
    text = lines.next("the line `base`")
    if not re.fullmatch(r"base [0-9]+", text):
        raise lines.fault(f"{shown(text)} isn't the line `base` with which a report begins")
    replies = []
    text = lines.next("a reply or the journal")
    while found := REPLY.fullmatch(text):
        replies.append(read_reply(found, lines))
        text = lines.next("a reply or the journal")
    while STREAM.fullmatch(text):
        text = lines.next("the journal")
    if not re.fullmatch(r"journal [0-9]+", text):
        raise lines.fault(f"{shown(text)} is no line of a report")
    for _ in range(int(text.split(" ")[1])):
        text = lines.next("a line of the journal")
        if not JOURNAL.fullmatch(text):
            raise lines.fault(f"{shown(text)} is no line of a journal")
    for lines.number, text in lines.lines:
        raise lines.fault(f"{shown(text.rstrip())} follows the end of the report")
    return replies


def read_statements(source):
    """The statements of a script by session and ordinal: the line and the text of each."""
    found, counts = {}, {}
    for number, text in source.lines():
        statement = STATEMENT.fullmatch(text.rstrip("\n").removesuffix("\r"))
        if statement:
            session = int(statement.group(1))
            counts[session] = counts.get(session, 0) + 1
            found[session, counts[session]] = (number, statement.group(2))
        elif text.strip() not in ("", "----") and not text.startswith("#"):
            raise Fault(f"{source.name}:{number}: {shown(text.rstrip())} is no line of a script")
    return found


def troubles(replies, source=None):
    """A line for each statement that was refused or failed, with its place in the script where the script is given."""
    statements = read_statements(source) if source else {}
    told = []
    for reply in replies:
        at = statements.get((reply.session, reply.ordinal))
        if source and at is None:
            raise Fault(f"{source.name}: there is no statement {reply.who}, to which the report has a reply in line {reply.line}; "
                        "is it another script's report?")
        place, text = (f"{source.name}:{at[0]}: ", f": {visible(at[1][:200])}") if at else ("", "")
        if reply.form == "refused":
            told.append(f"{place}{reply.who} refused at version {reply.version}: {visible(reply.said)}{text}")
        elif reply.form == "failed":
            told.append(f"{place}{reply.who} {reply.said}{text}")
    return told


def chosen(replies, who, name, many):
    """The one answer that is meant: that to a statement, or the only one. None where it was refused, or where none was asked.

    `many` says what to do where there are several."""
    if who is not None:
        reply = next((it for it in replies if it.who == who), None)
        if reply is None:
            raise Fault(f"{name}: there is no reply to statement {who}")
        if reply.form == "fine":
            raise Fault(f"{name}:{reply.line}: statement {who} has no answer: {reply.said}")
        return reply if reply.form == "answer" else None
    answers = [it for it in replies if it.form == "answer"]
    if len(answers) > 1:
        listed = ", ".join(it.who for it in answers[:10]) + (", ..." if len(answers) > 10 else "")
        raise Fault(f"{name}: the report has {len(answers)} answers ({listed}): {many}")
    return answers[0] if answers else None


def decimal_of(number, digits=6):
    """A number as a decimal text, rounded to so many digits behind the point where it is none of fewer."""
    scaled = round(number * 10**digits)
    whole, rest = divmod(abs(scaled), 10**digits)
    text = f"{whole}.{rest:0{digits}}".rstrip("0").rstrip(".")
    return f"-{text}" if scaled < 0 else text
