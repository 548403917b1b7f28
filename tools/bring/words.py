"""Names of the input, made names of the statement language."""
import hashlib
import re
import unicodedata

LONGEST_NAME = 192
RESERVED = frozenset("""
    create stable table using tags insert into values delete from where and between is not null select as partition by interval
    sliding session state_window order asc desc limit offset stream drop true false now tbname _wstart _wend
    alter fill group having or in like distinct if union join slimit event_window count_window subtable update delete_mark
    """.split())


def mark_of(text):
    """Eight hexadecimal digits that hang on the whole text."""
    return hashlib.sha256(text.encode()).hexdigest()[:8]


def shortened(word, mark):
    """A word with a mark behind it, within the length of a name."""
    return f"{word[: LONGEST_NAME - 1 - len(mark)]}_{mark}"


def word_of(text, otherwise):
    """The name that is nearest to a text: ASCII letters, digits and `_`, in lower case, not reserved and not too long."""
    plain = "".join(it for it in unicodedata.normalize("NFKD", text) if not unicodedata.combining(it))
    word = re.sub(r"[^A-Za-z0-9_]+", " ", plain).strip().replace(" ", "_").lower() or otherwise
    if word[0].isdigit():
        word = "_" + word
    if word in RESERVED:
        word += "_"
    return word if len(word) <= LONGEST_NAME else shortened(word, mark_of(text))


class Names:
    """Names that are given once each."""

    def __init__(self):
        self.taken = set()

    def give(self, text, otherwise, mark=None):
        """A free name for a text; gives it and whether it is another than the text (case aside).

        Where it is taken it gets a mark, or a number where no mark is given.
        """
        word, number = word_of(text, otherwise), 1
        free = word
        while free in self.taken:
            number += 1
            free = shortened(word, mark if mark and number == 2 else str(number))
        self.taken.add(free)
        return free, free != text.lower()
