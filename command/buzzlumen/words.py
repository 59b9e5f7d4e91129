"""Words that a person wrote, shown back to them, and numbers among them."""

from .trouble import Slip

MOST_SHOWN = 60
MOST_NUMBER = 2 ** 32 - 1
KEPT_FOR_THE_FORMAT = frozenset("(),:=#")


def lines_of(text):
    """The lines of a text, whatever ends them: as an editor counts them."""
    lines = text.replace("\r\n", "\n").replace("\r", "\n").split("\n")
    return lines if lines[-1] else lines[:-1]


def printable(text):
    """A text with everything that a terminal would not print written out."""
    return "".join(letter if letter.isprintable() else letter.encode("unicode_escape", "replace").decode()
                   for letter in text)


def shown(text):
    """A person's word or line between quotes, cut where it is long."""
    text = printable(text[:MOST_SHOWN + 1])
    return f"`{text[:MOST_SHOWN]}...`" if len(text) > MOST_SHOWN else f"`{text}`"


def count(number, what):
    """A number of things: 1 value, 2 values."""
    return f"{number:,} {what}" if number == 1 else f"{number:,} {what}s"


def is_digits(word):
    """Whether a word is digits from 0 to 9 and nothing else."""
    return word.isascii() and word.isdigit()


def is_name(word):
    """Whether a word can name a node: no blank in it and no sign that the text of a circuit needs."""
    return word != "" and KEPT_FOR_THE_FORMAT.isdisjoint(word) and word.split() == [word]


def number_in(word, most):
    """The number that a word of digits says, or None where it says none or one over the most."""
    if not is_digits(word):
        return None
    digits = word.lstrip("0") or "0"
    if len(digits) > len(str(most)) or int(digits) > most:
        return None
    return int(digits)


def asked_number(word, what):
    """A 32-bit number that was asked for."""
    number = number_in(word, MOST_NUMBER)
    if number is None:
        raise Slip(f"{what} is a number from 0 to {MOST_NUMBER}, not {shown(word)}")
    return number
