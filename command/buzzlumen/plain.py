"""Reads the command's words where they are plain, without argparse, whose loading takes longer than most answers.

Plain is the name of a subcommand and behind it, all written out: its options, each with its value behind it where it
takes one, and its other words, in any place. What is not plain is left to argparse (tree.py), which reads more ways of
writing, prints help and says what is wrong. What is plain argparse would read in the same way; of words with options
between them, as `times a.txt --arrivals b=3 0,1`, that is so once the words stand together.
"""

from .arguments import COMMANDS


class Asked:
    """What was asked: an attribute for each argument."""

    def __init__(self, values):
        self.__dict__.update(values)


class Arguments:
    """What one subcommand takes, as arguments.py tells it."""

    def __init__(self):
        # By the words for an option its name: of those that stand alone, and of those with one value behind them.
        self.flags, self.valued = {}, {}
        # The other arguments, each with how many words it takes, and what options are where they are not written.
        self.places, self.defaults = [], {}

    def add_argument(self, *names, action=None, nargs=None, **_):
        """A further argument. An option with several values is known and not read here."""
        name = names[-1].lstrip("-").replace("-", "_")
        if not names[0].startswith("-"):
            self.places.append((name, nargs))
            return
        self.defaults[name] = False if action == "store_true" else None
        if nargs is None:
            (self.flags if action == "store_true" else self.valued).update(dict.fromkeys(names, name))

    def add_mutually_exclusive_group(self):
        """Options that exclude one another are known and not read here."""
        group = Arguments()
        group.defaults = self.defaults
        return group

    def read(self, words):
        """The value of each argument by its name; None where the words are not plain."""
        values, row = dict(self.defaults), []
        words = iter(words)
        for word in words:
            if not word.startswith("-"):
                row.append(word)
                continue
            if word in self.flags:
                values[self.flags[word]] = True
                continue
            value = next(words, "-")
            if word not in self.valued or value.startswith("-"):
                return None
            values[self.valued[word]] = value
        return self.share_out(row, values)

    def share_out(self, row, values):
        """Give each argument that is no option its words of the row; None where they are too few or too many."""
        for name, nargs in self.places:
            if nargs in ("*", "+"):
                if nargs == "+" and not row:
                    return None
                values[name], row = row, []
            elif row:
                values[name], row = row[0], row[1:]
            elif nargs == "?":
                values[name] = None
            else:
                return None
        return values if not row else None


def read_plain(words):
    """What plain words ask; None where they are not plain."""
    told = {}

    def add(name, _says, _example):
        told[name] = Arguments()
        return told[name]

    for command in COMMANDS:
        command(add)
    values = told[words[0]].read(words[1:]) if words and words[0] in told else None
    return None if values is None else Asked({"command": words[0], **values})
