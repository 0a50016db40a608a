"""Game files read into the trees of `definitions`: payoffs along a path are added up at its leaf. It takes files that are in order and
checks nothing."""
import re
from fractions import Fraction

TOKEN = re.compile(r'"((?:[^"]|(?<=\\)")*)"|([{},])|([^\s"{},]+)', re.S)


class Reader:
    """Takes one token after the other; the lists of sets and outcomes are kept for nodes that leave them out."""

    def __init__(self, text):
        self.tokens = [match.group(0) for match in TOKEN.finditer(text)]
        self.at = 3
        self.title = self.take()[1:-1]
        self.braces()
        self.skip_text()
        self.nodes = 0
        self.listed = {}
        self.outcomes = {0: (Fraction(0), Fraction(0))}

    def take(self):
        self.at += 1
        return self.tokens[self.at - 1]

    def skip_text(self):
        if self.at < len(self.tokens) and self.tokens[self.at].startswith('"'):
            self.at += 1

    def braces(self):
        """The tokens of a list in braces, or None where no list stands here."""
        if self.at == len(self.tokens) or self.tokens[self.at] != "{":
            return None
        end = self.tokens.index("}", self.at)
        inside, self.at = self.tokens[self.at + 1 : end], end + 1
        return [token for token in inside if token != ","]

    def listing(self, key):
        """The set's own list of actions, which stands at one of its nodes at least."""
        return self.listed.setdefault(key, self.braces() or self.listed.get(key))

    def outcome(self, paid):
        """What was paid so far and what the outcome here pays."""
        number = int(self.take())
        self.skip_text()
        pays = self.braces()
        if pays:
            self.outcomes[number] = tuple(map(Fraction, pays))
        return tuple(a + b for a, b in zip(paid, self.outcomes[number]))

    def node(self, paid=(0, 0)):
        self.nodes += 1
        kind = self.take()
        self.take()
        if kind == "t":
            return "t", self.outcome(paid)
        mover = int(self.take()) if kind == "p" else 0
        number = int(self.take())
        self.skip_text()
        actions = self.listing((mover, number))
        paid = self.outcome(paid)
        if kind == "c":
            return "c", [(Fraction(probability), self.node(paid)) for probability in actions[1::2]]
        return "p", mover, number, [self.node(paid) for _ in actions]


def read(text):
    """A file's tree and its number of nodes."""
    reader = Reader(text)
    return reader.node(), reader.nodes
