"""Tokens with their places, and the blocks that the layout of the lines makes.

Haskell's layout rule has two parts: a line that begins in the column of its block begins a new item, one further to the
left closes the block; and a block closes before a token that can't go on in it. The second part wants to know what
can go on, which the parser knows. So a `Stream` keeps the columns of the open blocks and hides a token that begins a
line at or before the innermost column; the parser opens blocks, and closes one where an item can't go on.
"""

import re
from dataclasses import dataclass

from fun.messages import Message, Refused

RESERVED = frozenset(
    "case class data default deriving do else foreign if import in infix infixl infixr instance let module newtype of "
    "then type where _".split()
)
RESERVED_SIGNS = frozenset(["..", ":", "::", "=", "\\", "|", "<-", "->", "@", "~", "=>"])
SYMBOLS = r"!#$%&*+./<=>?@\\^|\-~:"

PIECES = re.compile(
    rf"""
    (?P<blank>[ \r\f]+|--+(?![{SYMBOLS}])[^\n]*)
  | (?P<line>\n)
  | (?P<tab>\t)
  | (?P<comment>\{{-)
  | (?P<name>(?:[A-Z][\w']*\.)*[a-z_][\w']*|[A-Z][\w']*(?:\.[A-Z][\w']*)*)
  | (?P<number>\d\w*(?:\.\d\w*)?)
  | (?P<special>[()\[\],;`{{}}])
  | (?P<text>"(?:\\.|[^"\\\n])*"?|'(?:\\.|[^'\\\n])[^'\n]*'?)
  | (?P<sign>[{SYMBOLS}]+)
    """,
    re.VERBOSE | re.ASCII,
)


@dataclass(frozen=True)
class Token:
    """A token. `kind` is name, type (a name with a capital), number, sign, special, text, word (reserved) or end."""

    kind: str
    text: str
    line: int
    column: int
    first: bool  # whether it is the first of its line

    @property
    def at(self):
        """Its place."""
        return (self.line, self.column)

    def __str__(self):
        return "the end of the module" if self.kind == "end" else f"`{self.text}`"


def comment_end(text, start, at):
    """Where the comment `{- .. -}` ends that begins at `start`; comments nest."""
    depth, place = 0, start
    while True:
        found = re.compile(r"\{-|-\}").search(text, place)
        if not found:
            raise Refused([Message(*at, "the comment that begins here has no end: write `-}` behind it")])
        depth += 1 if found.group() == "{-" else -1
        place = found.end()
        if depth == 0:
            return place


def kind_of(group, piece):
    """The kind of the token that a piece of this group is."""
    if group == "name":
        if piece in RESERVED:
            return "word"
        return "type" if piece.rsplit(".", 1)[-1][0].isupper() else "name"
    if group == "sign":
        return "word" if piece in RESERVED_SIGNS else "sign"
    return group


def tokens_of(text):
    """All tokens of a module, and one at its end. A tab goes on to the next column of 8."""
    tokens, place, line, start, shift, first = [], 0, 1, 0, 0, True
    while place < len(text):
        found = PIECES.match(text, place)
        column = place - start + 1 + shift
        if not found:
            sign = text[place]
            raise Refused([Message(line, column, f"`{sign}` is no sign of the language: names have letters, digits, `_` and `'`")])
        group, piece, place = found.lastgroup, found.group(), found.end()
        if group == "line":
            line, start, shift, first = line + 1, place, 0, True
        elif group == "tab":
            shift += (8 - column % 8) % 8
        elif group == "comment":
            end = comment_end(text, found.start(), (line, column))
            breaks = text.count("\n", found.start(), end)
            if breaks:
                line, start, shift, first = line + breaks, text.rfind("\n", 0, end) + 1, 0, True
            place = end
        elif group != "blank":
            tokens.append(Token(kind_of(group, piece), piece, line, column, first))
            first = False
    tokens.append(Token("end", "", line, 0, True))
    return tokens


class Stream:
    """The tokens of a module from left to right, with the columns of the blocks that are open."""

    def __init__(self, text):
        self.tokens = tokens_of(text)
        self.place = 0
        self.columns = []  # the column of each open block, 0 for one in braces
        self.begins = -1  # the token that begins the current item, which is not hidden
        self.closed = None  # the column of the block that was closed last, for messages

    def raw(self, ahead=0):
        """The token here, or one further on, hidden or not."""
        return self.tokens[min(self.place + ahead, len(self.tokens) - 1)]

    def hidden(self, place):
        """Whether the token there is none of the current item, by its column."""
        token = self.tokens[place]
        return bool(self.columns) and token.first and place != self.begins and token.column <= self.columns[-1]

    def peek(self, ahead=0):
        """The token here, or one further on in the same item; an end where the layout ends the item before it."""
        if not ahead:
            token = self.tokens[self.place]
            if token.first and self.hidden(self.place):
                return Token("end", "", token.line, token.column, False)
            return token
        last = min(self.place + ahead, len(self.tokens) - 1)
        for place in range(self.place, last + 1):
            if self.hidden(place):
                token = self.tokens[place]
                return Token("end", "", token.line, token.column, False)
        return self.tokens[last]

    def take(self):
        """The token here, and goes on."""
        token = self.peek()
        if token.kind != "end":
            self.place += 1
        return token

    def block(self, item):
        """The items of a block, each read by `item`, which is called where an item begins."""
        if self.peek().text == "{" and self.peek().kind == "special":
            return self._braced(item)
        token, outer = self.raw(), next((column for column in reversed(self.columns)), 0)
        if token.kind == "end" or token.column <= outer:
            return []
        self.columns.append(token.column)
        items = self._items(item, token.column)
        self.closed = self.columns.pop()
        return items

    def _items(self, item, column):
        items, saved = [], self.begins
        while True:
            token = self.raw()
            begins = token.first and token.column == column and token.kind != "end"
            if token.text == ";" and token.kind == "special" and not self.hidden(self.place):
                self.place += 1
                continue
            if token.first and token.column < column or token.kind == "end":
                break
            if items and not begins and self.tokens[self.place - 1].text != ";":
                break
            if token.text in ("where", "in", "of", "then", "else", ")", "]", ",", "}") and items:
                break
            self.begins = self.place
            items.append(item())
        self.begins = saved
        return items

    def _braced(self, item):
        self.take()
        self.columns.append(0)
        items = []
        while self.peek().text != "}":
            if self.peek().text == ";":
                self.take()
                continue
            items.append(item())
            if self.peek().text not in (";", "}"):
                token = self.peek()
                raise Refused([Message(*token.at, f"{token} can't stand here: `;` or `}}` is wanted")])
        self.take()
        self.columns.pop()
        return items
