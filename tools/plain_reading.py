"""What docs/LANGUAGE.md says of a text before anything is asked of its meaning: its tokens, or their first fault; and whether the
grammar has it, or which of its tokens is the first that cannot follow. Words, limits and grammar are those of the page.
`hostile_texts.py` holds the program against this.
"""

import re
from functools import lru_cache
from pathlib import Path
from typing import NamedTuple

from make_texts import rules

PAGE = (Path(__file__).resolve().parent.parent / "docs/LANGUAGE.md").read_text()
RESERVED = frozenset(re.search(r"words are reserved.*?```\n(.*?)```", PAGE, re.S).group(1).split())
LONGEST_WORD, MOST_DIGITS, LONGEST_TEXT = 18, 18, 240
BLANKS = b" \t\r\n"
PIECE = re.compile(rb"(?P<word>[A-Za-z][A-Za-z0-9_]*)|(?P<number>[0-9]+\.?[0-9]*|\.[0-9]+)|(?P<symbol><>|<=|>=|[(),;.:*+\-/=<>])")
STARTS = {"schema": "schema-text", "module": "module-text", "script": "script-text"}


class Refusal(Exception):
    """A refusal of a text: its name, and the byte where it lies."""

    def __init__(self, name, at):
        super().__init__(name, at)
        self.name, self.at = name, at


class Token(NamedTuple):
    """A token: what the grammar may call it, its spelling in upper case, and its first byte."""

    called: frozenset
    spelled: str
    at: int


def behind_comment(text, at):
    while at < len(text) and text[at] != 10:
        if not (32 <= text[at] <= 126 or text[at] in BLANKS):
            raise Refusal("BadByte", at)
        at += 1
    return at


def behind_literal(text, start):
    """The place behind the literal that begins at a quote."""
    at, length = start + 1, 0
    while text[at : at + 1] != b"'" or text[at : at + 2] == b"''":
        if at >= len(text) or text[at] in b"\r\n":
            raise Refusal("OpenText", start)
        if not 32 <= text[at] <= 126:
            raise Refusal("BadByte", at)
        at += 2 if text[at] == 39 else 1
        length += 1
    if length > LONGEST_TEXT:
        raise Refusal("LongText", start)
    return at + 1


@lru_cache(maxsize=None)
def called(kind, spelled):
    """What the grammar may call a word, a number, a text or a symbol."""
    if kind == "word":
        return frozenset([spelled] if spelled in RESERVED else ["name", spelled])
    return frozenset([f'"{spelled}"' if kind == "symbol" else kind])


def token(kind, spelled, at):
    if kind == "word":
        if len(spelled) > LONGEST_WORD:
            raise Refusal("LongName", at)
    elif kind == "number" and sum(map(str.isdigit, spelled)) > MOST_DIGITS:
        raise Refusal("LongNumber", at)
    return Token(called(kind, spelled), spelled, at)


def tokens_of(text):
    """The tokens of a text, or its first fault as a `Refusal`."""
    tokens, at = [], 0
    while at < len(text):
        piece = PIECE.match(text, at)
        if text[at] in BLANKS:
            at += 1
        elif text[at : at + 2] == b"--":
            at = behind_comment(text, at)
        elif text[at] == 39:
            end = behind_literal(text, at)
            tokens.append(Token(called("text", ""), "", at))
            at = end
        elif piece is None:
            raise Refusal("BadByte", at)
        else:
            found = token(piece.lastgroup, piece.group().decode().upper(), at)
            if piece.lastgroup == "number" and text[piece.end() : piece.end() + 1].isalpha():
                raise Refusal("NumberThenLetter", at)
            tokens.append(found)
            at = piece.end()
    return tokens


class Productions:
    """The grammar with a plain list of words for each alternative: a part that may be left out or repeated is a rule of its own."""

    def __init__(self, grammar):
        self.of = {}
        for name, node in grammar.items():
            self.add(name, node)
        self.empty = set()
        while more := {name for name, found in self.of.items() if any(self.empty.issuperset(words) for words in found)} - self.empty:
            self.empty |= more

    def add(self, name, node):
        branches = node[1] if node[0] == "choice" else (node,)
        self.of[name] = ()
        self.of[name] = tuple(self.words(branch) for branch in branches)
        return (name,)

    def words(self, node):
        kind, inside = node
        if kind == "word":
            return (inside,)
        if kind == "sequence":
            return tuple(word for part in inside for word in self.words(part))
        name = f"part {len(self.of)}"
        if kind == "choice":
            return self.add(name, node)
        self.of[name] = ()
        words = self.words(inside)
        self.of[name] = ((), (name, *words) if kind == "repeated" else words)
        return (name,)


GRAMMAR = Productions(rules())


class Front:
    """All that may be read where so many tokens are read (Earley's sets): rules that have begun at a front, and how far each is."""

    def __init__(self, place, items):
        self.place, self.items, self.waiting = place, set(), {}
        self.unseen = list(items)

    def add(self, item):
        if item not in self.items:
            self.items.add(item)
            self.unseen.append(item)

    def close(self, fronts):
        """Adds what begins here and what ends here; `fronts` are those before."""
        todo, self.unseen = self.unseen, []
        self.items.update(todo)
        self.unseen = todo
        while self.unseen:
            name, words, done, begun = self.unseen.pop()
            if done == len(words):
                before = self if begun == self.place else fronts[begun]
                for above in list(before.waiting.get(name, ())):
                    self.add(moved(above))
            else:
                self.expect(words[done], (name, words, done, begun))
        return self

    def expect(self, word, item):
        self.waiting.setdefault(word, []).append(item)
        for words in GRAMMAR.of.get(word, ()):
            self.add((word, words, 0, self.place))
        if word in GRAMMAR.empty:
            self.add(moved(item))

    def after(self, token, fronts):
        """What may be read behind one more token, where `fronts` are those up to this one; none if it cannot follow."""
        items = [moved(item) for called in token.called if called not in GRAMMAR.of for item in self.waiting.get(called, ())]
        return Front(self.place + 1, items).close(fronts) if items else None

    def ends(self, start):
        """Whether a text of the grammar may end here."""
        return any(name == start and done == len(words) and begun == 0 for name, words, done, begun in self.items)


def moved(item):
    name, words, done, begun = item
    return name, words, done + 1, begun


class Reading:
    """How texts of one kind are read. What was read for the last text is used again as far as the next has the same tokens."""

    def __init__(self, kind):
        self.start = STARTS[kind]
        first = Front(0, [(self.start, words, 0, 0) for words in GRAMMAR.of[self.start]])
        self.fronts, self.tokens, self.text = [first.close([])], [], b""

    def tokens_of(self, text):
        """The tokens of a text of the grammar; else its refusal is raised."""
        tokens = self.tokens if text == self.text else tokens_of(text)
        same = 0
        while same < min(len(tokens), len(self.tokens)) and tokens[same].called == self.tokens[same].called:
            same += 1
        fronts = self.fronts[: same + 1]
        for found in tokens[same:]:
            front = fronts[-1].after(found, fronts)
            if front is None:
                raise Refusal("Unexpected", found.at)
            fronts.append(front)
        if len(tokens) > len(self.tokens):
            self.fronts, self.tokens, self.text = fronts, tokens, text
        if not fronts[-1].ends(self.start):
            raise Refusal("EndOfText", tokens[-1].at if tokens else 0)
        return tokens
