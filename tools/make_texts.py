#!/usr/bin/env python3
"""Makes texts of the grammar, for the table of texts that their trees spell.

make_texts.py > ../crates/sq_cases/data/spelled.txt: reads the grammar in ../docs/LANGUAGE.md and makes texts of each of its
three kinds by random choices from a fixed seed, half of them of what was chosen least. Every choice of the grammar (each alternative, each part that may be
there or not, each repetition none, one and more times) is made at least once, or it ends with those that were not.
"""

import os
import random
import re
import sys

HERE = os.path.dirname(os.path.abspath(__file__))
PROCEDURE = "MODULE M LANGUAGE C AUTHORIZATION U PROCEDURE P SQLCODE;"
# The kind of text, the rule, what stands before and behind its text, and how many are made.
KINDS = (
    ("Schema", "schema-text", "", "", 275),
    ("Module", "module-text", "", "", 250),
    ("Module", "cursor", "MODULE M LANGUAGE C AUTHORIZATION U ", "", 150),
    ("Module", "orientation", PROCEDURE + " FETCH ", " FROM C INTO :P;", 25),
    ("Module", "statement", PROCEDURE, ";", 250),
    ("Module", "condition", PROCEDURE + " DELETE FROM T WHERE ", ";", 150),
    ("Script", "script-text", "", "", 100),
)
WHOLE = ("schema", "module-text", "script-text")
DEEPEST = 32
LEAVES = {
    "name": ["A", "b", "T1", "U_2", "Call", "LONG_NAME_OF_18_CH"],
    "number": ["0", "7", "12.", ".5", "1.50", "123456789012345678"],
    "text": ["''", "'A'", "'it''s'", "'%_ -- '", "''''"],
}


def rules():
    """The grammar as a dictionary from names to nodes."""
    with open(os.path.join(HERE, "..", "docs", "LANGUAGE.md")) as file:
        page = file.read()
    block = re.search(r"## Grammar.*?```\n(.*?)```", page, re.S).group(1)
    found = {}
    for name, body in re.findall(r"^([a-z-]+) +=(.*?)(?=^[a-z-]+ +=|\Z)", block, re.S | re.M):
        words = re.findall(r'"[^"]*"|[A-Za-z-]+|[\[\]{}()|]', body)
        node, rest = choice(words)
        assert not rest, (name, rest)
        found[name] = node
    return found


def choice(words):
    """The node of alternatives at the front of the words, and the words behind it."""
    branches = []
    while True:
        branch, words = sequence(words)
        branches.append(branch)
        if not words or words[0] != "|":
            break
        words = words[1:]
    return (branches[0] if len(branches) == 1 else ("choice", tuple(branches))), words


def sequence(words):
    parts = []
    closing = {"[": "]", "{": "}", "(": ")"}
    while words and words[0] not in "|]})":
        if words[0] in closing:
            inside, rest = choice(words[1:])
            assert rest[0] == closing[words[0]]
            parts.append({"[": ("optional", inside), "{": ("repeated", inside), "(": inside}[words[0]])
            words = rest[1:]
        else:
            parts.append(("word", words[0]))
            words = words[1:]
    return ("sequence", tuple(parts)), words


class Maker:
    """Makes texts, and counts the choices."""

    def __init__(self, grammar):
        self.grammar = grammar
        self.random = random.Random(1992)
        self.times = {}
        self.heights = {}
        for name in grammar:
            self.register(name, grammar[name])
        for _ in grammar:
            for name in grammar:
                self.heights[name] = self.height(grammar[name])

    def register(self, rule, node):
        """Notes each choice of a rule."""
        kind = node[0]
        if kind == "choice":
            for place, branch in enumerate(node[1]):
                self.times[(rule, id(node), place)] = 0
                self.register(rule, branch)
        elif kind == "sequence":
            for part in node[1]:
                self.register(rule, part)
        elif kind in ("optional", "repeated"):
            for place in range(2 if kind == "optional" else 3):
                self.times[(rule, id(node), place)] = 0
            self.register(rule, node[1])

    def height(self, node):
        """How many rules a shortest text of the node goes down."""
        kind = node[0]
        if kind == "word":
            return 1 + self.heights.get(node[1], 99) if node[1] in self.grammar else 0
        if kind == "choice":
            return min(self.height(branch) for branch in node[1])
        if kind == "sequence":
            return max([self.height(part) for part in node[1]] or [0])
        return 0

    def make(self, name):
        """The words of a text of the rule."""
        self.words = []
        self.open = 0
        self.rule(name, self.random.choice((10, 13, 18)))
        return self.words

    def rule(self, name, room):
        self.node(name, self.grammar[name], room)

    def node(self, rule, node, room):
        kind = node[0]
        if kind == "word":
            self.word(node[1], room)
        elif kind == "sequence":
            for part in node[1]:
                self.node(rule, part, room)
        elif kind == "choice":
            places = [p for p, branch in enumerate(node[1]) if self.height(branch) < room]
            if not places:
                least = min(self.height(branch) for branch in node[1])
                places = [p for p, branch in enumerate(node[1]) if self.height(branch) == least]
            place = self.random.choice(places)
            if self.random.random() < 0.5:
                place = min(places, key=lambda p: self.times[(rule, id(node), p)])
            self.times[(rule, id(node), place)] += 1
            self.node(rule, node[1][place], room)
        else:
            self.several(rule, node, room)

    def several(self, rule, node, room):
        if node[0] == "optional":
            count = self.random.choice((0, 0, 1))
        else:
            count = self.random.choice((0, 1, 2, 3, 4) if rule in WHOLE else (0, 0, 0, 1, 1, 2, 3))
        if self.random.random() < 0.5:
            count = min(range(2 if node[0] == "optional" else 3), key=lambda n: self.times[(rule, id(node), n)])
        if self.height(node[1]) >= room or len(self.words) > 60:
            count = 0
        self.times[(rule, id(node), min(count, 2))] += 1
        for _ in range(count):
            self.node(rule, node[1], room)

    def word(self, word, room):
        if word in LEAVES:
            self.words.append(self.random.choice(LEAVES[word]))
        elif word in self.grammar:
            self.rule(word, room - 1)
        else:
            spelled = word.strip('"')
            self.open += {"(": 1, ")": -1}.get(spelled, 0)
            assert self.open <= DEEPEST
            self.words.append(spelled if self.random.random() < 0.8 else spelled.lower())

    def join(self, words):
        """The text of the words, with blanks, lines and comments between them."""
        text = ""
        for word in words:
            if text and not (word in "(),;" or text[-1] in "(),;") or self.random.random() < 0.1:
                text += self.random.choice((" ",) * 12 + ("\\n", "\\t", " -- 'so\\n", "\\r\\n"))
            text += word
        return text


def main():
    maker = Maker(rules())
    print("# Texts of the grammar that their trees spell: the answer, the kind of text, and the text, with a tab between.")
    print("# Made by tools/make_texts.py. Every choice of the grammar is made in them.")
    for kind, rule, front, back, count in KINDS:
        made = set()
        while len(made) < count:
            text = front + maker.join(maker.make(rule)) + back
            if text not in made:
                print("same\t%s\t%s" % (kind, text))
            made.add(text)
    missing = sorted({(rule, place) for (rule, _, place), times in maker.times.items() if times == 0})
    print("%d choices" % len(maker.times), file=sys.stderr)
    if missing:
        sys.exit("choices that were not made: %s" % missing)


if __name__ == "__main__":
    main()
