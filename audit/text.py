"""Tokens of AADL texts, and what is common to both grammars (docs/PROFILE.md, "Tokens")."""

import re

NAMES = {
    "L1": "BadByte", "L2": "OpenString", "L3": "OpenAnnex", "M1": "FileTooLong",
    "M2": "TooManyFiles", "M3": "TooNested", "M4": "TooManyComponents", "M5": "TooDeep",
    "M6": "TooManyFacts", "M7": "TooManyEvents", "M8": "TooManyTypes", "M10": "SliceTooLarge",
    "M11": "TooManySliceEvents", "M13": "TooMuchText", "N1": "DuplicateUnit",
    "N2": "UnknownPackage", "N3": "UnknownClassifier", "N4": "CyclicExtends",
    "N5": "UnknownMember", "N6": "DuplicateName", "N7": "UnknownType", "N8": "CyclicType",
    "N9": "UnknownPoint", "N10": "NotContained", "N11": "UnknownState",
    "N12": "UnknownTrigger", "N13": "UnknownSubcomponent", "N14": "UnknownEnd",
    "N15": "UnknownMachine", "P1": "Prototype", "P2": "Array", "P3": "FeatureGroup",
    "P4": "TypeProduct", "P5": "OrLess", "P6": "NoErrorCondition", "P7": "Others",
    "P8": "Recovery", "P9": "ConnectionError", "P11": "Mapping", "P12": "MachineExtends",
    "Q1": "BadRequirement", "Q2": "NoRequirement", "Q3": "DuplicateName", "Q4": "UnknownTarget",
    "Q5": "UnknownGroup", "Q6": "EmptyGroup", "Q7": "BadToken",
    "S1": "Syntax", "T1": "UnknownTarget",
}


class Node:
    """Fields by name; two nodes are equal if they are one."""

    def __init__(self, **fields):
        self.__dict__.update(fields)


WORDS = (-1, -1)  # the place "the words", before all files


class Refusal(Exception):
    """A code and a place: (file, byte), (file, -1) for a whole file, or WORDS."""

    def __init__(self, code, place):
        super().__init__(code)
        self.code, self.place = code, place

    def rank(self):
        """By place; at one place N before P, and then the smaller number."""
        return (self.place, self.code[0], int(self.code[1:]))


def first(faults):
    """Raise the first of a group of faults, if there is one."""
    if faults:
        raise min(faults, key=Refusal.rank)


WORD = r"[A-Za-z](?:_?[A-Za-z0-9])*"
DIGITS = r"[0-9][0-9_]*"
NUMBER = (rf"{DIGITS}#[0-9A-Fa-f][0-9A-Fa-f_]*#"
          rf"|{DIGITS}(?:\.{DIGITS})?(?:[eE][+-]?{DIGITS})?")
SIGN = r"\+=>|<->|::|->|=>|\.\.|[;:,.()\[\]{}\-+*/=<>^@!&|]"
BLANK = re.compile(r"(?:[\t\n\r ]|--[^\n]*)+")
TOKEN = re.compile(rf"(?P<word>{WORD})|(?P<number>{NUMBER})|(?P<sign>{SIGN})")
TEXT = re.compile(r'"(?:\\.|[^"\\])*"', re.DOTALL)


def plain_tokens(text, file, start, end, annexes):
    """The tokens of text[start:end]; with `annexes`, `{**` begins an annex there."""
    tokens, at = [], start
    while True:
        blank = BLANK.match(text, at, end)
        at = blank.end() if blank else at
        if at >= end:
            return tokens
        if annexes and text.startswith("{**", at):
            at = annex_tokens(text, file, at, tokens)
            continue
        if text[at] == '"':
            found = TEXT.match(text, at, end)
            if not found:
                raise Refusal("L2", (file, at))
            tokens.append(Node(kind="text", text=found.group(), place=(file, at)))
        else:
            found = TOKEN.match(text, at, end)
            if not found:
                raise Refusal("L1", (file, at))
            tokens.append(Node(kind=found.lastgroup, text=found.group().lower(),
                               spelled=found.group(), place=(file, at)))
        at = found.end()


def annex_tokens(text, file, at, tokens):
    """Add the tokens of the annex that begins at `at`; the byte behind it."""
    stop = text.find("**}", at + 3)
    if stop < 0:
        raise Refusal("L3", (file, at))
    is_error_model = bool(tokens) and tokens[-1].text == "emv2"
    tokens.append(Node(kind="sign", text="{**", place=(file, at)))
    if is_error_model:
        tokens += plain_tokens(text, file, at + 3, stop, False)
    else:
        tokens.append(Node(kind="raw", text="", place=(file, at + 3)))
    tokens.append(Node(kind="sign", text="**}", place=(file, stop)))
    return stop + 3


def tokens_of(data, file):
    """All tokens of a file of bytes, and one of kind "end" behind them."""
    text = data.decode("latin-1")
    tokens = plain_tokens(text, file, 0, len(text), True)
    return tokens + [Node(kind="end", text="", place=(file, len(text)))]


OPENING, CLOSING = ("(", "[", "{", "{**"), (")", "]", "}", "**}")


def check_nesting(tokens):
    """M3 at the first bracket at which more than 64 are open."""
    depth = 0
    for token in tokens:
        if token.text in ("(", "[", "{"):
            depth += 1
        elif token.text in (")", "]", "}"):
            depth = max(0, depth - 1)
        if depth > 64:
            raise Refusal("M3", token.place)


class Reader:
    """Tokens that are read one after another; it fails at the last one looked at."""

    reserved = frozenset()

    def __init__(self, tokens):
        self.tokens, self.at, self.seen = tokens, 0, 0

    def look(self, ahead=0):
        """The token that comes next, or one behind it."""
        at = min(self.at + ahead, len(self.tokens) - 1)
        self.seen = max(self.seen, at)
        return self.tokens[at]

    def fail(self):
        """S1 at the last token that was looked at."""
        raise Refusal("S1", self.tokens[self.seen].place)

    def take(self):
        """The next token, and go on."""
        token = self.look()
        self.at += 1
        return token

    def is_next(self, *texts):
        """Is the next token one of these words or signs?"""
        return self.look().text in texts

    def accept(self, *texts):
        """Take the next token if it is one of these; else None."""
        return self.take() if self.is_next(*texts) else None

    def expect(self, *texts):
        """Take these tokens, one after another; the first of them."""
        tokens = [self.accept(text) or self.fail() for text in texts]
        return tokens[0]

    def one_of(self, *texts):
        """Take the next token, which is one of these."""
        return self.accept(*texts) or self.fail()

    def is_name(self, ahead=0):
        """Is the token an identifier that is not reserved?"""
        token = self.look(ahead)
        return token.kind == "word" and token.text not in self.reserved

    def name(self):
        """Take an identifier."""
        return self.take() if self.is_name() else self.fail()

    def names(self, sign="::"):
        """Identifiers with a sign between; a further one where both tokens stand."""
        names = [self.name()]
        while self.is_next(sign) and self.is_name(1):
            self.take()
            names.append(self.name())
        return names

    def label(self):
        """`ID :` if it stands; the name, else None."""
        if self.is_name() and self.look(1).text == ":":
            name = self.take()
            self.take()
            return name
        return None

    def balanced(self, *stops):
        """Tokens with balanced brackets, up to a stop outside of them."""
        depth, taken = 0, []
        while True:
            token = self.look()
            if depth == 0 and token.text in stops:
                return taken
            if token.kind == "end" or (depth == 0 and token.text in CLOSING):
                self.fail()
            depth += (token.text in OPENING) - (token.text in CLOSING)
            taken.append(self.take())

    def run(self):
        """Tokens up to the first `end` where as many brackets are open as closed."""
        depth = 0
        while not (depth == 0 and self.is_next("end")):
            token = self.look()
            if token.kind == "end":
                self.fail()
            depth += (token.text in OPENING) - (token.text in CLOSING)
            self.take()


def written(tokens):
    """The texts of tokens, as a tuple."""
    return tuple(token.text for token in tokens)
