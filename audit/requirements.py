"""Requirements on the targets of a model (docs/PROFILE.md, "Requirements"; Q1 to Q7 of docs/RULES.md).

Words are bytes. A set of events is a frozenset of their numbers. Where a target depends on few
events, each set of them is tried, and what the listing says must be the same.
"""

import re

from cuts import TooLarge, expand, slice_of
from text import Node, Refusal

MEANING_EVENTS = 12  # up to so many events on which a target depends each set is tried
COUNT = re.compile(rb"[0-9]{1,9}")
NUMBER = re.compile(rb"[0-9]+(\.[0-9]+)?([eE][+-]?[0-9]+)?")


# The text

def lines_of(data):
    """The words of each line, each with the byte at which it begins."""
    at = 0
    for line in data.split(b"\n"):
        words = []
        for found in re.finditer(rb"[^ \t\r]+", line):
            if found.group().startswith(b"#"):
                break
            words.append(Node(text=found.group(), at=at + found.start()))
        yield words
        at += len(line) + 1


class Line:
    """The words of a line, taken one after another; Q1 where one is wrong or lacks."""

    def __init__(self, words):
        self.words, self.at = words, 0

    def take(self, form=None):
        """The next word, which perhaps has a form."""
        if self.at == len(self.words):
            raise Refusal("Q1", (0, self.words[-1].at))
        word = self.words[self.at]
        if form and not form.fullmatch(word.text):
            raise Refusal("Q1", (0, word.at))
        self.at += 1
        return word

    def rest(self):
        """All other words, one at least."""
        words = [self.take()]
        while self.at < len(self.words):
            words.append(self.take())
        return words

    def more(self):
        """Are there other words?"""
        return self.at < len(self.words)

    def end(self):
        """No word stands behind."""
        if self.more():
            raise Refusal("Q1", (0, self.words[self.at].at))


def group_of(line):
    """A line of a group."""
    kind, name = line.take().text, line.take()
    return Node(kind=kind, name=name, members=line.rest())


def requirement_of(line):
    """A line of a requirement."""
    name, target, word = line.take(), line.take(), line.take()
    found = Node(name=name, target=target, kind=word.text, most=None, tokens=[])
    if word.text == b"order":
        found.most = int(line.take(COUNT).text)
        if line.more():
            line.take(re.compile(rb"except"))
            found.tokens = line.rest()
    elif word.text == b"mixed":
        found.group = line.take()
        if line.more():
            found.most = int(line.take(COUNT).text)
    elif word.text == b"without":
        found.event = line.take()
    elif word.text == b"probability":
        line.take(NUMBER)
        line.take(re.compile(rb"hours"))
        line.take(NUMBER)
        line.end()
        raise Refusal("Q1", (0, name.at))
    elif word.text not in (b"possible", b"never"):
        raise Refusal("Q1", (0, word.at))
    line.end()
    return found


def read(data):
    """The groups and the requirements of a text."""
    groups, asked = [], []
    for words in lines_of(data):
        if words and words[0].text in (b"parts", b"events"):
            groups.append(group_of(Line(words)))
        elif words:
            asked.append(requirement_of(Line(words)))
    return groups, asked


# Names

class Meaning:
    """What the names of a text mean in a model; the faults."""

    def __init__(self, facts, groups, asked):
        self.facts, self.faults = facts, []
        self.events = {facts.print(event).encode(): number
                       for number, event in enumerate(facts.events)}
        self.targets = {facts.print(fact).encode(): fact for fact in facts.formulas}
        self.within = {}
        for number, event in enumerate(facts.events):
            part = facts.parts[event[0]]
            while part:
                self.within.setdefault(part.path.encode(), set()).add(number)
                part = part.parent
        self.groups = {}
        for group in groups:
            self.group(group)
        known = set()
        for each in asked:
            if each.name.text.lower() in known:
                self.fault("Q3", each.name)
            known.add(each.name.text.lower())
            self.requirement(each)
        if not asked and not self.faults:
            self.faults.append(Refusal("Q2", (0, -1)))

    def fault(self, code, word):
        """Note a fault at a word."""
        self.faults.append(Refusal(code, (0, word.at)))

    def group(self, group):
        """What a group has."""
        if group.name.text.lower() in self.groups:
            self.fault("Q3", group.name)
        found = set()
        for member in group.members:
            text = member.text.lower()
            if group.kind == b"parts" and text in self.within:
                found |= self.within[text]
            elif group.kind == b"events" and text in self.events:
                found.add(self.events[text])
            else:
                self.fault("Q6", member)
        self.groups.setdefault(group.name.text.lower(), found)

    def requirement(self, each):
        """What a requirement names."""
        each.fact = self.targets.get(each.target.text.lower())
        if each.fact is None:
            self.fault("Q4", each.target)
        if each.kind == b"mixed":
            each.events = self.groups.get(each.group.text.lower())
            if each.events is None:
                self.fault("Q5", each.group)
        if each.kind == b"without":
            each.number = self.events.get(each.event.text.lower())
            if each.number is None:
                self.fault("Q7", each.event)
        each.exceptions = [self.token(word) for word in each.tokens]

    def token(self, word):
        """The set of events of a token."""
        if word.text.lower() == b"none":
            return frozenset()
        numbers = [self.events.get(name) for name in word.text.lower().split(b"+")]
        if None in numbers:
            self.fault("Q7", word)
        return frozenset(numbers)


# Verdicts

def formula_table(formula, columns, known, every):
    """For which sets of events a formula is true: a bit for each set."""
    kind = formula[0]
    if kind == "event":
        return columns[formula[1]]
    if kind == "fact":
        return known[formula[1]]
    parts = [formula_table(part, columns, known, every) for part in formula[-1]]
    need = 1 if kind == "or" else len(parts) if kind == "and" else formula[1]
    at_least = [every] + [0] * len(parts)
    for part in parts:
        for count in range(len(parts), 0, -1):
            at_least[count] |= at_least[count - 1] & part
    return at_least[need] if need <= len(parts) else 0


def all_sets(facts, fact, events):
    """All sets of these events under which a fact holds, by the least set of facts of each."""
    numbers = {event: number for number, event in enumerate(facts.events)}
    events = sorted(events, key=numbers.get)
    size = 1 << len(events)
    every = (1 << size) - 1
    columns = {event: sum(1 << chosen for chosen in range(size) if chosen >> bit & 1)
               for bit, event in enumerate(events)}
    table = grown(facts, fact, lambda formula, known: formula_table(formula, columns, known, every),
                  dict.fromkeys(slice_of(facts, fact)[0], 0))
    return [frozenset(numbers[event] for bit, event in enumerate(events) if chosen >> bit & 1)
            for chosen in range(size) if table >> chosen & 1]


def grown(facts, target, value_of, known):
    """Look at the facts of a slice until none has another value; `known` has the first ones."""
    found = slice_of(facts, target)[0]
    waiting = dict.fromkeys(found)
    while waiting:
        fact, _ = waiting.popitem()
        new = value_of(facts.formulas[fact], known)
        if new != known.get(fact):
            known[fact] = new
            waiting.update((user, None) for user in facts.users.get(("fact", fact), [])
                           if user in found)
    return known[target]


def by_expansion(facts, target):
    """The minimal cut sets: formulas are expanded until no fact has another set."""
    return grown(facts, target, lambda formula, known: sorted(
        expand(formula, known), key=lambda one: sorted(map(repr, one))), {})


def in_order(sets):
    """Sets in the order of `cuts`."""
    return sorted(sets, key=lambda one: (len(one), sorted(one)))


def minimal_of(sets):
    """Those of which no proper subset is among them, in the order of `cuts`."""
    kept = []
    for each in in_order(sets):
        if not any(other <= each for other in kept):
            kept.append(each)
    return kept


def is_forbidden(each, found, minimal):
    """Does the sentence of a requirement forbid that this set brings its target about?"""
    if each.kind == b"order":
        return len(found) < each.most and not any(one <= found for one in each.exceptions)
    if each.kind == b"mixed":
        return found <= each.events and (each.most is None or len(found) <= each.most)
    if each.kind == b"without":
        return each.number in found and found in minimal
    return each.kind == b"never"


class Judge:
    """Tells of requirements on a model."""

    def __init__(self, facts):
        self.facts, self.known = facts, {}
        self.number = {event: number for number, event in enumerate(facts.events)}

    def sets(self, fact):
        """The minimal cut sets in order, and all of them or None where there are many events."""
        if fact not in self.known:
            events, every = slice_of(self.facts, fact)[1], None
            if len(events) <= MEANING_EVENTS:
                every = all_sets(self.facts, fact, events)
            try:
                minimal = in_order(frozenset(self.number[event] for event in one)
                                   for one in by_expansion(self.facts, fact))
            except TooLarge:
                if every is None:
                    raise
                minimal = minimal_of(every)
            if every is not None and minimal != minimal_of(every):
                raise AssertionError(f"two ways of {self.facts.print(fact)}")
            self.known[fact] = minimal, every
        return self.known[fact]

    def names(self, found):
        """The text of a set."""
        names = [self.facts.print(self.facts.events[number]) for number in sorted(found)]
        return "+".join(names).encode() or b"none"

    def verdict(self, each):
        """`met`, `broken` or `vacuous`, and what stands behind the name."""
        minimal, every = self.sets(each.fact)
        if not minimal:
            return (b"met" if each.kind == b"never" else b"vacuous"), b""
        if not minimal[0]:
            return b"broken", b" none"
        wrong = [one for one in minimal if is_forbidden(each, one, minimal)]
        if every is not None and bool(wrong) != any(
                is_forbidden(each, one, minimal) for one in every):
            raise AssertionError(f"two ways of {each.name.text}")
        if wrong:
            return b"broken", b" " + self.names(wrong[0])
        for one in each.exceptions:
            if one not in minimal or len(one) >= each.most:
                return b"broken", b" except " + self.names(one)
        return b"met", b""


def escaped(text):
    """A text of TAP."""
    return text.replace(b"\\", b"\\\\").replace(b"#", b"\\#")


def answer(facts, data, has_tap):
    """The output as bytes, and whether each requirement is met."""
    groups, asked = read(data)
    faults = Meaning(facts, groups, asked).faults
    if faults:
        raise min(faults, key=Refusal.rank)
    for each in asked:
        try:
            slice_of(facts, each.fact)
        except Refusal as refusal:
            raise Refusal(refusal.code, (0, each.name.at)) from None
    judge = Judge(facts)
    told = [(each.name.text, *judge.verdict(each)) for each in asked]
    if has_tap:
        lines = [b"TAP version 13", b"1..%d" % len(told)]
        for number, (name, word, rest) in enumerate(told, 1):
            is_met = word == b"met"
            lines.append(b"%sok %d - %s" % (
                b"" if is_met else b"not ", number,
                escaped(name + (b"" if is_met else b" " + word + rest))))
    else:
        lines = [word + b" " + name + rest for name, word, rest in told]
        words = [word for _, word, _ in told]
        lines.append(b"end met %d broken %d vacuous %d" % tuple(
            words.count(word) for word in (b"met", b"broken", b"vacuous")))
    return b"\n".join(lines) + b"\n", all(word == b"met" for _, word, _ in told)
