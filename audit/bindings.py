"""Bindings to processors and memories (docs/PROFILE.md, "Bindings"), and those of profile 2."""

from text import CLOSING, OPENING

KINDS = ("processor", "memory")
MORE_KINDS = KINDS + ("function", "connection")


def pieces(tokens):
    """The tokens of a section, cut behind each `;` outside of brackets."""
    depth, piece = 0, []
    for token in tokens:
        depth += (token.text in OPENING) - (token.text in CLOSING)
        piece.append(token)
        if token.text == ";" and depth == 0:
            yield piece
            piece = []


class Piece:
    """Reads a piece; each part gives what it reads, or raises ValueError."""

    def __init__(self, tokens):
        self.tokens, self.at = tokens, 0

    def is_next(self, text):
        """Does this token come next?"""
        return self.at < len(self.tokens) and self.tokens[self.at].text == text

    def take(self, *texts):
        """Take these tokens."""
        for text in texts:
            if not self.is_next(text):
                raise ValueError
            self.at += 1

    def path(self):
        """Identifiers with dots between; no word is reserved."""
        names = []
        while True:
            if self.at >= len(self.tokens) or self.tokens[self.at].kind != "word":
                raise ValueError
            names.append(self.tokens[self.at].text)
            self.at += 1
            if not self.is_next("."):
                return tuple(names)
            self.take(".")

    def reference(self):
        """`reference ( PATH )`."""
        self.take("reference", "(")
        path = self.path()
        self.take(")")
        return path

    def binding(self, braced=False):
        """The kind, the references and the targets, which may be left out in braces."""
        if self.is_next("deployment_properties"):
            self.take("deployment_properties", "::")
        kind = next((kind for kind in MORE_KINDS if self.is_next(f"actual_{kind}_binding")), None)
        self.at += 1
        self.take("=>")
        if self.is_next("("):
            self.take("(")
            references = [self.reference()]
            while self.is_next(","):
                self.take(",")
                references.append(self.reference())
            self.take(")")
        else:
            references = [self.reference()]
        targets = [()] if braced and not self.is_next("applies") else self.targets()
        self.end()
        if not kind:
            raise ValueError
        return (kind, references, targets)

    def targets(self):
        """`applies to` and paths."""
        self.take("applies", "to")
        targets = [self.path()]
        while self.is_next(","):
            self.take(",")
            targets.append(self.path())
        return targets

    def end(self):
        """`[ in .. ] ;` with balanced tokens."""
        if self.is_next("in"):
            depth = 0
            for token in self.tokens[self.at + 1:-1]:
                depth += (token.text in OPENING) - (token.text in CLOSING)
                if depth < 0:
                    raise ValueError
            self.at = len(self.tokens) - 1
        self.take(";")
        if self.at != len(self.tokens):
            raise ValueError


class Stated(tuple):
    """A binding: its kind, its references and its targets; `place` is where it stands."""

    def __new__(cls, parts, place):
        made = super().__new__(cls, parts)
        made.place = place
        return made


def bindings_of(part):
    """The bindings of a component, from the farthest classifier to the nearest."""
    found = []
    for classifier in reversed(part.chain):
        for tokens in classifier.properties:
            for piece in pieces(tokens):
                try:
                    found.append(Stated(Piece(piece).binding(), piece[0].place))
                except ValueError:
                    pass
    return found


def counting_binding(part, kind, path=(), among=("bindings",)):
    """The binding of a kind that counts for a component, or for what a path leads to from
    there: its owner, its references and the list in which it stands. The outermost owner
    counts, and its last one."""
    owner, found = part, None
    while owner:
        for name in among:
            for its_kind, references, targets in getattr(owner, name):
                if its_kind == kind and path and path in targets:
                    found = (owner, references, name)
        path = (owner.path.rsplit(".", 1)[-1],) + path
        owner = owner.parent
    return found


def referenced(below, binding):
    """The components to which the references of a binding lead, in order."""
    owner, references, _ = binding or (None, [], "")
    return [other for other in (below(owner, path) for path in references) if other]


def both_ways(part, word, other):
    """The links between a component and one that it is bound to."""
    yield (other, "bindings", "out"), (part, word, "in")
    yield (part, word, "out"), (other, "bindings", "in")


def binding_links(parts, below):
    """The links of all bindings that count, as pairs of sides."""
    for part in parts:
        part.bindings = bindings_of(part)
    for part in parts:
        for kind in KINDS:
            for other in referenced(below, counting_binding(part, kind)):
                yield from both_ways(part, kind, other)


# What the second profile has behind these

BOTH = ("braced", "bindings")   # those in braces come before those of sections
HOSTS = {"processor": ("processor",), "connection": ("bus", "processor")}
GUESTS = {"processor": ("virtual", "processor"), "connection": ("virtual", "bus")}


def braced_of(part):
    """The bindings in braces behind the members of a component, from the farthest
    classifier to the nearest, as bindings of the component."""
    found = []
    for classifier in reversed(part.chain):
        for member in classifier.members:
            texts = [token.text for token in member.tail]
            if member.kind == "features" or "{" not in texts:
                continue
            for piece in pieces(member.tail[texts.index("{") + 1:]):
                try:
                    kind, references, targets = Piece(piece).binding(braced=True)
                except ValueError:
                    continue
                its = (kind, references, [(member.name,) + path for path in targets])
                found.append(Stated(its, piece[0].place))
    return found


def category(part):
    """The words of the category of a component's classifier, if it has one."""
    return part.chain[0].category if part and part.chain else ()


def said(part, kind):
    """The binding that counts for a component, or that it has as it stands in its host."""
    found = counting_binding(part, kind, (), BOTH)
    if not found and category(part) == GUESTS.get(kind, "none"):
        around = category(part.parent)
        if around and around[-1] in HOSTS[kind] and around[:-1] in ((), ("virtual",)):
            found = (part.parent, [()], "standing")
    return found


def more_binding_links(parts, below):
    """The links of bindings in braces, of those that hold for what is inside, of what is
    virtual, of functions, and of connections."""
    for part in parts:
        part.braced = braced_of(part)
    for part in parts:
        buses = ("connection",) if category(part) == GUESTS["connection"] else ()
        for kind in KINDS + buses:
            binding = counting_binding(part, kind, (), BOTH)
            if binding and kind in KINDS and binding[2] == "bindings":
                continue
            around = part
            while around.parent and not binding:
                binding, around = said(around, kind), around.parent
            for other in referenced(below, binding):
                if other is not part:
                    yield from both_ways(part, kind, other)
    for part in parts:
        for other in referenced(below, counting_binding(part, "function", (), BOTH)):
            yield from both_ways(part, "binding", other)
    for part in parts:
        for name, directions in part.given:
            for bus in referenced(below, counting_binding(part, "connection", (name,), BOTH)):
                for start, goal in directions:
                    yield (bus, "bindings", "out"), goal
                    yield (bus, "bindings", "out"), (goal[0], "connection", "in")
                    yield start, (bus, "bindings", "in")
