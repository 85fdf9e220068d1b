"""The grammar of core text (docs/PROFILE.md, "Core text")."""

from errors import ErrorReader
from text import CLOSING, OPENING, Node, Reader, written

RESERVED = frozenset("""abstract access all annex bus calls connections data device end event
    extends feature features flows group implementation in internal is memory modes none out
    package parameter port private process processor properties property prototypes provides
    public refined renames requires set subcomponents subprogram system thread to virtual
    with""".split())

CATEGORIES = ("abstract", "data", "subprogram", "thread", "process", "memory", "processor",
              "virtual", "bus", "device", "system")

SECTION_STOPS = ("prototypes", "features", "subcomponents", "connections", "flows", "modes",
                 "calls", "properties", "requires", "internal", "processor", "annex", "end")


class CoreReader(Reader):
    """Reads a file."""

    reserved = RESERVED

    def file(self):
        """One or more units; the packages of them."""
        packages = []
        while True:
            if self.accept("property"):
                self.expect("set")
                self.name()
                self.expect("is")
                self.run()
                self.expect("end")
                self.name()
                self.expect(";")
            else:
                packages.append(self.package())
            if self.look().kind == "end":
                return packages

    def package(self):
        """A package with its declarations, aliases and library."""
        self.expect("package")
        names = self.names()
        package = Node(name=written(names), place=names[0].place, classifiers=[],
                       package_aliases=[], aliases=[],
                       library=Node(items=[], uses=[], extends=[], machines=[]))
        for part in ("public", "private"):
            if self.accept(part):
                while not self.is_next("private", "properties", "end"):
                    self.declaration(package)
        if self.accept("properties"):
            self.section_run()
        self.expect("end")
        self.names()
        self.expect(";")
        return package

    def declaration(self, package):
        """One declaration of a package."""
        if self.accept("with"):
            self.names()
            while self.accept(","):
                self.names()
            self.expect(";")
        elif self.accept("annex"):
            annex = self.annex()
            if annex:
                found = ErrorReader(annex).library()
                for part in ("items", "uses", "extends", "machines"):
                    getattr(package.library, part).extend(getattr(found, part))
            self.expect(";")
        elif self.is_name() or self.is_next("renames"):
            self.alias(package)
        elif self.accept("feature"):
            self.expect("group")
            self.name()
            self.run()
            self.expect("end")
            self.name()
            self.expect(";")
        else:
            package.classifiers.append(self.classifier())

    def alias(self, package):
        """A line with `renames`."""
        name = None if self.is_next("renames") else self.name()
        self.expect("renames")
        if name and self.accept("package"):
            package.package_aliases.append((name.text, written(self.names())))
        elif self.accept("feature"):
            self.expect("group")
            self.names()
        elif self.is_next(*CATEGORIES):
            self.category()
            names = [self.name()]
            self.expect("::")
            names += self.names()
            own = name.text if name else names[-1].text
            package.aliases.append((own, written(names)))
        elif name:
            self.fail()
        else:
            self.names()
            self.expect("::", "all")
        self.expect(";")

    def category(self):
        """A category of one word or two, and these words."""
        word, second = self.one_of(*CATEGORIES).text, None
        if word == "virtual":
            second = self.one_of("processor", "bus")
        elif word in ("subprogram", "thread"):
            second = self.accept("group")
        return (word, second.text) if second else (word,)

    def annex(self):
        """The tokens of an annex of EMV2, or None; behind the word `annex`."""
        name = self.name()
        if self.accept("none"):
            return None
        self.expect("{**")
        start = self.at
        while not self.is_next("**}"):
            self.take()
        self.take()
        if name.text != "emv2":
            return None
        end = Node(kind="end", text="**}", place=self.tokens[self.at - 1].place)
        return self.tokens[start:self.at - 1] + [end]

    def reference(self):
        """Names, and perhaps `.` and an identifier."""
        names = self.names()
        item = self.name().text if self.accept(".") else ""
        return Node(names=written(names), item=item, place=names[0].place)

    def classifier(self):
        """A type or an implementation."""
        category = self.category()
        implementation = self.accept("implementation")
        name, item = self.name(), ""
        if implementation:
            self.expect(".")
            item = self.name().text
        found = Node(name=name.text, item=item, place=name.place, extends=None,
                     bindings_place=None, prototypes_place=None, members=[], clauses=[],
                     properties=[], category=category)
        if self.accept("extends"):
            found.extends = self.reference()
            bracket = self.accept("(")
            if bracket:
                found.bindings_place = bracket.place
                self.balanced(")")
                self.expect(")")
        while not self.is_next("end"):
            self.section(found)
        self.expect("end")
        self.name()
        if implementation:
            self.expect(".")
            self.name()
        self.expect(";")
        return found

    def section(self, owner):
        """One section of a classifier."""
        word = self.one_of(*SECTION_STOPS[:-1])
        read = {"features": self.feature, "subcomponents": self.subcomponent,
                "connections": self.connection}.get(word.text)
        if read:
            if self.accept("none"):
                self.expect(";")
                return
            while self.is_name():
                owner.members.append(self.member(word.text, read))
        elif word.text == "annex":
            annex = self.annex()
            if annex:
                owner.clauses.append(ErrorReader(annex).clause())
            if self.accept("in"):
                self.expect("modes", "(")
                self.balanced(")")
                self.expect(")")
            self.expect(";")
        else:
            follow = {"requires": "modes", "internal": "features", "processor": "features"}
            if word.text in follow:
                self.expect(follow[word.text])
            tokens = self.section_run()
            if word.text == "properties":
                owner.properties.append(tokens)
            elif word.text == "prototypes" and written(tokens) != ("none", ";"):
                owner.prototypes_place = owner.prototypes_place or word.place

    def section_run(self):
        """The rest of a section: the tokens up to a word that ends it."""
        depth, taken = 0, []
        while True:
            token = self.look()
            if token.kind == "end":
                self.fail()
            fresh = not taken or taken[-1].text == ";"
            if depth == 0 and fresh and token.text in SECTION_STOPS:
                return taken
            depth += (token.text in OPENING)
            depth -= (token.text in CLOSING)
            taken.append(self.take())

    def member(self, kind, read):
        """A feature, subcomponent or connection."""
        name = self.name()
        self.expect(":")
        refined = self.accept("refined") is not None
        if refined:
            self.expect("to")
        member = Node(kind=kind, name=name.text, place=name.place, refined=refined,
                      array=None, group=False, tail=[])
        read(member)
        depth = 0
        for token in self.balanced(";"):
            if depth == 0 and token.text == "[" and not member.array:
                member.array = token.place
            member.tail.append(token)
            depth += (token.text in OPENING)
            depth -= (token.text in CLOSING)
        self.expect(";")
        return member

    def feature(self, member):
        """The kind of a feature: its sides that are open, and whether it is a group."""
        member.sides = ("in", "out")
        if self.is_next("provides", "requires"):
            self.take()
            self.resource()
            self.expect("access")
            return
        direction = self.accept("in", "out")
        if direction:
            member.sides = (direction.text,)
            if direction.text == "in" and self.accept("out"):
                member.sides = ("in", "out")
        if self.accept("feature"):
            member.group = self.accept("group") is not None
        elif not direction:
            self.fail()
        elif self.accept("event"):
            self.accept("data")
            self.expect("port")
        elif self.accept("data"):
            self.expect("port")
        else:
            self.expect("parameter")

    def resource(self):
        """`bus`, `virtual bus`, `data` or `subprogram [ group ]`."""
        word = self.one_of("bus", "virtual", "data", "subprogram").text
        if word == "virtual":
            self.expect("bus")
        elif word == "subprogram":
            self.accept("group")

    def subcomponent(self, member):
        """The classifier of a subcomponent, perhaps with bindings of prototypes."""
        self.category()
        member.classifier, member.bindings = None, None
        if self.is_name():
            member.classifier = self.reference()
            if self.is_next("("):
                member.bindings = self.look().place

    def connection(self, member):
        """The kind and the ends of a connection."""
        member.access, member.ends, member.both = False, None, False
        if self.accept("feature"):
            member.group = self.accept("group") is not None
        elif not self.accept("port", "parameter"):
            if not self.accept("access"):
                self.resource()
                self.expect("access")
            member.access = True
        if member.refined and not (self.is_name() or self.is_next("processor")):
            return
        start = self.end()
        member.both = self.one_of("->", "<->").text == "<->"
        member.ends = [start, self.end()]

    def end(self):
        """An identifier or `processor`, then identifiers with dots."""
        names = [self.take() if self.is_next("processor") else self.name()]
        while self.is_next(".") and self.is_name(1):
            self.take()
            names.append(self.name())
        return Node(names=written(names), place=names[0].place)
