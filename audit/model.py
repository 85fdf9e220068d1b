"""Names, the instance at a root, and error types (docs/PROFILE.md, from "Names of packages")."""

import re

from text import WORDS, Node, Refusal, first

SETS = ("set", "set alias")  # items that stand for a set by their words

MAX_COMPONENTS, MAX_DEPTH, MAX_TYPES = 4096, 32, 1024


class Names:
    """The packages of all files, and what a reference means."""

    def __init__(self, packages):
        self.packages, faults = {}, []
        for package in packages:
            if package.name in self.packages:
                faults.append(Refusal("N1", package.place))
            self.packages.setdefault(package.name, package)
            package.declared = {}
            for classifier in package.classifiers:
                classifier.package = package
                key = (classifier.name, classifier.item)
                if key in package.declared:
                    faults.append(Refusal("N1", classifier.place))
                package.declared.setdefault(key, classifier)
        first(faults)

    def package(self, name, home):
        """The package of a name that stands in `home`, or None."""
        if home and len(name) == 1:
            for alias, target in home.package_aliases:
                if alias == name[0]:
                    name = target
                    break
        return self.packages.get(name)

    def classifier(self, reference, home, place):
        """The classifier of a reference that stands in `home`; N2 or N3 at the place."""
        package = home
        if len(reference.names) > 1:
            package = self.package(reference.names[:-1], home)
        if package is None:
            raise Refusal("N2", place)
        found = self.in_package(package, reference.names[-1], reference.item)
        if found is None:
            raise Refusal("N3", place)
        return found

    def in_package(self, package, name, item):
        """A declared classifier of the package, or what an alias there stands for."""
        if (name, item) in package.declared:
            return package.declared[name, item]
        for alias, target in package.aliases:
            if alias == name:
                other = self.package(target[:-1], package)
                return other and other.declared.get((target[-1], item))
        return None

    def root(self, word):
        """The classifier of the word ROOT."""
        identifier = r"[a-z](?:_?[a-z0-9])*"
        word = word.lower()
        if not re.fullmatch(rf"{identifier}(::{identifier})+(\.{identifier})?", word):
            raise ValueError("usage")
        names, _, item = word.partition(".")
        reference = Node(names=tuple(names.split("::")), item=item)
        return self.classifier(reference, None, WORDS)

    def chain(self, classifier):
        """The chain of a classifier, nearest first; its first fault is raised."""
        chain, at = [], classifier
        while at:
            chain.append(at)
            following = None
            if at.extends:
                place = at.extends.place
                following = self.classifier(at.extends, at.package, place)
                if bool(following.item) != bool(at.item):
                    raise Refusal("N3", place)
                if following in chain:
                    raise Refusal("N4", place)
            if at.bindings_place:
                raise Refusal("P1", at.bindings_place)
            if at.prototypes_place:
                raise Refusal("P1", at.prototypes_place)
            if not following and at.item:
                following = self.in_package(classifier.package, classifier.name, "")
                if following is None:
                    raise Refusal("N3", classifier.place)
            at = following
        return chain


def members(chain):
    """The features, subcomponents and connections of a chain, each with its home."""
    found, faults, farther = {}, [], []
    for classifier in reversed(chain):
        before = []
        for member in classifier.members:
            key = (member.kind, member.name)
            if member.refined:
                if key in farther:
                    found[key] = refine(member, found[key], classifier.package)
                else:
                    faults.append(Refusal("N5", member.place))
                continue
            if any(name == member.name for _, name in farther + before):
                faults.append(Refusal("N6", member.place))
            before.append(key)
            if key not in found:
                found[key] = refine(member, None, classifier.package)
        farther += before
    for member in found.values():
        if member.array and member.kind != "connections":
            faults.append(Refusal("P2", member.array))
        if member.group:
            faults.append(Refusal("P3", member.place))
        if getattr(member, "bindings", None):
            faults.append(Refusal("P1", member.bindings))
    first(faults)
    return list(found.values())


def refine(member, old, package):
    """A member with what it does not state taken from the one whose place it takes."""
    new = Node(**vars(member), home=package)
    if old:
        new.array = new.array or old.array
        if new.kind == "subcomponents" and not new.classifier:
            new.classifier, new.bindings, new.home = old.classifier, old.bindings, old.home
        if new.kind == "connections" and not new.ends:
            new.ends, new.both = old.ends, old.both
    return new


class Instance:
    """The components of a root in preorder; phase 8 of the refusals."""

    def __init__(self, names, root):
        self.names, self.components = names, []
        self.add("root", None, 0, lambda: root, WORDS)

    def add(self, path, parent, depth, find, place):
        """A component, and all that is below it."""
        if len(self.components) == MAX_COMPONENTS:
            raise Refusal("M4", place)
        if depth > MAX_DEPTH:
            raise Refusal("M5", place)
        part = Node(path=path, parent=parent, number=len(self.components), children={},
                    chain=[], members=[])
        self.components.append(part)
        classifier = find()
        if classifier:
            part.chain = self.names.chain(classifier)
            part.members = members(part.chain)
        for member in part.members:
            if member.kind == "subcomponents":
                child = self.add(f"{path}.{member.name}", part, depth + 1,
                                 lambda its=member: self.classifier_of(its), member.place)
                part.children[member.name] = child
        return part

    def classifier_of(self, member):
        """The classifier of a subcomponent, or None."""
        reference = member.classifier
        if not reference:
            return None
        return self.names.classifier(reference, member.home, reference.place)


def gather(part):
    """The error model items of a component; a later one takes the place of an earlier."""
    keys = {"propagations": lambda x: (tuple(t.text for t in x.point), x.direction, x.negated),
            "flows": lambda x: x.name, "events": lambda x: x.name, "points": lambda x: x.name,
            "paths": lambda x: x.name, "transitions": lambda x: x.label,
            "outgoing": lambda x: x.label, "composites": lambda x: x.label}
    part.clauses = []
    for classifier in reversed(part.chain):
        for clause in classifier.clauses:
            clause.package = classifier.package
            part.clauses.append(clause)
    for kind, key in keys.items():
        found = {}
        for clause in part.clauses:
            for item in getattr(clause, kind):
                name = key(item)
                found[len(found) if name is None else (name,)] = (item, clause)
        setattr(part, kind, list(found.values()))


def find_machine(part, names):
    """The machine that a component uses, or None; phase 9."""
    part.machine = None
    for classifier in part.chain:
        uses = [clause.behavior for clause in classifier.clauses if clause.behavior]
        if not uses:
            continue
        name = [token.text for token in uses[-1]]
        place = uses[-1][0].place
        package = classifier.package
        if len(name) > 1:
            package = names.package(tuple(name[:-1]), package)
        if package is None:
            raise Refusal("N2", place)
        for machine in package.library.machines:
            if machine.name == name[-1]:
                machine.package = package
                part.machine = machine
                return
        raise Refusal("N15", place)


class Types:
    """Error types: what names mean in libraries, and what sets denote."""

    def __init__(self, names, packages):
        self.names, self.faults, self.types = names, [], []
        count = 0
        for package in packages:
            seen = set()
            package.library.package = package
            for item in package.library.items:
                item.library = package.library
                if item.kind == "type":
                    count += 1
                    if item.name not in seen:
                        item.number = len(self.types)
                        item.print = "::".join(package.name) + "::" + item.name
                        self.types.append(item)
                        seen.add(item.name)
        if count > MAX_TYPES:
            raise Refusal("M8", WORDS)
        self.above = {item.number: self.ancestors(item) for item in self.types}
        self.faults = []

    def ancestors(self, item):
        """The numbers of the types that a type is below, itself among them."""
        found = set()
        while item is not None and item.number not in found:
            found.add(item.number)
            item = self.extended_type(item)
        return found

    def extended_type(self, item):
        """The type that a type extends, through aliases, or None."""
        seen = []
        while item.names:
            seen.append(item)
            item = self.look_up(item.names, item.library, item.library.package, True)
            if item is None or item in seen or item.kind in SETS:
                return None
            if item.kind == "type":
                return item
        return None

    def libraries(self, uses, package):
        """The libraries of names in a text of the package; N2 at one that means none."""
        found = []
        for use in uses:
            other = self.names.package(tuple(token.text for token in use), package)
            if other is None:
                self.faults.append(Refusal("N2", use[0].place))
            else:
                found.append(other.library)
        return found

    def look_up(self, tokens, text, package, in_library):
        """The item that a name means in the text of a library, or of a clause or machine."""
        place, name = tokens[0].place, tokens[-1].text
        if len(tokens) > 1:
            found = self.libraries([tokens[:-1]], package)
        elif in_library:
            found = [text] + self.libraries(text.uses, package)
        else:
            found = self.libraries(text.uses, package) + [package.library]
        if len(tokens) > 1 and not found:
            return None
        for library in found:
            item = self.search(library, name, place, [])
            if item == "cycle":
                return None
            if item:
                return item
        self.faults.append(Refusal("N7", place))
        return None

    def search(self, library, name, place, searched):
        """The item of a name in a library and those that it extends, None, or "cycle"."""
        if library in searched:
            self.faults.append(Refusal("N8", place))
            return "cycle"
        self.libraries(library.uses, library.package)
        others = self.libraries(library.extends, library.package)
        for item in library.items:
            if item.name == name:
                return item
        for other in others:
            found = self.search(other, name, place, searched + [library])
            if found:
                return found
        return None

    def denoted(self, types, text):
        """The numbers of the types that a written set denotes, in the text of `text`."""
        named = set()
        self.libraries(text.uses, text.package)
        for term in types.terms:
            self.follow_term(term, text, False, [], [])
            told = list(self.faults)
            self.name_term(term, text, False, named, [])
            self.faults = told
        return sorted(number for number, above in self.above.items() if above & named)

    def quiet(self, types, text):
        """Whether a written set has `noerror`, by itself or through the sets that it names."""
        told, seen = list(self.faults), []
        found = any(self.quiet_term(term, text, False, seen) for term in types.terms)
        self.faults = told
        return found

    def quiet_term(self, term, text, in_library, seen):
        """Whether a term is `noerror`, or names a set that has it."""
        if term.kind != "names":
            return term.kind == "noerror"
        item = self.look_up(term.names, text, text.package, in_library)
        if item is None or item in seen or item.kind == "type":
            return False
        seen.append(item)
        terms = item.set.terms if item.kind == "set" else [Node(kind="names", names=item.names)]
        return any(self.quiet_term(inner, item.library, True, seen) for inner in terms)

    def name_term(self, term, text, in_library, named, seen):
        """Add the numbers of the types that a term names, by itself or through items."""
        if term.kind != "names":
            return
        item = self.look_up(term.names, text, text.package, in_library)
        if item is None or item in seen:
            return
        seen.append(item)
        if item.kind == "type":
            named.add(item.number)
            return
        terms = item.set.terms if item.kind == "set" else [Node(kind="names", names=item.names)]
        for inner in terms:
            self.name_term(inner, item.library, True, named, seen)

    def follow_term(self, term, text, in_library, open_items, done):
        """Tell what is wrong with a term of a set."""
        if term.kind == "product":
            self.faults.append(Refusal("P4", term.place))
        if term.kind == "names":
            self.follow(term.names, text, in_library, open_items, done)

    def follow(self, tokens, text, in_library, open_items, done, is_type=False):
        """Follow a name to its item, and the item to its end; tell what is wrong."""
        item = self.look_up(tokens, text, text.package, in_library)
        if item is None:
            return
        if is_type and item.kind in SETS:
            self.faults.append(Refusal("N7", tokens[0].place))
            return
        if item in open_items:
            self.faults.append(Refusal("N8", tokens[0].place))
        if item in open_items or item in done:
            return
        below = open_items + [item]
        if item.kind == "set":
            for term in item.set.terms:
                self.follow_term(term, item.library, True, below, done)
        elif item.names:
            self.follow(item.names, item.library, True, below, done, item.kind != "set alias")
        done.append(item)
