"""A second reader of ontologies and of documents of constraints, written after their notations alone, in another language and another way than the
program: tokens by regular expressions, trees by a stack, and the shape by one exception in preorder.

`random-documents` compares the program's readers with it, and `second_check.py` finds by it what `mastro check` says.
"""

import datetime
import re
import sys

BLANKS = " \t\r\n"
TOKENS = re.compile(
    r'(?P<one>[()=])|(?P<carets>\^\^)|(?P<lang>@[A-Za-z0-9-]+)|(?P<iri><[^<>"\x00-\x20]*>)|(?P<name>[A-Za-z0-9_.:%?\u0080-\U0010ffff-]+)'
    r'|(?P<str>"(?:[^"\\]|\\["\\])*")',
    re.S,
)
MOST_OPEN, MOST_NAMES, MOST_ITEMS, MOST_ATOMS = 64, 65535, 1000000, 24

OWL, RDF = "http://www.w3.org/2002/07/owl#", "http://www.w3.org/1999/02/22-rdf-syntax-ns#"
RDFS, XSD = "http://www.w3.org/2000/01/rdf-schema#", "http://www.w3.org/2001/XMLSchema#"
KNOWN = {"owl:": OWL, "rdf:": RDF, "rdfs:": RDFS, "xsd:": XSD}
THING, LITERAL = OWL + "Thing", RDFS + "Literal"
TYPES = {XSD + "string": "Text", XSD + "integer": "Integer", XSD + "date": "Date", LITERAL: None}


class Breach(Exception):
    """The first breach or limit of a document: `byte`, `token` or `line`, the number of that, and the kind."""


# Tokens and trees


class Item:
    """A leaf ('leaf' or 'iri'), a string ('str', with `tag` where it has a type or a language), a binding ('bind') or a node ('node')."""

    def __init__(self, form, line, word, tag=False, iri=None, items=()):
        self.form, self.line, self.word, self.tag, self.iri, self.items = form, line, word, tag, iri, items


def tokens(source):
    """A document's tokens, each its kind, its text and its line."""
    try:
        text = source.decode()
    except UnicodeDecodeError as at:
        raise lexical_breach(at.start, "not-utf8")
    found, at, line = [], 0, 1
    while at < len(text):
        if text[at] in BLANKS or (at == 0 and text[at] == "\ufeff"):
            line += text[at] == "\n"
            at += 1
        elif text[at] == "#":
            end = text.find("\n", at)
            at = len(text) if end < 0 else end
        else:
            here = TOKENS.match(text, at)
            if not here:
                raise lexical(text, at)
            found.append((here[0] if here.lastgroup == "one" else here.lastgroup, here[0], line))
            line += here[0].count("\n")
            at = here.end()
    return found


def lexical(text, at):
    kind = {"<": "open-iri", '"': "open-string"}.get(text[at], "character")
    if kind == "open-string":
        rest = re.compile(r'"(?:[^"\\]|\\["\\])*', re.S).match(text, at)
        if rest.end() < len(text):
            at, kind = rest.end(), "escape"
    return lexical_breach(len(text[:at].encode()), kind)


def lexical_breach(at, kind):
    return Breach("byte", at, kind)


def tree_breach(token, kind):
    return Breach("token", token, kind)


def tree(tokens):
    """The document's items."""
    top = []
    open_nodes = [top]
    at = 0

    def kind(i):
        return tokens[i][0] if i < len(tokens) else ""

    def deep(i):
        if kind(i) == "(" and len(open_nodes) > MOST_OPEN:
            raise tree_breach(i, "depth")

    def want(i, *kinds):
        deep(i)
        if kind(i) not in kinds:
            raise tree_breach(i, "unexpected")

    while at < len(tokens):
        what, text, line = tokens[at]
        if what == ")" and len(open_nodes) > 1:
            open_nodes.pop()
            at += 1
        elif what == "iri":
            open_nodes[-1].append(Item("iri", line, text[1:-1]))
            at += 1
        elif what == "str":
            after = kind(at + 1)
            if after == "carets":
                want(at + 2, "name", "iri")
            item = Item("str", line, re.sub(r"\\(.)", r"\1", text[1:-1], flags=re.S), tag=after in ("carets", "lang"))
            open_nodes[-1].append(item)
            at += {"carets": 3, "lang": 2}.get(after, 1)
        elif what == "name" and kind(at + 1) == "=":
            want(at + 2, "iri")
            open_nodes[-1].append(Item("bind", line, text, iri=tokens[at + 2][1][1:-1]))
            at += 3
        elif what == "name" and kind(at + 1) == "(":
            deep(at + 1)
            node = Item("node", line, text, items=[])
            open_nodes[-1].append(node)
            open_nodes.append(node.items)
            at += 2
        elif what == "name":
            open_nodes[-1].append(Item("leaf", line, text))
            at += 1
        else:
            want(at)
    if len(open_nodes) > 1:
        raise tree_breach(len(tokens), "unexpected")
    return top


# Vocabularies


class Vocabulary:
    def __init__(self):
        self.names = {"class": {}, "role": {}, "attribute": {}}
        self.constants = {}

    def add(self, kind, iri, item):
        other = {"role": "attribute", "attribute": "role"}.get(kind)
        if other and iri in self.names[other]:
            refuse(item, "two-kinds")
        return number(self.names[kind], iri, item, Name)

    def add_value(self, value, item):
        return number(self.constants, value, item)

    def lines(self):
        for kind, names in self.names.items():
            yield from (f"{kind} {iri}" for iri in names)
        yield from (f"constant {value}" for value in self.constants)


class Name(int):
    """The number of a class, a role or an attribute."""


def number(numbers, key, item, form=int):
    if key not in numbers:
        if len(numbers) == MOST_NAMES:
            refuse(item, "names")
        numbers[key] = form(len(numbers))
    return numbers[key]


def refuse(item, kind):
    raise shape_breach(item.line, kind)


def shape_breach(line, kind):
    return Breach("line", line, kind)


# What is read is a tree: a name, a number, a word, a list, a tuple of a word and parts, or a dictionary of a word and named parts.


def lined(line, item):
    return {"": "Lined", "line": line, "item": item}


# What both documents share


class Document:
    """Reads what the two documents have in common: prefixes, IRIs, roles and the left sides of inclusions."""

    word = ""
    # The kind of breach of a node that stands where an IRI is wanted.
    node_for_iri = ""

    def __init__(self, source, vocabulary):
        self.vocabulary, self.prefixes = vocabulary, dict(KNOWN)
        self.read(tree(tokens(source)))

    def read(self, items):
        given = set()
        at = 0
        while at < len(items) and not (items[at].form == "node" and items[at].word == self.word):
            self.prefix(items[at], given)
            at += 1
        if at == len(items):
            raise shape_breach(1, "shape")
        self.main(items[at].items)
        if at + 1 < len(items):
            refuse(items[at + 1], "shape")

    def prefix(self, node, given):
        if node.form != "node" or node.word != "Prefix" or len(node.items) != 1:
            refuse(node, "shape")
        (bind,) = node.items
        if bind.form != "bind" or bind.word.find(":") != len(bind.word) - 1:
            refuse(bind, "shape")
        if bind.word in given:
            refuse(node, "shape")
        given.add(bind.word)
        self.prefixes[bind.word] = bind.iri

    def expand(self, item, node_kind=None):
        """The IRI that the item stands for."""
        if item.form == "node":
            refuse(item, node_kind or self.node_for_iri)
        if item.form == "iri":
            return item.word
        if item.form != "leaf" or ":" not in item.word:
            refuse(item, "shape")
        prefix, _, rest = item.word.partition(":")
        if prefix + ":" not in self.prefixes:
            refuse(item, "unknown-prefix")
        return self.prefixes[prefix + ":"] + rest

    def name(self, kind, item, node_kind=None):
        iri = self.expand(item, node_kind)
        if is_reserved(iri):
            refuse(item, "not-dl-lite")
        return self.vocabulary.add(kind, iri, item)

    def left_leaf(self, item):
        iri = self.expand(item, "not-dl-lite")
        if iri == THING:
            refuse(item, "top-on-left")
        return ("Class", self.name("class", item))

    def left(self, item):
        if item.form != "node":
            return self.left_leaf(item)
        if item.word == "ObjectSomeValuesFrom":
            want_items(item, len(item.items) == 2)
            role = self.role(item.items[0], "not-dl-lite")
            if self.expand(item.items[1], "not-dl-lite") != THING:
                refuse(item.items[1], "not-dl-lite")
            return ("Some", role)
        if item.word == "DataSomeValuesFrom":
            return self.subjects(item)
        # (an assertion too: AssertionHere is told of the axioms' own place alone)
        refuse(item, "not-dl-lite")

    def subjects(self, item):
        want_items(item, len(item.items) == 2)
        attribute = self.name("attribute", item.items[0], "not-dl-lite")
        if self.expand(item.items[1], "not-dl-lite") != LITERAL:
            refuse(item.items[1], "datatype")
        return ("Subjects", attribute)

    def role(self, item, node_kind=None):
        if item.form == "node":
            if item.word != "ObjectInverseOf":
                refuse(item, node_kind or self.node_for_iri)
            want_items(item, len(item.items) == 1)
            return ("Inverse", self.name("role", item.items[0], "not-dl-lite"))
        return ("Direct", self.name("role", item))


def is_reserved(iri):
    return iri.startswith((OWL, RDF, RDFS, XSD))


def want_items(item, is_right):
    if not is_right:
        refuse(item, "shape")


def inverse(role):
    return ("Inverse" if role[0] == "Direct" else "Direct", role[1])


# The ontology

SKIPPED = ("Annotation", "AnnotationAssertion", "SubAnnotationPropertyOf", "AnnotationPropertyDomain", "AnnotationPropertyRange")
ASSERTIONS = (
    "ClassAssertion",
    "ObjectPropertyAssertion",
    "DataPropertyAssertion",
    "NegativeObjectPropertyAssertion",
    "NegativeDataPropertyAssertion",
    "SameIndividual",
    "DifferentIndividuals",
)
DECLARED = {"Class": "class", "ObjectProperty": "role", "DataProperty": "attribute", "AnnotationProperty": None, "Datatype": None, "NamedIndividual": None}


class Ontology(Document):
    word = "Ontology"
    node_for_iri = "not-dl-lite"

    def main(self, items):
        self.inclusions, self.negatives, self.functional = [], [], []
        self.existentials = 0
        front = 0
        while front < 2 and front < len(items) and items[front].form in ("leaf", "iri"):
            self.expand(items[front])
            front += 1
        for item in items[front:]:
            if item.form != "node":
                refuse(item, "shape")
            if item.word in SKIPPED:
                continue
            self.line = item.line
            if item.word in ASSERTIONS:
                refuse(item, "assertion-here")
            if item.word not in AXIOMS:
                refuse(item, "not-dl-lite")
            fewest, most, read = AXIOMS[item.word]
            members = item.items
            while members and members[0].form == "node" and members[0].word == "Annotation":
                members = members[1:]
            want_items(item, fewest <= len(members) <= most)
            read(self, members)
            if self.count() > MOST_ITEMS:
                refuse(item, "items")

    def count(self):
        return len(self.inclusions) + len(self.negatives) + len(self.functional)

    # An inclusion, or nothing where both sides are one expression.

    def includes(self, left, right):
        if left == right:
            return
        if right[0] == "Some":
            self.exists(left, right[1], None)
        elif right[0] == "Subjects":
            self.inclusion("HasValue", sub=left, attr=right[1], k=self.next_number())
        elif right[0] == "Class":
            self.inclusion("Class", sub=left, sup=right[1])
        elif right[0] == "Attr":
            self.inclusion("Attr", sub=left[1], sup=right[1])
        else:
            self.inclusion("Role", sub=left, sup=right)

    def exists(self, left, role, end):
        self.inclusion("Exists", sub=left, role=role, end="None" if end is None else ("Some", end), k=self.next_number())

    def next_number(self):
        self.existentials += 1
        return self.existentials - 1

    def inclusion(self, form, **parts):
        self.inclusions.append(lined(self.line, {"": form, **parts}))

    def disjoint(self, kind, left, right):
        if kind == "Attrs":
            left, right = left[1], right[1]
        self.negatives.append(lined(self.line, {"": kind, "left": left, "right": right}))

    def is_functional(self, prop):
        self.functional.append(lined(self.line, prop))

    # The parts of an inclusion in a right side are told as they are met.

    def right(self, left, item):
        if item.form != "node":
            iri = self.expand(item)
            if iri != THING:
                self.includes(left, self.left(item))
        elif item.word == "ObjectIntersectionOf":
            want_items(item, len(item.items) >= 2)
            for part in item.items:
                self.right(left, part)
        elif item.word == "ObjectComplementOf":
            want_items(item, len(item.items) == 1)
            self.disjoint("Concepts", left, self.left(item.items[0]))
        elif item.word == "ObjectSomeValuesFrom":
            want_items(item, len(item.items) == 2)
            role = self.role(item.items[0])
            if self.expand(item.items[1]) == THING:
                self.includes(left, ("Some", role))
            else:
                self.exists(left, role, self.name("class", item.items[1]))
        else:
            self.includes(left, self.left(item))

    def attribute(self, item):
        return ("Attr", self.name("attribute", item))

    # The axioms.

    def declaration(self, members):
        (node,) = members
        want_items(node, node.form == "node")
        if node.word not in DECLARED:
            refuse(node, "not-dl-lite")
        want_items(node, len(node.items) == 1)
        iri = self.expand(node.items[0])
        if DECLARED[node.word] and not is_reserved(iri):
            self.vocabulary.add(DECLARED[node.word], iri, node.items[0])

    def sub_class_of(self, members):
        self.right(self.left(members[0]), members[1])

    def included(read):
        def axiom(self, members):
            first, second = [read(self, it) for it in members]
            self.includes(first, second)

        return axiom

    def equivalent(read):
        def axiom(self, members):
            found = [read(self, it) for it in members]
            for one, next_one in zip(found, found[1:] + found[:1]):
                self.includes(one, next_one)

        return axiom

    def pairs(kind, read):
        def axiom(self, members):
            found = [read(self, it) for it in members]
            for i, first in enumerate(found):
                if self.count() > MOST_ITEMS:
                    return
                for second in found[i + 1 :]:
                    self.disjoint(kind, first, second)

        return axiom

    def inverses(self, members):
        first, second = [self.role(it) for it in members]
        self.includes(first, inverse(second))
        self.includes(second, inverse(first))

    def domain(self, members):
        self.right(("Some", self.role(members[0])), members[1])

    def range(self, members):
        self.right(("Some", inverse(self.role(members[0]))), members[1])

    def symmetric(self, members):
        role = self.role(members[0])
        self.includes(role, inverse(role))

    def asymmetric(self, members):
        role = self.role(members[0])
        self.disjoint("Roles", role, inverse(role))

    def irreflexive(self, members):
        self.negatives.append(lined(self.line, {"": "Irreflexive", "role": self.role(members[0])[1]}))

    def functional_role(self, members):
        self.is_functional(("Role", self.role(members[0])))

    def inverse_functional_role(self, members):
        self.is_functional(("Role", inverse(self.role(members[0]))))

    def data_domain(self, members):
        self.right(("Subjects", self.attribute(members[0])[1]), members[1])

    def data_range(self, members):
        attribute = self.attribute(members[0])
        iri = self.expand(members[1])
        if iri not in TYPES:
            refuse(members[1], "datatype")
        if TYPES[iri]:
            self.inclusion("Range", attr=attribute[1], kind=TYPES[iri])

    def functional_attribute(self, members):
        self.is_functional(self.attribute(members[0]))

    def lines(self):
        return [*self.inclusions, *self.negatives, *self.functional]


MANY = 1 << 60
AXIOMS = {
    "Declaration": (1, 1, Ontology.declaration),
    "SubClassOf": (2, 2, Ontology.sub_class_of),
    "EquivalentClasses": (2, MANY, Ontology.equivalent(Ontology.left)),
    "DisjointClasses": (2, MANY, Ontology.pairs("Concepts", Ontology.left)),
    "SubObjectPropertyOf": (2, 2, Ontology.included(Ontology.role)),
    "EquivalentObjectProperties": (2, MANY, Ontology.equivalent(Ontology.role)),
    "InverseObjectProperties": (2, 2, Ontology.inverses),
    "DisjointObjectProperties": (2, MANY, Ontology.pairs("Roles", Ontology.role)),
    "ObjectPropertyDomain": (2, 2, Ontology.domain),
    "ObjectPropertyRange": (2, 2, Ontology.range),
    "SymmetricObjectProperty": (1, 1, Ontology.symmetric),
    "AsymmetricObjectProperty": (1, 1, Ontology.asymmetric),
    "IrreflexiveObjectProperty": (1, 1, Ontology.irreflexive),
    "FunctionalObjectProperty": (1, 1, Ontology.functional_role),
    "InverseFunctionalObjectProperty": (1, 1, Ontology.inverse_functional_role),
    "SubDataPropertyOf": (2, 2, Ontology.included(Ontology.attribute)),
    "EquivalentDataProperties": (2, MANY, Ontology.equivalent(Ontology.attribute)),
    "DisjointDataProperties": (2, MANY, Ontology.pairs("Attrs", Ontology.attribute)),
    "DataPropertyDomain": (2, 2, Ontology.data_domain),
    "DataPropertyRange": (2, 2, Ontology.data_range),
    "FunctionalDataProperty": (1, 1, Ontology.functional_attribute),
}


# Constraints

# (a number may have as many digits as it likes)
if hasattr(sys, "set_int_max_str_digits"):
    sys.set_int_max_str_digits(0)

IDENTIFIER = re.compile("[A-Za-z_][A-Za-z0-9_]*")
INTEGER = re.compile("[+-]?[0-9]+")
DATE = re.compile("[0-9]{4}-[0-9]{2}-[0-9]{2}")


class Constraints(Document):
    word = "Constraints"
    node_for_iri = "shape"

    def main(self, items):
        self.list = []
        for item in items:
            read = {"Functional": self.functional, "Identify": self.identify, "Deny": self.deny}.get(item.word if item.form == "node" else None)
            want_items(item, read)
            read(item)

    def functional(self, node):
        want_items(node, len(node.items) == 1)
        (item,) = node.items
        if item.form == "node" and item.word == "Attr":
            prop = self.attribute(item)
        else:
            prop = ("Role", self.role(item))
        self.list.append(lined(node.line, {"": "Functional", "prop": prop}))

    def attribute(self, node):
        want_items(node, len(node.items) == 1)
        return ("Attr", self.name("attribute", node.items[0]))

    def identify(self, node):
        want_items(node, len(node.items) >= 2)
        steps = sum(len(it.items) for it in node.items[1:] if it.form == "node" and it.word == "Path")
        if 2 + 2 * steps > MOST_ATOMS:
            refuse(node, "atoms")
        concept = self.left(node.items[0])
        paths = [self.path(it) for it in node.items[1:]]
        self.list.append(lined(node.line, {"": "Identify", "concept": concept, "paths": paths}))

    def path(self, node):
        want_items(node, node.form == "node" and node.word == "Path")
        want_items(node, any(it.form in ("leaf", "iri") or it.form == "node" and it.word in ("ObjectInverseOf", "Attr") for it in node.items))
        steps = []
        for at, item in enumerate(node.items):
            if item.form == "node" and item.word == "Attr":
                want_items(item, at == len(node.items) - 1)
                steps.append(self.attribute(item))
            elif item.form == "node" and item.word == "Test":
                want_items(item, len(item.items) == 1)
                steps.append(("Test", self.name("class", item.items[0])))
            else:
                steps.append(("Role", self.role(item)))
        return steps

    def deny(self, node):
        want_items(node, node.items)
        self.variables, self.sorts = {}, {}
        atoms = []
        for at, item in enumerate(node.items):
            want_items(item, item.form == "node" and item.word in ("Class", "Role", "Attr"))
            want_items(item, len(item.items) == (2 if item.word == "Class" else 3))
            if at == MOST_ATOMS:
                refuse(item, "atoms")
            atoms.append(self.atom(item))
        self.list.append(lined(node.line, {"": "Deny", "atoms": atoms}))

    def atom(self, node):
        name = self.name({"Class": "class", "Role": "role", "Attr": "attribute"}[node.word], node.items[0])
        first = self.argument(node.items[1], "object")
        if node.word == "Class":
            return {"": "Class", "name": name, "arg": first}
        if node.word == "Role":
            return {"": "Role", "name": name, "from": first, "to": self.argument(node.items[2], "object")}
        return {"": "Attr", "name": name, "from": first, "value": self.value(node.items[2])}

    def argument(self, item, sort):
        want_items(item, item.form == "leaf" and item.word[0] == "?" and IDENTIFIER.fullmatch(item.word[1:]))
        if self.sorts.setdefault(item.word, sort) != sort:
            refuse(item, "sort-clash")
        return ("Var", self.variables.setdefault(item.word, len(self.variables)))

    def value(self, item):
        if item.form != "node":
            return self.argument(item, "value")
        want_items(item, item.word in ("Int", "Text", "Date"))
        want_items(item, len(item.items) == 1)
        (inside,) = item.items
        if item.word == "Int":
            want_items(inside, inside.form == "leaf")
            is_right = INTEGER.fullmatch(inside.word) and -(2**63) <= int(inside.word) < 2**63
            value = is_right and f"integer {int(inside.word)}"
        else:
            want_items(inside, inside.form == "str" and not inside.tag)
            value = f"{item.word.lower()} {inside.word}"
            is_right = item.word == "Text" or is_date(inside.word)
        if not is_right:
            refuse(inside, "bad-constant")
        return ("Constant", self.vocabulary.add_value(value, inside))

    def lines(self):
        return self.list


def is_date(text):
    try:
        return bool(DATE.fullmatch(text) and text.isascii() and datetime.date.fromisoformat(text))
    except ValueError:
        return False
