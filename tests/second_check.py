#!/usr/bin/env python3
"""A second judge of what `mastro check` prints: tests/second_check.py [NAME..] compares it with the cases of tests/cases.

It is written after the meaning of the axioms and constraints alone, and goes another way than the program: it makes the facts that hold, forwards
from those of the rows, with the successors that axioms ask for, looks for what is broken there, and tries sets of rows. Documents are read by
`axiom_reader.py` and `second_reader.py`. `random-checks` runs the program against it.

Run as a script it answers the cases whose words begin with `check`, and needs no program. Of a case that ends with a conflict each text must be right, and where
the tables have few rows there must be no other right one. It leaves out what would take it too long, and, where none is named, the large cases. The
last line is `N agree, M differ, K left out`, and the status is 0 only where none differs.
"""

import itertools
import os
import re
import sys
import tempfile
from collections import defaultdict, namedtuple

import axiom_reader
from second_reader import LARGE, MOST_DOCUMENT, MOST_ROWS, MOST_TABLES, PATIENCE, Event, Object, Reader, TooLong, cases_runner, choices, limit, printed_text, read_in, refused, rows_of, size_of, tokens, tree

MOST_ONTOLOGY, MOST_CONSTRAINTS, MOST_VIOLATIONS = 33_554_432, 4_194_304, 1_000_000
# (past so many atoms of a violation query its closure may be too large, which is not judged here; so many facts that hold take too long)
MOST_ATOMS, MOST_FACTS, FEW_ROWS = 12, 200_000, 10
USAGE = b"""usage: mastro facts MAPPINGS
       mastro check [--workers N] ONTOLOGY CONSTRAINTS MAPPINGS
       mastro answer [--workers N] ONTOLOGY CONSTRAINTS MAPPINGS QUERY [QUERY]
       mastro make N
       mastro tolerant [--workers N] ONTOLOGY CONSTRAINTS MAPPINGS QUERY [QUERY]
       mastro explain [--workers N] [--all] ONTOLOGY CONSTRAINTS MAPPINGS QUERY
       mastro audit [--workers N] ONTOLOGY CONSTRAINTS MAPPINGS RULES
       mastro desk ONTOLOGY CONSTRAINTS MAPPINGS SCRIPT [SCRIPT]
"""

# What is judged: axioms and constraints with their lines, the names of the tables, and each fact of all rows with its supports. A row is the place of its table and its number.
Project = namedtuple("Project", "inclusions ranges negatives functional constraints constants tables rows supports")


# Reading, up to the first event


def documents(names, read):
    """The axioms, the constraints and the mappings of three documents, and their names, or the first event."""
    vocabulary = axiom_reader.Vocabulary()
    made = []
    for name, word, most, reader in zip(names, ("ontology", "constraints"), (MOST_ONTOLOGY, MOST_CONSTRAINTS), (axiom_reader.Ontology, axiom_reader.Constraints)):
        source = opened(name, read)
        if len(source) > most:
            raise limit(f"bytes {word}")
        try:
            made.append(reader(source, vocabulary))
        except axiom_reader.Breach as breach:
            place, number, kind = breach.args
            if kind in ("depth", "names", "items", "atoms"):
                raise limit(f"{kind} {word} {place} {number}") from None
            raise refused(f"{word} {place} {number} {kind}") from None
    source = opened(names[2], read)
    if len(source) > MOST_DOCUMENT:
        raise limit("bytes mappings")
    mappings = Reader()
    mappings.names = {word: set(vocabulary.names[kind]) for word, kind in KIND_OF_WORD.items()}
    mappings.document(tree(tokens(source)))
    return *made, mappings, vocabulary


KIND_OF_WORD = {"Class": "class", "Role": "role", "Attr": "attribute"}


def opened(name, read):
    source = read(name)
    if source is None:
        raise Event(5, f"read fault {printed_text(name.encode())}\n")
    return source


def project_of(names, read, patience=None):
    """What three documents and their tables say, or the first event."""
    ontology, constraints, mappings, vocabulary = documents(names, read)
    inclusions = [(it["line"], it["item"]) for it in ontology.inclusions]
    ranges = [(line, it["attr"], it["kind"].lower()) for line, it in inclusions if it[""] == "Range"]
    inclusions = [it for it in inclusions if it[1][""] != "Range"]
    negatives, functional = ([(it["line"], it["item"]) for it in found] for found in (ontology.negatives, ontology.functional))
    said = [(it["line"], it["item"]) for it in constraints.list]
    judge_restrictions(inclusions, functional, said)
    if len(negatives) + len(ranges) + pairs_of_kinds(ranges) + len(functional) + len(said) > MOST_VIOLATIONS:
        raise limit("violations")
    if any(atoms_of(it) > MOST_ATOMS for _, it in said):
        raise TooLong
    rows = tables_of(mappings, read)
    constants = [value_of(it) for it in vocabulary.constants]
    places = {name: place for place, name in enumerate(mappings.tables)}
    supports = supports_of(mappings, rows, places, vocabulary, patience)
    every = [(places[name], number) for name in mappings.tables for number in range(1, len(rows[name]) + 1)]
    return Project(inclusions, ranges, negatives, functional, said, constants, list(mappings.tables), every, supports)


def pairs_of_kinds(ranges):
    """How many pairs of ranges have two kinds."""
    seen, pairs = defaultdict(int), 0
    for at, (_, _, kind) in enumerate(ranges):
        pairs += at - seen[kind]
        seen[kind] += 1
    return pairs


def atoms_of(constraint):
    """How many atoms the query of a constraint has."""
    if constraint[""] == "Identify":
        return 2 + 2 * sum(map(len, constraint["paths"]))
    return len(constraint["atoms"]) if constraint[""] == "Deny" else 2


def steps_of(constraint):
    """How many steps a part of a constraint may have from a term."""
    if constraint[""] == "Identify":
        return max(map(len, constraint["paths"]))
    return len(constraint["atoms"]) if constraint[""] == "Deny" else 1


def value_of(constant):
    """The value of a constant, as the cells have theirs."""
    kind, _, text = constant.partition(" ")
    return (kind, int(text)) if kind == "integer" else (kind, text.encode() if kind == "text" else text)


def tables_of(mappings, read):
    rows, left, most = {}, MOST_TABLES, MOST_ROWS
    for table in mappings.tables.values():
        file = opened(table.file, read)
        if len(file) > left:
            raise limit(f"bytes table {table.name}")
        left -= len(file)
        rows[table.name] = rows_of(table, file, most)
        most -= len(rows[table.name])
    return rows


def supports_of(mappings, rows, places, vocabulary, patience):
    """Each fact with its supports."""
    made = defaultdict(set)
    for it in mappings.maps:
        ways = 1
        for table, _ in it.query.entries:
            ways *= len(rows[table])
        if patience is not None and ways > patience:
            raise TooLong
        for numbers, outputs in choices(it.query, mappings.tables, rows):
            support = frozenset((places[table], number) for (table, _), number in zip(it.query.entries, numbers))
            for head in it.heads:
                terms = [term_of(term, outputs) for term in head.terms]
                if None not in terms:
                    form = ("Class", "Role", "Attr")[0 if len(terms) == 1 else 1 + (not isinstance(head.terms[1], Object))]
                    numbered = vocabulary.names[KIND_OF_WORD[form]]
                    made[form, numbered.setdefault(head.iri, len(numbered)), *terms].add(support)
    return made


def term_of(term, outputs):
    """The term of a slot or an object of a head, or None where a cell of it is missing."""
    if isinstance(term, Object):
        slots = [term_of(it, outputs) for it in term.slots]
        return None if None in slots else ("object", term.symbol, tuple(slots))
    return outputs[term[1]] if term[0] == "output" else term


# Restrictions


def inverse(expression):
    """The inverse of a role; an attribute has none and stays."""
    way, name = expression
    return {"Direct": "Inverse", "Inverse": "Direct"}.get(way, way), name


def judge_restrictions(inclusions, functional, constraints):
    """Tells the first breach of the restrictions."""
    steps = defaultdict(set)
    for _, it in inclusions:
        if it[""] == "Role":
            steps[it["sub"]].add(it["sup"])
            steps[inverse(it["sub"])].add(inverse(it["sup"]))
        elif it[""] == "Attr":
            steps["Attr", it["sub"]].add(("Attr", it["sup"]))

    def is_below(one, other):
        reached, due = {one}, [one]
        while due:
            new = steps[due.pop()] - reached
            reached |= new
            due += new
        return other in reached

    def are_equivalent(one, other):
        return is_below(one, other) and is_below(other, one)

    def specialises(it, expression):
        if it[""] == "Role":
            sides = it["sub"], it["sup"]
        elif it[""] == "Attr":
            sides = ("Attr", it["sub"]), ("Attr", it["sup"])
        elif it[""] == "Exists" and it["end"] != "None":
            sides = None, it["role"]
        else:
            return False
        if sides[0] and are_equivalent(*sides):
            return False
        return are_equivalent(expression, sides[1]) or are_equivalent(expression, inverse(sides[1]))

    stated = [property_of(it) for _, it in functional] + [property_of(it["prop"]) for _, it in constraints if it[""] == "Functional"]
    for line, it in inclusions:
        if any(specialises(it, expression) for expression in stated):
            raise refused(f"restrictions ontology line {line} funct-specialised")
    for line, it in constraints:
        if it[""] != "Identify":
            continue
        paths = [[property_of(step) for step in path if step[0] != "Test"] for path in it["paths"]]
        anchors = [path[0] for path in paths if len(path) == 1]
        if not anchors:
            raise refused(f"restrictions constraints line {line} not-local")
        if all(any(specialises(other, anchor) for _, other in inclusions) for anchor in anchors):
            raise refused(f"restrictions constraints line {line} anchor-specialised")


def property_of(it):
    """The expression of a functionality or a step: a role, an inverse role, or an attribute."""
    return it[1] if it[0] == "Role" else it


# What holds


def is_named(term):
    return term[0] != "successor"


class Holding:
    """The facts that hold over some facts: the members of each basic concept, and the pairs of each role, inverse role and attribute.

    Successors go on without end where axioms ask for it. What holds below a successor depends on the number of its inclusion alone. So it is enough to
    make, below each named term and below the first successor of each number, those that so many steps lead to as a pattern may have.
    """

    def __init__(self, project, facts, steps):
        self.members, self.pairs, self.seen, self.distance, self.steps = defaultdict(set), defaultdict(set), set(), {}, steps
        self.rules = defaultdict(list)
        for _, it in project.inclusions:
            self.rules[("Attr", it["sub"]) if it[""] == "Attr" else it["sub"]].append(it)
        held, due = set(facts), list(facts)
        while due:
            for new in self.follow(due.pop()):
                if new not in held:
                    held.add(new)
                    due.append(new)
            if len(held) > MOST_FACTS:
                raise TooLong

    def follow(self, fact):
        """Notes a fact, and gives those that one step leads to from it."""
        form, name, *terms = fact
        if form == "Class":
            shown, paired = [(("Class", name), terms[0])], []
        elif form == "Role":
            paired = [(("Direct", name), tuple(terms)), (("Inverse", name), (terms[1], terms[0]))]
            shown = [(("Some", ("Direct", name)), terms[0]), (("Some", ("Inverse", name)), terms[1])]
        else:
            shown, paired = [(("Subjects", name), terms[0])], [(("Attr", name), tuple(terms))]
        for concept, term in shown:
            self.members[concept].add(term)
            for it in self.rules.get(concept, ()):
                yield from self.member_step(it, term)
        for expression, pair in paired:
            self.pairs[expression].add(pair)
            for it in self.rules.get(expression, ()):
                yield ("Attr", it["sup"], *pair) if it[""] == "Attr" else pair_fact(it["sup"], *pair)

    def member_step(self, it, term):
        if it[""] == "Class":
            yield "Class", it["sup"], term
            return
        made = self.successor(term, it["k"])
        if made is None:
            return
        if it[""] == "HasValue":
            yield "Attr", it["attr"], term, made
        else:
            yield pair_fact(it["role"], term, made)
            if it["end"] != "None":
                yield "Class", it["end"][1], made

    def successor(self, term, number):
        made = ("successor", term, number)
        if made not in self.distance:
            if number not in self.seen:
                self.seen.add(number)
                self.distance[made] = 0
            elif self.distance.get(term, 0) < self.steps:
                self.distance[made] = self.distance.get(term, 0) + 1
            else:
                return None
        return made

    def ends(self, term, path):
        """The terms that a path leads to."""
        found = {term}
        for step in path:
            if step[0] == "Test":
                found &= self.members["Class", step[1]]
            else:
                found = {end for start, end in self.pairs[property_of(step)] if start in found}
        return found


def pair_fact(role, one, other):
    way, name = role
    return ("Role", name, one, other) if way == "Direct" else ("Role", name, other, one)


# What is broken


def broken(project, facts):
    """The origins that are broken over these facts: each a ground, a document and a line."""
    held = Holding(project, facts, 1 + max([1, *(steps_of(it) for _, it in project.constraints)]))
    found = {("disjoint" if it[""] != "Irreflexive" else "irreflexive", "ontology", line) for line, it in project.negatives if is_negative_broken(held, it)}
    found |= {("type", "ontology", project.ranges[at][0]) for at in range(len(project.ranges)) if is_range_broken(held, project.ranges, at)}
    found |= {("functional", "ontology", line) for line, it in project.functional if is_functional_broken(held, property_of(it))}
    for line, it in project.constraints:
        if it[""] == "Functional" and is_functional_broken(held, property_of(it["prop"])):
            found.add(("functional", "constraints", line))
        if it[""] == "Identify" and is_identification_broken(held, it):
            found.add(("identify", "constraints", line))
        if it[""] == "Deny" and matches(held, it["atoms"], project.constants, {}):
            found.add(("deny", "constraints", line))
    return found


def is_negative_broken(held, it):
    if it[""] == "Irreflexive":
        return any(one == other for one, other in held.pairs["Direct", it["role"]])
    if it[""] == "Concepts":
        return not held.members[it["left"]].isdisjoint(held.members[it["right"]])
    left, right = (it["left"], it["right"]) if it[""] == "Roles" else (("Attr", it["left"]), ("Attr", it["right"]))
    return not held.pairs[left].isdisjoint(held.pairs[right])


def is_range_broken(held, ranges, at):
    _, attribute, kind = ranges[at]
    values = {value for _, value in held.pairs["Attr", attribute]}
    if any(is_named(it) and it[0] != kind for it in values):
        return True
    return any(value in values for _, other, wanted in ranges[:at] if wanted != kind for _, value in held.pairs["Attr", other])


def is_functional_broken(held, expression):
    fillers = defaultdict(set)
    for subject, filler in held.pairs[expression]:
        if is_named(subject) and is_named(filler):
            fillers[subject].add(filler)
    return any(len(it) > 1 for it in fillers.values())


def is_identification_broken(held, it):
    ends = {term: [held.ends(term, path) for path in it["paths"]] for term in held.members[it["concept"]] if is_named(term)}
    by_first = defaultdict(list)
    for term, found in ends.items():
        for end in found[0]:
            by_first[end].append(term)
    return any(
        all(not one.isdisjoint(other) for one, other in zip(ends[x], ends[y]))
        for terms in by_first.values()
        for x, y in itertools.combinations(terms, 2)
    )


def matches(held, atoms, constants, bound):
    """Whether some assignment that goes on from this one makes all atoms hold."""
    if not atoms:
        return True
    first, *rest = atoms

    if first[""] == "Class":
        arguments, found = [first["arg"]], {(it,) for it in held.members["Class", first["name"]]}
    else:
        arguments = [first["from"], first["to" if first[""] == "Role" else "value"]]
        found = held.pairs["Direct" if first[""] == "Role" else "Attr", first["name"]]
    for terms in found:
        more = dict(bound)
        for argument, term in zip(arguments, terms):
            known = constants[argument[1]] if argument[0] == "Constant" else more.get(argument[1])
            if known is not None and known != term:
                break
            if argument[0] == "Var":
                more[argument[1]] = term
        else:
            if matches(held, rest, constants, more):
                return True
    return False


# Rows and conflicts


def facts_of(project, rows):
    """The facts that have a support among these rows."""
    return [fact for fact, supports in project.supports.items() if any(it <= rows for it in supports)]


def broken_by(project, rows):
    return broken(project, facts_of(project, frozenset(rows)))


def is_conflict(project, rows):
    rows = frozenset(rows)
    return bool(broken_by(project, rows)) and not any(broken_by(project, rows - {it}) for it in rows)


def conflict_text(project, origin, rows):
    ground, document, line = origin
    return f"conflict {ground} {document} line {line}\n" + "".join(f"row {project.tables[table]} {number}\n" for table, number in sorted(rows))


def all_conflicts(project):
    """Each right text of a conflict, where there are few rows."""
    found, texts = [], set()
    for size in range(1, len(project.rows) + 1):
        for rows in itertools.combinations(project.rows, size):
            if any(it <= set(rows) for it in found):
                continue
            origins = broken_by(project, rows)
            if origins:
                found.append(set(rows))
                texts |= {conflict_text(project, it, rows) for it in origins}
    return texts


CONFLICT = re.compile(r"conflict ([a-z]+) (ontology|constraints) line ([0-9]+)\n((?:row [A-Za-z0-9_]+ [0-9]+\n)+)")


def wrong_with(project, status, text):
    """Says what is wrong with the status and the text that are given for a project without an event, or None."""
    if not broken_by(project, project.rows):
        return None if (status, text) == (0, b"consistent\n") else "nothing is broken"
    said = CONFLICT.fullmatch(text.decode(errors="replace"))
    if status != 3 or not said:
        return f"the rows have no model: {sorted(broken_by(project, project.rows))}"
    places = {name: place for place, name in enumerate(project.tables)}
    rows = [(places.get(table), int(number)) for table, number in re.findall(r"row (\S+) ([0-9]+)\n", said[4])]
    origin = said[1], said[2], int(said[3])
    if any(it not in project.rows for it in rows) or rows != sorted(set(rows)):
        return "the rows are none of the tables, or not in order"
    if text.decode() != conflict_text(project, origin, rows):
        return "the text is not printed as it should be"
    if origin not in broken_by(project, rows):
        return f"the rows do not break this: they break {sorted(broken_by(project, rows))}"
    return None if is_conflict(project, rows) else "a row can be spared"


# The cases


def files_of(words):
    """The three files of the words of a `check`, or None where they are no task."""
    files, workers, ended, words = [], 0, False, iter(words[1:])
    for word in words:
        if ended or word == b"-" or not word.startswith(b"-"):
            files.append(word)
        elif word == b"--":
            ended = True
        else:
            value = word[10:] if word.startswith(b"--workers=") else next(words, b"") if word == b"--workers" else b""
            workers += 1
            if value not in [b"%d" % it for it in range(1, 17)]:
                return None
    try:
        return [it.decode() for it in files] if len(files) == 3 and workers < 2 else None
    except UnicodeDecodeError:
        return None


def event_or_project(words, folder):
    """The status and text of the first event, or the project."""
    names = files_of(words)
    if names is None:
        return (1, USAGE), None
    try:
        return None, project_of(names, read_in(folder), PATIENCE)
    except Event as event:
        return (event.args[0], event.args[1].encode()), None


def judged(words, folder, status, texts):
    """What is wrong with the status and the right texts of a case, or None."""
    event, project = event_or_project(words, folder)
    if event:
        return None if (status, texts) == (event[0], [event[1]]) else f"the judge says {event[0]} {event[1][:200]}"
    for text in texts:
        wrong = wrong_with(project, status, text)
        if wrong:
            return f"{text}: {wrong}"
    if status == 3 and len(project.rows) <= FEW_ROWS:
        others = sorted(all_conflicts(project) - {it.decode() for it in texts})
        if others:
            return f"there are other right texts: {others}"
    return None


def main(names):
    runner = cases_runner()
    known = sorted(it.name for it in os.scandir(runner.CASES) if it.is_dir())
    made = {name: (case, variant) for case in known for name, variant in runner.variants_of(case).items()}
    agree = differ = left_out = 0
    for name, (case, variant) in made.items():
        words = runner.words_of(case)
        if names and name not in names and case not in names or words[:1] != [b"check"]:
            continue
        try:
            with tempfile.TemporaryDirectory(prefix="second check ") as folder:
                runner.lay_out(case, folder, variant)
                if not names and size_of(folder) > LARGE:
                    raise TooLong
                wrong = judged(words, folder, *runner.wanted_of(case, variant))
        except TooLong:
            left_out += 1
            print(f"{name}: left out", flush=True)
            continue
        agree += not wrong
        differ += bool(wrong)
        if wrong:
            print(f"{name}: {wrong}", flush=True)
    print(f"{agree} agree, {differ} differ, {left_out} left out")
    return 1 if differ or not agree else 0


if __name__ == "__main__":
    sys.exit(main(sys.argv[1:]))
