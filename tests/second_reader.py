#!/usr/bin/env python3
"""A second reader of what `mastro facts` reads: tests/second_reader.py [NAME..] compares it with the cases of tests/cases.

It is written after the notations of documents, mappings, source queries and table files alone, in another language and another way than
the program, so that a definition that says something else than they do shows: tokens by regular expressions, trees by a stack, the
shape by one exception in preorder, grammars by tables of what may follow, and facts by nested loops over the rows.
`random` runs the program against it.

Run as a script it answers the cases whose words are `facts FILE`, and needs no program. It leaves out those that would take its loops too long
and, where none is named, the large ones. The last line is `N agree, M differ, K left out`, and the status is 0 only where none differs.
"""

import datetime
import importlib.machinery
import importlib.util
import os
import re
import sys
import tempfile
from collections import namedtuple

# (a number may have any number of zeros in front)
sys.set_int_max_str_digits(0)

MARK = b"\xef\xbb\xbf"
BLANKS = " \t\r\n"
MOST_OPEN, MOST_NAMES, MOST_ALIASES = 64, 65_535, 8
MOST_DOCUMENT, MOST_TABLES, MOST_ROWS = 16_777_216, 134_217_728, 2_000_000
LARGE, PATIENCE = 500_000, 3_000_000
SPACES = {
    "owl:": "http://www.w3.org/2002/07/owl#",
    "rdf:": "http://www.w3.org/1999/02/22-rdf-syntax-ns#",
    "rdfs:": "http://www.w3.org/2000/01/rdf-schema#",
    "xsd:": "http://www.w3.org/2001/XMLSchema#",
}


class Event(Exception):
    """The first event of a run: its status and its line."""


class TooLong(Exception):
    """The loops below would take too long."""


def refused(line):
    return Event(2, f"refused {line}\n")


def limit(line):
    return Event(4, f"limit {line}\n")


def shape(line, kind="shape"):
    return refused(f"mappings line {line} {kind}")


# Documents: tokens and trees

LANGUAGE = "[A-Za-z0-9-]+"
NAME = "[A-Za-z0-9_.:%?\u0080-\U0010ffff-]+"
STRING = '"(?:[^"\\\\]|\\\\["\\\\])*"'
TOKENS = re.compile(f'(?P<one>[()=])|(?P<carets>\\^\\^)|(?P<lang>@{LANGUAGE})|(?P<iri><[^<>"\x00-\x20]*>)|(?P<name>{NAME})|(?P<str>{STRING})', re.S)
IDENTIFIER = re.compile("[A-Za-z_][A-Za-z0-9_]*")

Token = namedtuple("Token", "kind text line")
# (a leaf, iri, str, bind or node: its word, what it holds, and whether a string has a type or a language)
Item = namedtuple("Item", "form word line items tagged")


def tokens(document):
    """The tokens of a document."""
    try:
        text = document.decode()
    except UnicodeDecodeError as at:
        raise refused(f"mappings byte {at.start} not-utf8") from None
    made, at, line = [], 0, 1
    while at < len(text):
        if text[at] in BLANKS or (at == 0 and text[at] == "\ufeff"):
            end = at + 1
        elif text[at] == "#":
            end = (text.find("\n", at) + 1) or len(text)
        elif found := TOKENS.match(text, at):
            made.append(Token(found[0] if found.lastgroup == "one" else found.lastgroup, found[0], line))
            end = found.end()
        else:
            place, kind = at, {"<": "open-iri", '"': "open-string"}.get(text[at], "character")
            if kind == "open-string":
                rest = re.compile(r'(?:[^\\]|\\["\\])*').match(text, at)
                if rest.end() < len(text):
                    place, kind = rest.end(), "escape"
            raise refused(f"mappings byte {len(text[:place].encode())} {kind}")
        line += text.count("\n", at, end)
        at = end
    return made


def judge_tree(kinds):
    """Tells the first breach of the tree. What may follow goes by how many are open and the last token."""
    depth, last = 0, "item"
    follows = {
        "item": {"name": "named", "iri": "item", "str": "string"},
        "named": {"=": "bound"},
        "bound": {"iri": "item"},
        "string": {"carets": "typed", "lang": "item"},
        "typed": {"name": "item", "iri": "item"},
    }
    for number, kind in enumerate(kinds):
        if kind == "(" and depth == MOST_OPEN:
            raise limit(f"depth mappings token {number}")
        if last == "named" and kind == "(":
            depth, last = depth + 1, "item"
        elif kind in follows[last]:
            last = follows[last][kind]
        elif last in ("item", "named", "string") and kind == ")" and depth:
            depth, last = depth - 1, "item"
        elif last in ("named", "string") and kind in follows["item"]:
            last = follows["item"][kind]
        else:
            raise refused(f"mappings token {number} unexpected")
    if depth or last in ("bound", "typed"):
        raise refused(f"mappings token {len(kinds)} unexpected")


def unescaped(string):
    return re.sub(r"\\(.)", r"\1", string[1:-1], flags=re.S)


def tree(made):
    """The items of the tokens of a tree."""
    judge_tree([it.kind for it in made])
    top, at = [], 0
    lists = [top]
    while at < len(made):
        kind, text, line = made[at]
        after = made[at + 1].kind if at + 1 < len(made) else None
        if kind == ")":
            lists.pop()
            at += 1
        elif kind == "name" and after == "(":
            lists[-1].append(Item("node", text, line, [], False))
            lists.append(lists[-1][-1].items)
            at += 2
        elif kind == "name" and after == "=":
            lists[-1].append(Item("bind", text, line, made[at + 2].text[1:-1], False))
            at += 3
        elif kind == "str":
            lists[-1].append(Item("str", unescaped(text), line, None, after in ("carets", "lang")))
            at += {"carets": 3, "lang": 2}.get(after, 1)
        else:
            lists[-1].append(Item("leaf" if kind == "name" else "iri", text if kind == "name" else text[1:-1], line, None, False))
            at += 1
    return top


# Source queries

KEYWORDS = set("SELECT DISTINCT FROM WHERE AS AND OR NOT EXISTS UNION EXCEPT INTERSECT PREFIX SPARQLTABLE DATE".split())
WORD = "[A-Za-z_][A-Za-z0-9_]*"
RUN = "[A-Za-z0-9_\u0080-\U0010ffff-]"
SQL_TOKENS = [
    ("word", WORD),
    ("pname", f"(?:{WORD})?:(?:{RUN}+(?:\\.{RUN}+)*)?"),
    ("var", f"[?$]{WORD}"),
    ("iri", '<[A-Za-z][A-Za-z0-9+.-]*:[^\x00-\x20<>"{}]*>'),
    ("integer", "-?[0-9]+"),
    ("quoted", "'(?:[^']|'')*'"),
    ("doubled", STRING),
    ("sign", "\\^\\^|<>|!=|<=|>=|[(){},.;=<>]"),
]
SQL_TOKENS = [(kind, re.compile(form, re.S)) for kind, form in SQL_TOKENS]
COMMENT = re.compile("(?:--|#)[^\n]*")
SIGNS = ("=", "<>", "!=", "<", "<=", ">", ">=")

Query = namedtuple("Query", "items entries comparisons")


class SqlBreach(Exception):
    """The token of the first breach of a source query's tokens and grammar, or `aliases`."""


def sql_tokens(text):
    made, at = [], 0
    while at < len(text):
        if text[at] in BLANKS or (at == 0 and text[at] == "\ufeff"):
            at += 1
        elif found := COMMENT.match(text, at):
            at = found.end()
        else:
            ways = [(found[0], kind) for kind, form in SQL_TOKENS if (found := form.match(text, at))]
            if not ways:
                raise SqlBreach(len(made))
            longest, kind = max(ways, key=lambda it: len(it[0]))
            made.append((longest, kind))
            at += len(longest)
    return made


def is_date(text):
    try:
        return bool(re.fullmatch("[0-9]{4}-[0-9]{2}-[0-9]{2}", text)) and bool(datetime.date(*map(int, text.split("-"))))
    except ValueError:
        return False


def is_integer(text):
    found = re.fullmatch("[+-]?0*([0-9]+)", text)
    return bool(found) and len(found[1]) < 20 and -(2**63) <= int(text) < 2**63


def quoted(text):
    return text[1:-1].replace("''", "'")


def sql_class(token):
    """What the grammar may take a token for: a keyword, a name, a sign, or the kinds of value that it can be."""
    text, kind = token
    if kind == "word":
        return {text.upper()} if text.upper() in KEYWORDS else {"name"}
    if kind == "integer":
        return {"integer"} if is_integer(text) else set()
    if kind == "quoted":
        return {"text", "date"} if is_date(quoted(text)) else {"text"}
    return {"sign" if text in SIGNS else text} if kind == "sign" else set()


def operand(side, after):
    """What follows on each part of an operand, `after` what follows it."""
    whole = {"name": f"{side} name", "integer": f"{side} done", "text": f"{side} done", "DATE": f"{side} date"}
    name, done = {".": f"{side} dot", **after}, {**after}
    return {side: whole, f"{side} name": name, f"{side} dot": {"name": f"{side} done"}, f"{side} date": {"date": f"{side} done"}, f"{side} done": done}


ITEM_ENDS = {",": "item", "FROM": "from"}
ENTRY_ENDS = {",": "from", "WHERE": "left", "end": "end"}
QUERY_FOLLOWS = {
    "begin": {"SELECT": "select"},
    "select": {"DISTINCT": "item", "name": "item name"},
    "item": {"name": "item name"},
    "item name": {".": "item dot", "AS": "item as", **ITEM_ENDS},
    "item dot": {"name": "item column"},
    "item column": {"AS": "item as", **ITEM_ENDS},
    "item as": {"name": "item done"},
    "item done": ITEM_ENDS,
    "from": {"name": "entry name"},
    "entry name": {"AS": "entry as", "name": "entry done", **ENTRY_ENDS},
    "entry as": {"name": "entry done"},
    "entry done": ENTRY_ENDS,
    **operand("left", {"sign": "right"}),
    **operand("right", {"AND": "left", "end": "end"}),
}


def judge_query(made):
    """Tells the first breach of the grammar, or the limit of aliases."""
    last, entries = "begin", 0
    for number, classes in enumerate([sql_class(it) for it in made] + [{"end"}]):
        way = next((it for it in QUERY_FOLLOWS[last] if it in classes), None)
        if way is None:
            raise SqlBreach(number)
        entries += last == "from"
        if entries > MOST_ALIASES:
            raise SqlBreach("aliases")
        last = QUERY_FOLLOWS[last][way]


def split_at(made, word):
    """The tokens between those of this class."""
    parts = [[]]
    for it in made:
        if word in sql_class(it):
            parts.append([])
        else:
            parts[-1].append(it)
    return parts


def column_of(part):
    """The alias, if there is one, and the name of a column."""
    return (part[0][0], part[2][0]) if len(part) == 3 else (None, part[0][0])


def operand_of(part):
    if part[0][1] == "word" and len(part) != 2:
        return "column", column_of(part)
    kind, text = part[-1][1], part[-1][0]
    if kind == "integer":
        return "integer", int(text)
    return ("date", quoted(text)) if len(part) == 2 else ("text", quoted(text).encode())


def comparison_of(part):
    place = next(i for i, it in enumerate(part) if "sign" in sql_class(it))
    return operand_of(part[:place]), part[place][0], operand_of(part[place + 1 :])


def read_query(text):
    """The source query of a text: items with column and output, entries with table and alias, and comparisons."""
    made = sql_tokens(text)
    judge_query(made)
    [_, rest] = split_at(made, "SELECT")
    [front, rest] = split_at([it for it in rest if "DISTINCT" not in sql_class(it)], "FROM")
    [entries, *where] = split_at(rest, "WHERE")
    items = []
    for part in split_at(front, ","):
        [column, *output] = split_at(part, "AS")
        items.append((column_of(column), output[0][0][0] if output else column[-1][0]))
    entries = [[it[0] for it in part if "name" in sql_class(it)] for part in split_at(entries, ",")]
    comparisons = [comparison_of(it) for part in where for it in split_at(part, "AND")]
    return Query(items, [(it[0], it[-1]) for it in entries], comparisons)


# Mappings

Table = namedtuple("Table", "name file columns")
Map = namedtuple("Map", "query heads")
# (a head: its IRI, and one or two terms, each an object with a symbol and slots, or a slot; a slot is an output or a value with its kind)
Head = namedtuple("Head", "iri terms")
Object = namedtuple("Object", "symbol slots")


class Reader:
    """Reads the items of a mapping document in preorder, and tells the first that is wrong."""

    def __init__(self):
        self.prefixes, self.tables, self.maps = dict(SPACES), {}, []
        self.names = {"Class": set(), "Role": set(), "Attr": set()}

    def document(self, items):
        seen = set()
        for place, item in enumerate(items):
            if item.form == "node" and item.word == "Mappings":
                for inside in item.items:
                    self.item(inside)
                if items[place + 1 :]:
                    raise shape(items[place + 1].line)
                return
            self.want(item, item.form == "node" and item.word == "Prefix" and len(item.items) == 1)
            [bind] = item.items
            self.want(bind, bind.form == "bind" and bind.word.endswith(":") and bind.word.count(":") == 1)
            self.want(item, bind.word not in seen)
            seen.add(bind.word)
            self.prefixes[bind.word] = bind.items
        raise shape(1)

    def want(self, item, right, kind="shape"):
        if not right:
            raise shape(item.line, kind)

    def node(self, item, words, least, most=None):
        self.want(item, item.form == "node" and item.word in words)
        self.want(item, least <= len(item.items) <= (most or len(item.items)))
        return item.items

    def identifier(self, item):
        self.want(item, item.form == "leaf" and IDENTIFIER.fullmatch(item.word))
        return item.word

    def string(self, item):
        self.want(item, item.form == "str" and not item.tagged)
        return item.word

    def item(self, item):
        self.node(item, ("Table", "Map"), 0)
        (self.table if item.word == "Table" else self.map)(item)

    def table(self, item):
        [name, file, *columns] = self.node(item, ("Table",), 3)
        self.identifier(name)
        self.want(name, name.word not in self.tables, "double-name")
        table = Table(name.word, self.string(file), {})
        for column in columns:
            [word, kind, *null] = self.node(column, ("Column",), 2, 3)
            self.identifier(word)
            self.want(word, word.word not in table.columns, "double-name")
            self.want(kind, kind.form == "leaf" and kind.word in ("text", "integer", "date"))
            for it in null:
                self.want(it, it.form == "leaf" and it.word == "Null")
            table.columns[word.word] = (kind.word, bool(null))
        self.tables[name.word] = table

    def map(self, item):
        [string, *heads] = self.node(item, ("Map",), 2)
        try:
            query = read_query(self.string(string))
        except SqlBreach as breach:
            [token] = breach.args
            raise (limit(f"aliases mappings line {string.line}") if token == "aliases" else shape(string.line, f"sql {token}")) from None
        self.meaning(string, query)
        self.maps.append(Map(query, [self.head(it, {output for _, output in query.items}) for it in heads]))

    def meaning(self, string, query):
        """Judges what the names of a source query mean."""
        before = set()
        for table, alias in query.entries:
            self.want(string, table in self.tables, "unknown-table")
            self.want(string, alias not in before, "double-name")
            before.add(alias)
        before = set()
        for column, output in query.items:
            self.kind(string, query, ("column", column))
            self.want(string, output not in before, "double-name")
            before.add(output)
        for left, _, right in query.comparisons:
            kinds = [self.kind(string, query, side) for side in (left, right)]
            self.want(string, kinds[0] == kinds[1], "kind-clash")

    def kind(self, string, query, side):
        if side[0] != "column":
            return side[0]
        meant = meant_entries(query, self.tables, side[1])
        self.want(string, len(meant) == 1, "unknown-column")
        return self.tables[query.entries[meant[0]][0]].columns[side[1][1]][0]

    def head(self, item, outputs):
        most = {"Class": 2, "Role": 3, "Attr": 3}.get(item.word)
        [name, *terms] = self.node(item, self.names, most, most)
        return Head(self.name(name, item.word), [(self.slot if item.word == "Attr" and i else self.object)(it, outputs) for i, it in enumerate(terms)])

    def name(self, item, kind):
        self.want(item, item.form == "iri" or (item.form == "leaf" and ":" in item.word))
        iri = item.word
        if item.form == "leaf":
            prefix, colon, rest = iri.partition(":")
            self.want(item, prefix + colon in self.prefixes, "unknown-prefix")
            iri = self.prefixes[prefix + colon] + rest
        self.want(item, not iri.startswith(tuple(SPACES.values())), "not-dl-lite")
        other = {"Role": "Attr", "Attr": "Role"}.get(kind)
        self.want(item, other is None or iri not in self.names[other], "two-kinds")
        self.names[kind].add(iri)
        if len(self.names[kind]) > MOST_NAMES:
            raise limit(f"names mappings line {item.line}")
        return iri

    def object(self, item, outputs):
        [symbol, *slots] = self.node(item, ("Obj",), 1)
        return Object(self.identifier(symbol), [self.slot(it, outputs) for it in slots])

    def slot(self, item, outputs):
        if item.form == "node":
            [inside] = self.node(item, ("Int", "Text", "Date"), 1, 1)
            if item.word == "Int":
                self.want(inside, inside.form == "leaf")
                self.want(inside, is_integer(inside.word), "bad-constant")
                return "integer", int(inside.word)
            text = self.string(inside)
            self.want(inside, item.word == "Text" or is_date(text), "bad-constant")
            return ("text", text.encode()) if item.word == "Text" else ("date", text)
        self.want(item, self.identifier(item) in outputs, "unknown-column")
        return "output", item.word


def meant_entries(query, tables, column):
    """The places of the entries that a column can mean: it means something where there is one."""
    alias, name = column
    return [i for i, (table, other) in enumerate(query.entries) if alias in (None, other) and name in tables[table].columns]


# Tables


def records(file):
    """The records of a table file."""
    file, at, made = file.removeprefix(MARK), 0, []
    while at < len(file):
        if file[at] in b"\r\n":
            at += 1
            continue
        cells, more = [], True
        while more:
            found = re.compile(rb'"((?:[^"]|"")*)(?:"|\Z)').match(file, at)
            front = found[1].replace(b'""', b'"') if found else b""
            rest = re.compile(rb"[^,\r\n]*").match(file, found.end() if found else at)
            cells.append(front + rest[0])
            more = file[rest.end() : rest.end() + 1] == b","
            at = rest.end() + 1
        made.append(cells)
    return made


def cell_value(cell, kind, null):
    """The value of a cell, None where it is missing, and the kind of its breach."""
    try:
        text = cell.decode()
    except UnicodeDecodeError:
        return None, "not-utf8"
    if not cell and (null or kind != "text"):
        return None, None if null else "missing"
    if kind == "text":
        return (kind, cell), None
    if kind == "integer":
        return ((kind, int(text)), None) if text.isascii() and is_integer(text) else (None, "bad-int")
    return ((kind, text), None) if is_date(text) else (None, "bad-date")


def rows_of(table, file, most):
    """The rows of a table's file, of which there may be so many: their values by column."""

    def wrong(number, column, kind):
        return refused(f"table {table.name} record {number} column {column} {kind}")

    names, made, rows = [it.encode() for it in table.columns], records(file), []
    header = made[0] if made else []
    if not made or header != names:
        pairs = zip(header + [None] * len(names), names + [None] * len(header))
        raise wrong(0, 1 + next((i for i, (a, b) in enumerate(pairs) if a != b), 0), "header")
    for number, cells in enumerate(made[1:], 1):
        if number > most:
            raise limit(f"rows table {table.name} record {number}")
        if len(cells) != len(names):
            raise wrong(number, 1 + min(len(cells), len(names)), "width")
        row = {}
        for cell, (name, (kind, null)) in zip(cells, table.columns.items()):
            row[name], breach = cell_value(cell, kind, null)
            if breach:
                raise wrong(number, len(row), breach)
        rows.append(row)
    return rows


# Facts

ESCAPES = {ord("\\"): "\\\\", ord('"'): '\\"', ord("\n"): "\\n", ord("\r"): "\\r", ord("\t"): "\\t"}
MEANS = {
    "=": lambda a, b: a == b,
    "<>": lambda a, b: a != b,
    "!=": lambda a, b: a != b,
    "<": lambda a, b: a < b,
    "<=": lambda a, b: a <= b,
    ">": lambda a, b: a > b,
    ">=": lambda a, b: a >= b,
}


def printed_text(text):
    return '"' + text.decode().translate(ESCAPES) + '"'


def printed_value(value):
    return printed_text(value[1]) if value[0] == "text" else str(value[1])


def choices(query, tables, rows):
    """Each choice of one row for each alias that meets the query, as the numbers of the rows, and its outputs: a row is chosen after another, and
    a comparison judged where it can be."""

    def value(side, chosen):
        if side[0] != "column":
            return side
        return chosen[meant_entries(query, tables, side[1])[0]][side[1][1]]

    def last_entry(comparison):
        return max((meant_entries(query, tables, it[1])[0] for it in (comparison[0], comparison[2]) if it[0] == "column"), default=0)

    due = [[it for it in query.comparisons if last_entry(it) == place] for place in range(len(query.entries))]

    def met(comparison, chosen):
        left, right = value(comparison[0], chosen), value(comparison[2], chosen)
        return left is not None and right is not None and MEANS[comparison[1]](left[1], right[1])

    def from_place(numbers, chosen):
        if len(chosen) == len(query.entries):
            yield numbers, {output: value(("column", column), chosen) for column, output in query.items}
            return
        for number, row in enumerate(rows[query.entries[len(chosen)][0]], 1):
            more = [*chosen, row]
            if all(met(it, more) for it in due[len(chosen)]):
                yield from from_place([*numbers, number], more)

    return from_place([], [])


def fact_line(head, outputs):
    """The line of a head's fact, or None where it uses a missing cell."""

    def slot(it):
        return outputs[it[1]] if it[0] == "output" else it

    def term(it):
        if isinstance(it, Object):
            return f"{it.symbol}({','.join(printed_value(slot(arg)) for arg in it.slots)})"
        return printed_value(slot(it))

    used = [slot(it) for part in head.terms for it in (part.slots if isinstance(part, Object) else [part])]
    return None if None in used else f"<{head.iri}>({','.join(term(it) for it in head.terms)})".encode()


def facts_answer(mappings, read, patience=None):
    """The status and the text of `facts` over this mapping document. `read` gives the content of a file, or None where it can't be read."""
    try:
        document = read(mappings)
        if document is None:
            return 5, f"read fault {printed_text(mappings.encode())}\n".encode()
        if len(document) > MOST_DOCUMENT:
            raise limit("bytes mappings")
        reader = Reader()
        reader.document(tree(tokens(document)))
        rows, left, most = {}, MOST_TABLES, MOST_ROWS
        for table in reader.tables.values():
            file = read(table.file)
            if file is None:
                return 5, f"read fault {printed_text(table.file.encode())}\n".encode()
            if len(file) > left:
                raise limit(f"bytes table {table.name}")
            left -= len(file)
            rows[table.name] = rows_of(table, file, most)
            most -= len(rows[table.name])
    except Event as event:
        return event.args[0], event.args[1].encode()
    lines = set()
    for it in reader.maps:
        ways = 1
        for table, _ in it.query.entries:
            ways *= len(rows[table])
        if patience is not None and ways > patience:
            raise TooLong
        for _, outputs in choices(it.query, reader.tables, rows):
            lines.update(line for head in it.heads if (line := fact_line(head, outputs)) is not None)
    return 0, b"".join(line + b"\n" for line in sorted(lines))


# The cases


def read_in(folder):
    def read(name):
        try:
            with open(os.path.join(folder, name), "rb") as it:
                return it.read()
        except (OSError, ValueError):
            return None

    return read


def cases_runner():
    """The script `run` beside this one, which knows how a case is kept."""
    path = os.path.join(os.path.dirname(os.path.realpath(__file__)), "run")
    loader = importlib.machinery.SourceFileLoader("run_cases", path)
    module = importlib.util.module_from_spec(importlib.util.spec_from_loader("run_cases", loader))
    loader.exec_module(module)
    return module


def file_of(words):
    """The mapping document of the words `facts FILE`, or None where they are others."""
    files = [it for i, it in enumerate(words) if it != b"--" or b"--" in words[:i]][1:]
    named = words[:1] == [b"facts"] and len(files) == 1 and (files[0][:1] != b"-" or files[0] == b"-" or words[1] == b"--")
    return os.fsdecode(files[0]) if named and not files[0].startswith(b"\xff") else None


def size_of(folder):
    return sum(os.path.getsize(os.path.join(it, name)) for it, _, names in os.walk(folder) for name in names)


def main(names):
    runner = cases_runner()
    known = sorted(it.name for it in os.scandir(runner.CASES) if it.is_dir())
    made = {name: (case, variant) for case in known for name, variant in runner.variants_of(case).items()}
    agree = differ = left_out = 0
    for name, (case, variant) in made.items():
        if names and name not in names and case not in names:
            continue
        mappings = file_of(runner.words_of(case))
        try:
            if mappings is None:
                raise TooLong
            with tempfile.TemporaryDirectory(prefix="second reader ") as folder:
                runner.lay_out(case, folder, variant)
                if not names and size_of(folder) > LARGE:
                    raise TooLong
                given = facts_answer(mappings, read_in(folder), PATIENCE)
        except TooLong:
            left_out += 1
            continue
        status, [text, *others] = runner.wanted_of(case, variant)
        if given == (status, text) and not others:
            agree += 1
        else:
            differ += 1
            print(f"{name}: the case says {status} {text[:300]}, and the reader {given[0]} {given[1][:300]}", flush=True)
    print(f"{agree} agree, {differ} differ, {left_out} left out")
    return 1 if differ or not agree else 0


if __name__ == "__main__":
    sys.exit(main(sys.argv[1:]))
