#!/usr/bin/env python3
"""Translates definitions of `crates/*/specs` to Coq.

    antt2coq.py CRATES > Translated.v

It begins with the definitions of ROOTS, wherever they are, and goes on with all that they cite,
as each module's `use` lines say it. So neither the names of crates nor their modules are in the
output, and a definition may move without a change there.

Types come from the Rust files that the modules name. Several records have a field of the same name:
so a field is a class (`get _token r` reads one, `put _token v r` replaces one). A record of facts becomes
`exists .., .. /\\ ..`, or a record of Coq if a definition asks for one of its fields. No definition
has a rule of its own here, and what the script doesn't know, it refuses."""

import re
import sys
import textwrap
from dataclasses import dataclass, field
from itertools import groupby
from operator import itemgetter
from pathlib import Path

# The definitions that Same.v and SameReasons.v speak about: the verdict, streams, and the law of the open world; and
# what SameNode.v does: the standard node's runs, and which stamps its events give.
ROOTS = ["IsVerdict", "IsStreams", "IsFollowing", "AllPaired", "NoReset", "IsShownWithOthers", "IsNever",
         "node_run", "seen_stream", "NoNodeReset", "ReportsTokens", "PutsBackOwn", "IsGiven"]

# The words that Rattle's library has, and Library.v or Coq's own library too.
LIBRARY = {
    "ℕ": "N", "Bool": "bool", "List": "list", "Option": "option", "Ordering": "comparison", "Unit": "True",
    "Less": "Lt", "nat_cmp": "N.compare", "nat_lt": "N.ltb", "length": "len", "not": "negb", "max": "N.max",
    "zero": "0", "true": "true", "false": "false", "Some": "Some",
    "None": "None", "⊥": "False",
}
SAME_IN_LIBRARY = """All AllByRecursion AllPairs Contains IsPrefix IsSome is_lt is_none is_some list_any
    option_and_then option_map option_map_or option_to_list ordering_then position remove slice_get sum_by
    take""".split()
LIBRARY |= {name: name for name in SAME_IN_LIBRARY}
LIBRARY_TYPES = {"ℕ", "Bool", "List", "Option", "Ordering"}
RUST_TYPES = {"u16": "N", "u32": "N", "u64": "N", "bool": "bool"}

# By operator: how it binds, to which side it groups, and what it is in Coq (as a type, as a proposition).
OPERATORS = {
    "→": (1, "right", "->", "->"), "⊎": (2, "right", None, "\\/"), "×": (3, "right", "*", "/\\"),
    "≡": (4, "none", "=", "="), "≢": (4, "none", "<>", "<>"), "<": (4, "none", "<", "<"),
    "≤": (4, "none", "<=", "<="), "||": (5, "right", "||", "||"), "&&": (6, "right", "&&", "&&"),
    "==": (7, "none", "=?", "=?"), "∷": (8, "right", "::", "::"), "++": (8, "right", "++", "++"),
    "+": (9, "left", "+", "+"), "-": (9, "left", "-", "-"), "*": (10, "left", "*", "*"),
    "%": (10, "left", "mod", "mod"), "^": (11, "right", "^", "^"),
}

# Coq's own levels, of the operators and of other expressions: the lower, the closer it binds.
LEVELS = {
    "->": 99, "\\/": 85, "/\\": 80, "~": 75, "=": 70, "<>": 70, "<": 70, "<=": 70, "=?": 70, "::": 60, "++": 60,
    "+": 50, "-": 50, "||": 50, "*": 40, "mod": 40, "&&": 40, "^": 30,
}
RIGHT = ("->", "\\/", "/\\", "::", "++", "^")
APPLICATION, ARGUMENT, WIDEST = 10, 9, 200

# How a definition begins.
DEFINES = "abbrev pub|unfoldable pub|pub record|pub data"

TOKEN = re.compile(r"""\s+ | --[^\n]* | (?P<number>\d+) | (?P<name>[ℕ⊥]|[A-Za-z_][A-Za-z0-9_']*)
    | (?P<sign>==|&&|\|\||\+\+|[⊎∷≡≢¬×→λ↦<≤+*%^\-().\[\]{},;|:=])""", re.X)


class Coq(str):
    """An expression of Coq with its level. An open one goes on as far as it can."""

    def __new__(cls, text, level, is_open=False):
        made = super().__new__(cls, text)
        made.level, made.is_open = level, is_open
        return made


def within(made, most, at_end=False):
    """The expression, in brackets if it binds less closely than `most`, or more comes after an open one."""
    if not isinstance(made, Coq) or made.level <= most and (at_end or not made.is_open):
        return made
    return f"({made})"


def applied(function, *arguments):
    return Coq(" ".join([function, *(within(each, ARGUMENT) for each in arguments)]), APPLICATION)


class Unknown(Exception):
    """Something that this script has no rule for."""


def tokens(text):
    """The words of a text with their kinds. A dot between a value and a name is a `field`."""
    found, at = [], 0
    while at < len(text):
        match = TOKEN.match(text, at)
        if not match:
            raise Unknown(f"no word begins here: {text[at:at + 40]!r}")
        if match.lastgroup:
            kind, word = match.lastgroup, match[match.lastgroup]
            joined = at > 0 and (text[at - 1].isalnum() or text[at - 1] in "_')")
            if word == "." and joined and re.match(r"\w", text[at + 1:]):
                kind = "field"
            found.append((kind, word))
        at = match.end()
    return found


# ---- the modules, and where each name of theirs comes from

@dataclass
class Definition:
    """One definition's text, with the module that it is in."""
    name: str
    module: "Module"
    head: str
    clauses: list = field(default_factory=list)


class Module:
    """A file of definitions: what it defines, and from where it takes other names."""

    def __init__(self, crates, path):
        self.crates, self.path = crates, path
        self.defined, self.taken, self.variants = {}, {}, {}
        for block in self.blocks(path.read_text()):
            self.add(block)

    @staticmethod
    def blocks(text):
        """Each line at the margin, with the indented lines below it."""
        found = []
        for line in text.split("\n"):
            if line.startswith("--") or not line.strip():
                continue
            if line[0].isspace() or line[0] in ")]}":
                found[-1] += "\n" + line
            else:
                found.append(line)
        return found

    def add(self, block):
        if block.startswith(("use ", "pub use ")):
            self.add_use(block.removeprefix("pub "))
        elif match := re.match(rf"(?:{DEFINES}) (\w+)", block):
            self.defined[match[1]] = self.last = Definition(match[1], self, block)
        elif block.startswith(("pub mod", "ghost")):
            return
        elif self.defined and re.match(rf"{self.last.name}\b", block):
            self.last.clauses.append(block)
        else:
            raise Unknown(f"{self.path}: {block}")

    def add_use(self, block):
        match = re.fullmatch(r"use (?:Rattle\.)?([\w.]+?)\.(?:\{(.*)\}|TheVariants as (\w+))", block, re.S)
        if not match:
            raise Unknown(f"{self.path}: {block}")
        place, names, kind = match.groups()
        if place.split(".")[0] in ("std", "mathlib"):
            return
        if kind:
            self.variants[kind] = (self.source(place), place.split(".")[-1])
        for name in re.findall(r"\w+", names or ""):
            self.taken[name] = (self.source(place), name)

    def source(self, place):
        """The file that a `use` names: of definitions, or of Rust, in which a type is declared."""
        crate, _, *rest = place.split(".")
        if rest[0] == "declared":
            return self.crates / crate / "src" / Path(*rest[1:-1]).with_suffix(".rt")
        return self.crates / crate / "specs" / Path(*rest).with_suffix(".antt")


class Sources:
    """All modules and Rust types, read once."""

    def __init__(self, crates):
        self.crates, self.modules = crates, {}

    def module(self, path):
        if path not in self.modules:
            self.modules[path] = Module(self.crates, path)
        return self.modules[path]

    def root(self, name):
        """The one definition of a name among all crates."""
        begin = re.compile(rf"^(?:{DEFINES}) {name}\b", re.M)
        paths = [path for path in sorted(self.crates.glob("*/specs/**/*.antt")) if begin.search(path.read_text())]
        if len(paths) != 1:
            raise Unknown(f"{len(paths)} definitions of {name}: {[str(path) for path in paths]}")
        return self.module(paths[0]).defined[name]

    def find(self, module, name):
        """The meaning of a name in a module: a definition, a Rust type as (file, name), or None."""
        if name in module.defined:
            return module.defined[name]
        if name not in module.taken:
            return None
        path, name = module.taken[name]
        return (path, name) if path.suffix == ".rt" else self.find(self.module(path), name)


# ---- expressions

class Reader:
    """Reads an expression's words, and writes it in Coq. `prop`: it is a proposition, not a type."""

    def __init__(self, words, book, module, prop=False):
        self.words, self.at, self.book, self.module, self.prop = words, 0, book, module, prop

    def peek(self):
        return self.words[self.at] if self.at < len(self.words) else (None, None)

    def next(self):
        word = self.peek()
        self.at += 1
        return word

    def eat(self, sign):
        if self.peek()[1] != sign:
            near = " ".join(word for _, word in self.words[self.at:self.at + 12])
            raise Unknown(f"{self.module.path}: {sign} has to come before: {near}")
        self.at += 1

    def as_type(self, read):
        """The type that `read` reads, which is no proposition."""
        before, self.prop = self.prop, False
        result, self.prop = read(), before
        return result

    def expression(self, level=0):
        before = {"λ": self.function, "let": self.let, "if": self.choice}.get(self.peek()[1])
        if before:
            return before()
        if self.is_binder():
            return self.quantified()
        return self.operators(level)

    def operators(self, level):
        if self.peek()[1] == "¬":
            self.next()
            left = Coq(f"~ {within(self.expression(4), LEVELS['~'])}", LEVELS["~"])
        else:
            left = self.application()
        while self.peek()[1] in OPERATORS:
            binds, side, plain, fact = OPERATORS[self.peek()[1]]
            if binds < level:
                return left
            self.next()
            right = self.expression(binds if side == "right" else binds + 1)
            left = self.operated(left, fact if self.prop else plain, right)
        return left

    @staticmethod
    def operated(left, sign, right):
        level, right_level = LEVELS[sign], LEVELS[sign] - (sign not in RIGHT)
        right = within(right, right_level, at_end=True)
        return Coq(f"{within(left, level - 1)} {sign} {right}", level, getattr(right, "is_open", False))

    def function(self):
        self.eat("λ")
        names = []
        while self.peek()[1] != ".":
            names.append(self.next()[1])
        self.eat(".")
        return Coq(f"fun {' '.join(names)} => {self.expression()}", WIDEST)

    def let(self):
        self.eat("let")
        name = self.next()[1]
        self.eat("=")
        value = self.expression()
        self.eat("in")
        return Coq(f"let {name} := {value} in {self.expression()}", WIDEST)

    def choice(self):
        self.eat("if")
        test = self.expression()
        test = f"({test} : bool)" if test.startswith("get ") else test  # a class doesn't tell Coq
        self.eat("then")
        first = self.expression()
        self.eat("else")
        return Coq(f"if {test} then {first} else {self.expression()}", WIDEST)

    def is_binder(self):
        """Whether `(x y : ..)` comes next."""
        if self.peek()[1] not in ("(", "{"):
            return False
        at = self.at + 1
        while at < len(self.words) and self.words[at][0] == "name":
            at += 1
        return at > self.at + 1 and at < len(self.words) and self.words[at][1] == ":"

    def binder(self):
        """`(x y : T)`, with the names and the first word of the type; `Type 0` is a proposition's."""
        close = {"(": ")", "{": "}"}[self.next()[1]]
        names = []
        while self.peek()[1] != ":":
            names.append(self.next()[1])
        self.eat(":")
        head = self.peek()[1]
        kind = self.as_type(self.expression)
        self.eat(close)
        return names, head, kind

    def quantified(self):
        binders = []
        while self.is_binder():
            names, _, kind = self.binder()
            binders.append(f"({' '.join(names)} : {bare(kind)})")
        sign = self.next()[1]
        word = {"×": "exists", "→": "forall"}.get(sign)
        if not word:
            raise Unknown(f"{self.module.path}: {sign} comes after binders")
        return Coq(f"{word} {' '.join(binders)}, {self.expression()}", 0, is_open=True)

    def application(self):
        kind, head = self.peek()
        function, arguments = self.atom(), []
        if function == "True" and self.peek()[1] == "{":
            self.eat("{"), self.next(), self.eat("}")
        if function == "Type":
            self.next()
            return "Prop"
        while self.is_atom():
            arguments.append(self.as_type(self.atom) if self.book.is_type(self.module, head) else self.atom())
        made = applied(function, *arguments) if arguments else function
        asked = kind == "name" and self.book.is_asked(self.module, head)
        return applied("inhabited", made) if asked else made

    def is_atom(self):
        kind, word = self.peek()
        if word == "(":
            return not self.is_binder()
        return kind == "number" or word == "[" or kind == "name" and word not in ("then", "else", "in")

    def atom(self):
        kind, word = self.next()
        if word == "elim":
            made = self.cases()
        elif word == "record":
            made = self.record()
        elif word == "(":
            parts = [self.expression()]
            while self.peek()[1] == ",":
                self.eat(",")
                parts.append(self.expression())
            self.eat(")")
            made = parts[0] if len(parts) == 1 else f"({', '.join(parts)})"
        elif word == "[":
            self.eat("]")
            made = "nil"
        elif kind == "number":
            made = word
        elif kind == "name":
            made = self.name(word)
        else:
            raise Unknown(f"{self.module.path}: {word} begins an expression")
        while self.peek()[0] == "field":
            self.next()
            made = applied(f"get _{self.next()[1]}", made)
        return made

    def name(self, word):
        if word in self.module.variants and self.peek()[0] == "field":
            self.next()
            return self.book.variant(self.module, word, self.next()[1])
        return self.book.word(self.module, word)

    def cases(self):
        value, cases = self.atom(), []
        self.eat("[")
        while self.peek()[1] != "]":
            if self.peek()[1] == "|":
                self.eat("|")
            pattern = " ".join(self.patterns("↦"))
            self.eat("↦")
            cases.append(f"| {pattern} => {self.expression()}")
        self.eat("]")
        return f"match {value} with {' '.join(cases)} end"

    def record(self):
        if self.peek()[1] == "{":
            values = dict(self.fields())
            name = self.book.record_of(set(values))
            return applied(f"mk_{name}", *(values[each] for each in self.book.records[name]))
        made = self.atom()
        for name, value in self.fields():
            made = applied(f"put _{name}", value, made)
        return made

    def fields(self):
        self.eat("{")
        while self.peek()[1] != "}":
            name = self.next()[1]
            self.eat("=")
            yield name, self.expression()
            if self.peek()[1] == ";":
                self.eat(";")
        self.eat("}")

    def patterns(self, end):
        found = []
        while self.peek()[1] != end:
            found.append(self.pattern())
        return found

    def pattern(self):
        _, word = self.next()
        if word == "(":
            parts = []
            while self.peek()[1] != ")":
                sign = {"∷": "::", ",": ","}.get(self.peek()[1])
                parts.append(sign if sign else self.pattern())
                if sign:
                    self.next()
            self.eat(")")
            return f"({' '.join(parts)})"
        if word == "[":
            self.eat("]")
            return "nil"
        if word in self.module.variants and self.peek()[0] == "field":
            return self.name(word)
        return self.book.word(self.module, word, pattern=True)


# ---- the book of all that is translated

class Book:
    """The definitions translated so far, in an order in which each comes after what it cites."""

    def __init__(self, sources, asked):
        self.sources, self.asked = sources, asked
        self.out, self.done, self.types, self.aliases = [], {}, set(), {}
        self.records, self.constructors = {"pair": ["0", "1"]}, {}
        self.now_asked = set()

    # names

    def word(self, module, name, pattern=False):
        """A name in Coq; what it means is translated before."""
        found = self.sources.find(module, name)
        if found is None:
            return self.constructors.get(name, LIBRARY.get(name, name))
        if not pattern:
            self.need(found)
        return self.constructors.get(name, name)

    def variant(self, module, kind, name):
        path, kind = module.variants[kind]
        self.need((path, kind))
        return f"{kind}_{name}"

    def is_type(self, module, name):
        return name in LIBRARY_TYPES or name in self.types or name in self.aliases

    def is_asked(self, module, name):
        """Whether the name is that of a record of facts for whose fields some definition asks."""
        return name in self.asked and isinstance(self.sources.find(module, name), Definition)

    def record_of(self, names):
        found = [name for name, fields in self.records.items() if set(fields) == names]
        if len(found) != 1:
            raise Unknown(f"records with just these fields: {found}, for {sorted(names)}")
        return found[0]

    def need(self, found):
        key = found.name if isinstance(found, Definition) else found[1]
        if key in self.done:
            if self.done[key] != found:
                raise Unknown(f"two definitions of {key}")
            return
        self.done[key] = found
        if isinstance(found, Definition):
            self.translate(found)
        else:
            self.rust_type(*found)

    # Rust types

    def rust_type(self, path, name):
        text = re.sub(r"//[^\n]*|#\[[^\]]*\]", "", path.read_text())
        match = re.search(rf"pub struct {name}\s*(?:\((?P<one>.*?)\);|\{{(?P<many>.*?)\n\}})"
                          rf"|pub enum {name}\s*\{{(?P<enum>.*?)\n\}}", text, re.S)
        if not match:
            raise Unknown(f"{path}: no type {name}")
        self.types.add(name)
        if match["enum"]:
            self.rust_enum(path, name, re.findall(r"(\w+)(?:\(([^)]*)\))?", match["enum"]))
            return
        fields = [("0", match["one"])] if match["one"] else re.findall(r"(\w+)\s*:\s*([^,\n]+),", match["many"])
        self.record(name, [(each, self.rust(path, kind.replace("pub", "").strip())) for each, kind in fields])

    def rust_enum(self, path, name, variants):
        made = [f"| {name}_{each} {' '.join(f'(_ : {self.rust(path, kind.strip())})' for kind in kinds.split(',') if kind)}"
                for each, kinds in variants]
        self.out.append(f"Inductive {name} := {' '.join(each.strip() for each in made)}.")

    def rust(self, path, kind):
        """A type in a Rust file: of the language, of the same file, or of a crate's `types`."""
        if match := re.fullmatch(r"Option<(.*)>", kind):
            return applied("option", self.rust(path, match[1]))
        if kind in RUST_TYPES:
            return RUST_TYPES[kind]
        if kind not in self.done:
            self.need((self.rust_source(path, kind), kind))
        return kind

    def rust_source(self, path, kind):
        declares = re.compile(rf"pub (?:struct|enum) {kind}\b")
        if declares.search(path.read_text()):
            return path
        found = [each for each in sorted(self.sources.crates.glob("*/src/**/*.rt")) if declares.search(each.read_text())]
        if len(found) != 1:
            raise Unknown(f"{len(found)} types {kind}: {[str(each) for each in found]}")
        return found[0]

    # definitions

    def record(self, name, fields):
        """A record, and how to read and to replace its fields."""
        self.records[name] = [each for each, _ in fields]
        body = "; ".join(f"{name}_{each} : {kind}" for each, kind in fields)
        self.out.append(f"Record {name} := mk_{name} {{ {body} }}.")
        for each, kind in fields:
            kind = within(kind, ARGUMENT)
            rest = [Coq("v", 0) if other == each else applied(f"{name}_{other}", "r") for other, _ in fields]
            self.out += [f"Global Instance : Has _{each} {name} {kind} := {name}_{each}.",
                         f"Global Instance : Sets _{each} {name} {kind} := fun v r => {applied(f'mk_{name}', *rest)}."]

    def asked_record(self, name, parameters, data, facts):
        """A record of facts, some fields of which are read."""
        given = " ".join(re.findall(r"\((\w+(?: \w+)*) :", parameters))
        read = re.compile(rf"\b({'|'.join(each for each, _ in data)})\b")
        fields = data + [(each, read.sub(rf"{name}_\1", kind)) for each, kind in facts]
        body = "; ".join(f"{name}_{each} : {kind}" for each, kind in fields)
        self.out.append(f"Record {name} {parameters} : Type := mk_{name} {{ {body} }}.")
        for each, kind in data:
            self.out.append(f"Global Instance : forall {parameters}, Has _{each} ({name} {given}) {within(kind, ARGUMENT)}"
                            f" := {name}_{each}.")

    def translate(self, definition):
        kind = definition.head.split()[0:2]
        if kind == ["pub", "record"]:
            self.translate_record(definition)
        elif kind == ["pub", "data"]:
            self.translate_data(definition)
        else:
            self.translate_function(definition)

    def translate_record(self, definition):
        match = re.match(r"pub record (\w+)\s*(.*?):\s*Type 0\s+where(.*)", definition.head, re.S)
        name, parameters, body = match[1], match[2].strip(), re.sub(r"--[^\n]*", "", match[3])
        fields = re.findall(r"pub (\w+) : (.*?)(?=\n\s*pub |\Z)", body, re.S)
        if not parameters:
            self.types.add(name)
            self.record(name, [(each, self.reader(definition, kind).expression()) for each, kind in fields])
            return
        reader, binders = self.reader(definition, parameters), []
        while reader.is_binder():
            names, _, kind = reader.binder()
            binders.append(f"({' '.join(names)} : {kind})")
        self.translate_facts(definition, name, " ".join(binders), fields)

    def translate_facts(self, definition, name, parameters, fields):
        data, facts = [], []
        for each, text in fields:
            head = tokens(text)[0][1]
            made = self.reader(definition, text, prop=True).expression()
            self.note_asked(definition, each, head, fields)
            asked = self.is_asked(definition.module, head) and self.is_read(each, fields)
            (data if asked or self.is_type(definition.module, head) else facts).append((each, bare(made) if asked else made))
        if name in self.asked:
            self.asked_record(name, parameters, data, facts)
            return
        exists = f"exists {' '.join(f'({each} : {kind})' for each, kind in data)}, " if data else ""
        conjunction = " /\\ ".join(within(fact, LEVELS["/\\"] - 1) for _, fact in facts)
        self.out.append(joined(f"Definition {name} {parameters} : Prop :=", f"{exists}{conjunction}."))

    @staticmethod
    def is_read(name, fields):
        return any(re.search(rf"\b{name}\.\w", text) for _, text in fields)

    def note_asked(self, definition, each, head, fields):
        """A field that is a record of facts, and of which another field reads a part."""
        found = self.sources.find(definition.module, head)
        if isinstance(found, Definition) and found.head.startswith("pub record") and self.is_read(each, fields):
            if head not in self.types:
                self.now_asked.add(head)

    def translate_data(self, definition):
        match = re.match(r"pub data (\w+) : Type 0 where(.*)", definition.head, re.S)
        if not match:
            raise Unknown(definition.head)
        name, made = match[1], []
        self.types.add(name)
        for each, text in re.findall(r"(\w+) : (.*)", match[2]):
            made.append(f"| {name}_{each} : {self.reader(definition, text).expression()}")
            self.constructors[each] = f"{name}_{each}"
        self.out.append(f"Inductive {name} : Type := {' '.join(made)}.")

    def translate_function(self, definition):
        name = definition.name
        parts = arrows(tokens(re.match(r"\w+ pub \w+ : (.*)", definition.head, re.S)[1]))
        if len(parts) == 1 and [word for _, word in parts[0]] == ["Type", "0"]:
            self.aliases[name] = tokens(definition.clauses[0].split("=", 1)[1])
        clauses = definition.clauses
        width = len(Reader(tokens(clauses[0])[1:], self, definition.module).patterns("="))
        implicit = [part for part in parts if part[0][1] == "{"]
        parts = [part for part in parts if part[0][1] != "{"]
        if width > len(parts) - 1 and parts[-1][0][1] in self.aliases:
            parts = parts[:-1] + arrows(self.aliases[parts[-1][0][1]])
        kinds = [Reader(part, self, definition.module).expression() for part in parts]
        prop = kinds[-1] == "Prop" and len(kinds) > 1
        if kinds == ["Prop"]:
            kinds = ["Type"]
        self.out.append(self.function(definition, clauses, kinds, prop, width, implicit))

    def function(self, definition, clauses, kinds, prop, width, implicit):
        name, made = definition.name, []
        for clause in clauses:
            self.note_binders(definition, clause)
            reader = self.reader(definition, clause, prop)
            reader.next()
            patterns = reader.patterns("=")
            reader.eat("=")
            made.append((patterns, reader.expression()))
            if reader.at != len(reader.words):
                raise Unknown(f"{name}: {reader.words[reader.at:]} is left over")
        types = "".join(f"{{{part[1][1]} : Type}} " for part in implicit)
        word = "Fixpoint" if any(re.search(rf"\b{name}\b", body) for _, body in made) else "Definition"
        columns = [set(column) for column in zip(*(patterns for patterns, _ in made))]
        same = [len(column) == 1 and re.fullmatch(r"(?!nil$)\w+", min(column)) for column in columns]
        names = [min(column) if alike and min(column) != "_" else f"x{k}"
                 for k, (column, alike) in enumerate(zip(columns, same))]
        given = "".join(f"({' '.join(each for each, _ in group)} : {kind}) "
                        for kind, group in groupby(zip(names, kinds), key=itemgetter(1)))
        head = f"{word} {name} {types}{given}: {' -> '.join(within(each, LEVELS['->'] - 1) for each in kinds[width:])} :="
        if all(same):
            return joined(head, f"{made[0][1]}.")
        told = [k for k in range(width) if not same[k]]
        cases = "\n".join(f"  | {self.case([patterns[k] for k in told])} => {body}" for patterns, body in made)
        return f"{head}\n  match {', '.join(names[k] for k in told)} with\n{cases}\n  end."

    @staticmethod
    def case(patterns):
        only = patterns[0]
        return only[1:-1] if len(patterns) == 1 and only.startswith("(") else ", ".join(patterns)

    def note_binders(self, definition, clause):
        """A bound record of facts, `(f : IsLast ..) × ..`, of which a part is read."""
        for name, head in re.findall(r"\((\w+) : (\w+)", clause):
            self.note_asked(definition, name, head, [("", clause)])

    def reader(self, definition, text, prop=False):
        return Reader(tokens(text), self, definition.module, prop)


def bare(kind):
    """A record of facts as a type, if `kind` says that there is one."""
    return kind.removeprefix("inhabited ").removeprefix("(").removesuffix(")") if kind.startswith("inhabited ") else kind


def arrows(words):
    """The parts of a type between its arrows."""
    parts, part, depth = [], [], 0
    for kind, word in words:
        depth += (word in "([{") - (word in ")]}")
        if word == "→" and depth == 0:
            parts.append(part)
            part = []
        else:
            part.append((kind, word))
    return parts + [part]


def joined(head, body):
    """Both on one line, if they fit."""
    return f"{head} {body}" if len(head) + len(body) < WIDTH else f"{head}\n  {body}"


def folded(line):
    return textwrap.wrap(line.strip(), WIDTH, subsequent_indent="    ", break_long_words=False, break_on_hyphens=False,
                         drop_whitespace=True, initial_indent=re.match(" *", line)[0])


WIDTH = 98

HEAD = """(* Made by antt2coq.py, and never edited. *)
From Gemshowal Require Import Library.
"""

# Several records have a field of one name, so that a field is a class.
FIELDS = """Inductive field := {fields}.
Class Has (x : field) (R F : Type) := get : R -> F.
Class Sets (x : field) (R F : Type) := put : F -> R -> R.
Arguments get x {{R F _}}.
Arguments put x {{R F _}}.
Global Hint Mode Has + + - : typeclass_instances.
Global Hint Mode Sets + + - : typeclass_instances.
Global Instance : forall A B, Has _0 (A * B) A := @fst.
Global Instance : forall A B, Has _1 (A * B) B := @snd."""


def used(out):
    """The used part of `out`: no field is read or replaced that no definition reads or replaces."""
    calls = set(re.findall(r"\b(get|put) (_\w+)", " ".join(out))) | {("get", "_0"), ("get", "_1")}
    word = {"Has": "get", "Sets": "put"}
    rows = [(each, re.match(r"Global Instance : .*?\b(Has|Sets) (_\w+)", each)) for each in out]
    kept = [each for each, row in rows if not row or (word[row[1]], row[2]) in calls]
    return [FIELDS.format(fields=" | ".join(sorted({name for _, name in calls}))), *kept]


def main():
    sources, asked = Sources(Path(sys.argv[1])), set()
    while True:
        book = Book(sources, asked)
        for name in ROOTS:
            book.need(sources.root(name))
        if book.now_asked == asked:
            break
        asked = book.now_asked
    print(HEAD)
    for each in used(book.out):
        print("\n".join(wrapped for line in each.split("\n") for wrapped in folded(line)))


if __name__ == "__main__":
    main()
