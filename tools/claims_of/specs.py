"""The definitions of a file of specs/: for each its lines, and the free words in them."""
import re
from typing import NamedTuple

from claims_of.terms import Fault, Place, at_top, binder, clause_words, closing, free_words, tokens_of

USE = re.compile(r"^\s*(?:ghost )?use ([\w.-]+)\.\{([^{}]*)\};?\s*$")
USE_MODULE = re.compile(r"^\s*(?:ghost )?use ([\w.-]+) as (\w+);?\s*$")
MODIFIERS = {"pub", "abbrev", "opaque", "unfoldable"}


class Lines(NamedTuple):
    """A piece of a file: the number of its first line, and its lines."""
    first: int
    lines: list

    def text(self):
        return "\n".join(self.lines)


class Imports:
    """What words mean by the `use` lines: the module that has them, and their name there."""

    def __init__(self, lines, where):
        self.named, self.modules, self.renamed = {}, {}, {}
        for number, line in enumerate(lines, 1):
            if not re.match(r"\s*(ghost )?use ", line):
                continue
            if USE.match(line):
                self.add_names(*USE.match(line).groups())
            elif USE_MODULE.match(line):
                module, word = USE_MODULE.match(line).groups()
                self.modules[word] = module
                self.renamed[word] = true_name(module)
            else:
                raise Fault(f"{where}:{number}: cannot read this `use`")

    def add_names(self, module, names):
        for part in filter(None, map(str.strip, names.split(","))):
            name, _, other = part.partition(" as ")
            for word in words_of_name((other or name).strip()):
                self.named[word] = (module, name.strip())
                if other:
                    self.renamed[word] = true_name(module, name.strip())

    def find(self, word):
        """The module and the name there of a word, whose fields are left out; or None."""
        front, _, rest = word.partition(".")
        if front in self.named:
            return self.named[front]
        if front in self.modules:
            return self.modules[front], rest.split(".")[0]
        return self.named.get(word)


def true_name(module, name=None):
    """A module, or a name in it, in the way in which a definition is asked for: `hx_tree::nodes::Rule::All`."""
    parts = [part for part in module.split(".")[1:] if part not in ("specs", "declared", "TheVariants", "TheConstants")]
    return "::".join(parts + ([name] if name and parts[-1:] != [name] else []))


def words_of_name(name):
    """The words by which a name is written: of one with places for arguments the parts between them."""
    return [part for part in name.split("◌") if part] if "◌" in name else [name]


class Definition:
    """One definition, with the comment right above it."""

    def __init__(self, name, kind, comment, lines):
        self.name, self.kind = name, kind
        self.comment, self.code = comment, lines
        self.constructors = []

    def lines(self):
        return Lines((self.comment or self.code)[0][0], [line for _, line in self.comment + self.code])

    def code_text(self):
        return "\n".join(line for _, line in self.code)


class SpecFile:
    def __init__(self, text, where):
        self.where = where
        lines = text.split("\n")
        self.imports = Imports([line for line in lines if not line.startswith(" ")], where)
        self.definitions = {}
        self.read(lines)
        for one in self.definitions.values():
            if one.kind == "data":
                one.constructors = [head for head, _ in parts_behind_where(one, where)]
        self.constructor_of = {name: one.name for one in self.definitions.values() for name in one.constructors}

    def read(self, lines):
        comment, current = [], None
        for number, line in enumerate(lines, 1):
            if line.startswith("--"):
                comment.append((number, line))
            elif not line.strip() or re.match(r"(pub )?(use|mod) ", line):
                comment = []
            elif line[0] in " }" and current:
                current.code += comment + [(number, line)]
                comment = []
            else:
                current = self.definition(number, line, comment)
                comment = []

    def definition(self, number, line, comment):
        """The definition that this line begins, or goes on with where it is a clause of it."""
        words = line.split()
        while words[0] in MODIFIERS:
            words = words[1:]
        kind = words[0] if words[0] in ("record", "data") else "clauses"
        name = words[1] if kind != "clauses" else words[0]
        if name in self.definitions and kind == "clauses":
            self.definitions[name].code.append((number, line))
        elif name in self.definitions:
            raise Fault(f"{self.where}:{number}: {name} is defined twice")
        else:
            self.definitions[name] = Definition(name, kind, comment, [(number, line)])
        return self.definitions[name]

    def place(self, name):
        return Place(f"{self.where}: {name}", self.is_constructor)

    def is_constructor(self, word):
        """Of what is imported the capital letter tells it."""
        return word in self.constructor_of or (word in self.imports.named and word[0].isupper())

    def free_words(self, name):
        one = self.definitions[name]
        if one.kind == "clauses":
            return words_of_clauses(one, self.place(name))
        header, bound = self.header(one)
        return header + words_of_fields(one, bound, self.place(name))

    def header(self, one):
        """The free words of what stands before `where`, and its parameters."""
        tokens = tokens_of(one.code_text())
        tokens = tokens[tokens.index(one.name) + 1:at_top(tokens, "where")]
        bound, words = parameters(tokens[:at_top(tokens, ":")], self.place(one.name))
        return words + free_words(tokens[at_top(tokens, ":"):], bound, self.place(one.name)), bound

    def field_words(self, name, field):
        """The free words of the header of a record and of one field; and of those before it that the field has."""
        one = self.definitions[name]
        header, bound = self.header(one)
        fields = dict(parts_behind_where(one, self.where))
        if one.kind != "record" or field not in fields:
            raise Fault(f"{self.where}: {name} has no field {field}")
        before = fields_before(fields, field, bound, self.place(name))
        return header + free_words(fields[field], bound | set(before), self.place(name)), before


def parameters(tokens, place):
    bound, words, at = set(), [], 0
    while at < len(tokens):
        end = closing(tokens, at, place.where)
        names, kind = binder(tokens[at + 1:end])
        words += free_words(kind, bound, place)
        bound |= set(names)
        at = end + 1
    return bound, words


def parts_behind_where(one, where):
    """The fields of a record or the constructors of a data type: each name with the tokens of its type."""
    tokens = tokens_of(one.code_text())
    tokens = tokens[tokens.index("where") + 1:]
    heads = [at for at in range(1, len(tokens)) if tokens[at] == ":" and is_outside(tokens, at)]
    ends = [at - 2 if tokens[at - 2] == "pub" else at - 1 for at in heads[1:]] + [len(tokens)]
    if len(heads) != one.code_text().count("\n") + 1 and not heads:
        raise Fault(f"{where}: {one.name} has nothing behind `where`")
    return [(tokens[at - 1], tokens[at + 1:end]) for at, end in zip(heads, ends)]


def is_outside(tokens, at):
    return sum((token in "({") - (token in ")}") for token in tokens[:at] if token in ("(", "{", ")", "}")) == 0


def words_of_fields(one, bound, place):
    """Each field sees those before it; a constructor sees none."""
    found, seen = [], set(bound)
    for name, kind in parts_behind_where(one, place.where):
        found += free_words(kind, seen, place)
        if one.kind == "record":
            seen.add(name)
    return found


def fields_before(fields, field, bound, place):
    """The fields that stand before one and that it has in it, and those that these have."""
    names = list(fields)[:list(fields).index(field)]
    wanted, words = [], set(free_words(fields[field], bound, place))
    for name in reversed(names):
        if any(word.split(".")[0] == name for word in words):
            wanted.append(name)
            words |= set(free_words(fields[name], bound, place))
    return wanted[::-1]


def words_of_clauses(one, place):
    """The signature's free words, and those of each clause."""
    text = one.code_text()
    starts = [match.start() for match in re.finditer(r"^[^\s}]", text, re.M)] + [len(text)]
    pieces = [tokens_of(text[start:end]) for start, end in zip(starts, starts[1:])]
    signature = pieces[0]
    found = free_words(signature[signature.index(one.name) + 2:], set(), place)
    for piece in pieces[1:]:
        sign = at_top(piece, "=")
        if piece[0] != one.name or sign is None:
            raise Fault(f"{place.where}: a clause cannot be read")
        found += clause_words(piece[1:sign], piece[sign + 1:], place)
    return found
