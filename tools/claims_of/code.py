"""The items of a file of src/: structs, enums, traits, constants and functions, with the clauses of their contracts."""
import re

from claims_of.specs import Imports, Lines
from claims_of.terms import Fault

TOKEN = re.compile(r"""//[^\n]*|/\*.*?\*/|b?"(?:[^"\\]|\\.)*"|b?'(?:[^'\\\n]|\\.)'|'\w+|->|=>|::|[^\W]\w*|\S""", re.S)
OPEN, CLOSE = "({[", ")}]"
ITEMS = {"struct", "enum", "trait", "fn", "const", "impl", "use", "mod", "type", "static", "ghost", "macro_rules"}
MODIFIERS = {"pub", "unsafe", "extern"}
CLAUSES = ("requires", "ensures")
# Lines that a list leaves out.
IS_LEFT_OUT = re.compile(r"^\s*(ghost use .*|#!?\[.*\])$")


class Token(str):
    """A token, with its place in the text."""
    at = 0


def tokens_of(text):
    found = []
    for match in TOKEN.finditer(text):
        if not match[0].startswith(("//", "/*")):
            found.append(Token(match[0]))
            found[-1].at = match.start()
    return found


class Item:
    """One item: what it is, its name, its tokens, and where it stands in the text, with the comment above it."""

    def __init__(self, kind, name, tokens, file, begin):
        self.kind, self.name, self.tokens, self.file, self.begin = kind, name, tokens, file, begin
        self.end = tokens[-1].at + len(tokens[-1])

    def where(self):
        return f"{self.file.where}: {self.name}"

    def body(self):
        """The tokens in its last brackets."""
        start = next((at for at, token in enumerate(self.tokens) if token == "{"), len(self.tokens))
        return self.tokens[start + 1:-1]

    def lines(self):
        return self.file.lines(self.begin, self.end)


def end_of_item(tokens, start, where):
    """Behind the `;` or the `}` with which an item ends."""
    depth = 0
    for place in range(start, len(tokens)):
        token = tokens[place]
        depth += (token in OPEN) - (token in CLOSE)
        if depth == 0 and (token == ";" or token == "}" and not is_clause_end(tokens, place)):
            return place + 1
    raise Fault(f"{where}: an item does not end")


def is_clause_end(tokens, place):
    """A `}` after which the item goes on: with a further clause, or with its body."""
    after = tokens[place + 1] if place + 1 < len(tokens) else ""
    return after in ("{", *CLAUSES) or after == ";"


class CodeFile:
    def __init__(self, text, where):
        self.text, self.where = text, where
        self.imports = Imports([line for line in text.split("\n") if line.startswith("ghost use")], where)
        self.items = list(items_in(tokens_of(text), self, 0))
        self.uses, self.public = {}, {}
        for item in self.items:
            if item.kind == "use":
                for name, path in paths_of(item.tokens[item.tokens.index("use") + 1:-1], []):
                    self.uses[name] = path

    def find(self, name, kinds):
        return [item for item in self.items if item.name == name and item.kind in kinds]

    def lines(self, begin, end):
        first = self.text.count("\n", 0, begin) + 1
        last = self.text.count("\n", 0, end) + 1
        return Lines(first, self.text.split("\n")[first - 1:last])

    def model_of(self, name):
        """The `impl Model` of a type of this file, or None."""
        for item in self.items:
            if item.kind == "impl" and item.name == name and trait_of(item) == "Model":
                return item
        return None

    def impls_of(self, name):
        return [item for item in self.items if item.kind == "impl" and item.name == name]


def items_in(tokens, file, start_of_text):
    """The items of a file, or of an impl or a trait, whose tokens these are."""
    at, before = 0, start_of_text
    while at < len(tokens):
        if tokens[at] == "#":
            at = behind_attribute(tokens, at)
            continue
        end = end_of_item(tokens, at, file.where)
        item = item_of(tokens[at:end], file, before)
        if item:
            yield item
        before = tokens[end - 1].at + 1
        at = end


def behind_attribute(tokens, at):
    depth = 0
    while True:
        at += 1
        depth += (tokens[at] == "[") - (tokens[at] == "]")
        if depth == 0 and tokens[at] == "]":
            return at + 1


def item_of(tokens, file, before):
    """The item of these tokens. It begins at its comment, which is the first one behind an empty line."""
    kind = next((token for token in tokens if token in ITEMS), None)
    if kind is None:
        return None
    if kind == "const" and tokens[tokens.index("const") + 1] == "fn":
        kind = "fn"
    gap = file.text[before:tokens[0].at]
    comments = re.search(r"(?:^[ \t]*(?:///|//|#\[)[^\n]*\n|^[^\n]*\][ \t]*\n)*[ \t]*\Z", gap, re.M)
    begin = before + comments.start() + len(re.match(r"\n*", comments[0])[0])
    return Item(kind, name_of(kind, tokens), tokens, file, begin)


def name_of(kind, tokens):
    if kind == "impl":
        head = tokens[:tokens.index("{")]
        return next((token for token in reversed(without_brackets(head)) if re.match(r"[A-Z]\w*$", token)), "impl")
    return tokens[tokens.index(kind if kind in tokens else "fn") + 1]


def without_brackets(tokens):
    """The tokens outside of `<` and `>`."""
    found, depth = [], 0
    for token in tokens:
        depth += (token == "<") - (token == ">")
        if depth == 0 and token != ">":
            found.append(token)
    return found


def trait_of(item):
    """The trait of an `impl Trait for Type`, or None."""
    head = without_brackets(item.tokens[:item.tokens.index("{")])
    return head[head.index("for") - 1] if "for" in head else None


def paths_of(tokens, before):
    """Each name that a `use` brings, with its path."""
    parts, start, depth = [], 0, 0
    for at, token in enumerate(tokens + ["," if tokens else ""]):
        depth += (token == "{") - (token == "}")
        if token == "," and depth == 0:
            parts.append(tokens[start:at])
            start = at + 1
    for part in filter(None, parts):
        yield from paths_of_one(part, before)


def paths_of_one(part, before):
    if "{" in part:
        at = part.index("{")
        yield from paths_of(part[at + 1:-1], before + [token for token in part[:at] if token != "::"])
    elif "as" in part:
        at = part.index("as")
        yield str(part[at + 1]), before + [str(token) for token in part[:at] if token != "::"]
    else:
        path = before + [str(token) for token in part if token != "::"]
        yield (path[-2] if path[-1] == "self" else path[-1]), (path[:-1] if path[-1] == "self" else path)


# ---- Contracts

class Clause:
    """A clause of a contract: its kind, its name or None, its term, and the places of its first and its last byte."""

    def __init__(self, kind, name, term, begin, end):
        self.kind, self.name, self.term, self.begin, self.end = kind, name, term, begin, end


def clauses_of(item):
    """The clauses of a function, or of all functions of a trait."""
    text, tokens = item.file.text, item.tokens
    for at, token in enumerate(tokens):
        if token not in CLAUSES:
            continue
        start = at + 1 if tokens[at + 1] == "{" else at + 2
        if tokens[start] != "{":
            raise Fault(f"{item.where()}: a clause cannot be read")
        end = closing(tokens, start)
        yield Clause(str(token), None if start == at + 1 else str(tokens[at + 1]),
                     text[tokens[start].at + 1:tokens[end].at], above(text, token.at), tokens[end].at)


def closing(tokens, start):
    depth = 0
    for place in range(start, len(tokens)):
        depth += (tokens[place] in OPEN) - (tokens[place] in CLOSE)
        if depth == 0:
            return place
    raise Fault("a bracket is not closed")


def above(text, at):
    """Where the comment begins that stands right above this place, or its own line."""
    line = text.rfind("\n", 0, at) + 1
    while True:
        previous = text.rfind("\n", 0, line - 1) + 1
        if not text[previous:line].strip().startswith("//"):
            return line
        line = previous


def ghosts_of(item):
    """The ghost members of a trait, an impl or a struct: each name with its term or its type, and where it stands."""
    tokens = item.tokens
    for at, token in enumerate(tokens):
        if token == "ghost" and tokens[at + 1] != "use":
            start = next(place for place in range(at, len(tokens)) if tokens[place] == "{")
            end = closing(tokens, start)
            yield str(tokens[at + 1]), Clause("ghost", str(tokens[at + 1]),
                item.file.text[tokens[start].at + 1:tokens[end].at], above(item.file.text, token.at), tokens[end].at)


def imports_in(item):
    """The `ghost use` lines inside of an item."""
    return Imports([line for line in item.file.text[item.begin:item.end].split("\n") if line.startswith(" ")
                    and line.strip().startswith("ghost use")], item.where())


class Signature:
    """What a function takes: its type parameters with their bounds, its parameters and its result with their types."""

    def __init__(self, item):
        tokens = item.tokens[item.tokens.index("fn") + 2:]
        self.bounds, tokens = generics(tokens)
        end = closing(tokens, 0)
        self.types = dict(filter(None, map(parameter, split_at_commas(tokens[1:end]))))
        rest = tokens[end + 1:]
        stop = next((at for at, token in enumerate(rest) if token in ("{", ";", "where", *CLAUSES)), len(rest))
        self.types["result"] = rest[1:stop] if rest and rest[0] == "->" else []
        if stop < len(rest) and rest[stop] == "where":
            self.add_bounds(rest[stop + 1:])

    def add_bounds(self, tokens):
        stop = next(at for at, token in enumerate(tokens) if token in ("{", ";", *CLAUSES))
        for part in split_at_commas(tokens[:stop]):
            self.bounds.setdefault(str(part[0]), []).extend(part[2:])


def generics(tokens):
    """The type parameters in front of the tokens, each with its bounds, and the tokens behind them."""
    if tokens[0] != "<":
        return {}, tokens
    depth = 0
    for at, token in enumerate(tokens):
        depth += (token == "<") - (token == ">")
        if depth == 0:
            parts = split_at_commas(tokens[1:at])
            return {str(part[0]): part[2:] for part in parts}, tokens[at + 1:]
    raise Fault("type parameters do not end")


def split_at_commas(tokens):
    parts, depth = [[]], 0
    for token in tokens:
        depth += (token in "({[<") - (token in ")}]>")
        if token == "," and depth == 0:
            parts.append([])
        else:
            parts[-1].append(token)
    return list(filter(None, parts))


def parameter(part):
    """A parameter's name and its type. That of `self` is the type of the impl."""
    if ":" in part:
        return str(part[part.index(":") - 1]), part[part.index(":") + 1:]
    return ("self", [Token("Self")]) if "self" in part else None
