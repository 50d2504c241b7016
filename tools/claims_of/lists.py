"""What a clause rests on: each definition of ours once, what is used before what uses it."""
import hashlib
import re
from typing import NamedTuple

from claims_of.code import IS_LEFT_OUT, Signature, clauses_of, generics, ghosts_of, imports_in
from claims_of.repository import KEYWORDS, Key, Kit
from claims_of.specs import Lines
from claims_of.terms import Fault, Place, free_words, tokens_of

WORD = re.compile(r"[^\W\d]\w*$")
FIELD = re.compile(r"  (?:pub )?([^\s:]+) :")


class Entry:
    """A definition in a list: where it stands, the pieces of its text, what it rests on, and its file's imports."""

    def __init__(self, key, path, pieces, uses, imports=()):
        self.key, self.path, self.uses, self.imports = key, path, uses, imports
        self.pieces = [Lines(piece.first, without_imports(piece.lines)) for piece in pieces]
        self.first = pieces[0].first

    def full_name(self):
        """Its name, and whether it is a type of which all of the `impl Model` counts."""
        return self.key.full_name() + (" shown" if self.key.kind == "view" and len(self.pieces) > 1 else "")

    def lines(self):
        return [line for piece in self.pieces for line in piece.lines if line.strip()]

    def comments(self):
        return [line for line in self.lines() if line.strip().startswith(("--", "//"))]

    def mark(self):
        """Six digits that differ where the code differs, whatever its comments and its layout are."""
        code = [line for line in self.lines() if line not in self.comments()]
        return hashlib.sha256(" ".join(" ".join(code).split()).encode()).hexdigest()[:6]

    def renamed(self):
        """What the words stand for that have another name where they are defined."""
        code = "\n".join(line for line in self.lines() if line not in self.comments())
        found = {}
        for one in reversed(self.imports):
            found.update((word + ("." if word in one.modules else ""), name) for word, name in one.renamed.items())
        return [f"{word.rstrip('.')} is {name}" for word, name in found.items()
                if re.search(rf"(?<![\w.]){re.escape(word)}" + ("" if word.endswith(".") else r"(?!\w)"), code)]

    def text(self):
        pieces = "\n".join("\n".join(piece.lines) for piece in self.pieces if piece.lines)
        renamed = f"-- here {', '.join(self.renamed())}\n" if self.renamed() else ""
        return f"-- {self.path}:{self.first}\n{renamed}{pieces}\n"


def without_imports(lines):
    """The lines without `ghost use` and attributes, and without an empty line where such ones stood."""
    kept = []
    for line in lines:
        if IS_LEFT_OUT.match(line) or not line.strip() and (not kept or not kept[-1].strip()
                                                            or kept[-1].rstrip().endswith("{")):
            continue
        kept.append(line)
    return kept


class Around(NamedTuple):
    """What an `impl` or a trait, or a file, gives to the clauses of a function in it."""
    bound: set
    self_type: str
    bounds: dict
    imports: list


class Lists:
    """Makes the entries. Of a record in `only` the named fields alone are promised."""

    def __init__(self, repository, only=None):
        self.repository, self.only = repository, only or {}
        self.entries = {}

    # ---- Definitions

    def entry(self, key):
        if key not in self.entries:
            makers = {"spec": self.of_specs, "type": self.of_type, "view": self.of_view, "trait": self.of_trait,
                      "const": self.of_constant}
            self.entries[key] = makers[key.kind](key)
        return self.entries[key]

    def of_specs(self, key):
        file = self.repository.specs(key.crate, key.module, key.full_name())
        pieces = [file.definitions[key.name].lines()]
        words = file.free_words(key.name)
        if key in self.only:
            words, pieces = self.of_fields(file, key.name, self.only[key])
        where = f"{file.where}: {key.name}"
        uses = [self.repository.word(word, [file.imports], where, file) for word in words]
        return Entry(key, file.where, pieces, uses, [file.imports])

    def of_field(self, key, field):
        """What one field of a record rests on."""
        file = self.repository.specs(key.crate, key.module, key.full_name())
        words, _ = self.of_fields(file, key.name, [field])
        return [self.repository.word(word, [file.imports], f"{file.where}: {key.name}", file) for word in words]

    @staticmethod
    def of_fields(file, name, fields):
        """The words and the text of a record with some of its fields, and those before them that these have."""
        words, wanted = [], set()
        for field in fields:
            more, before = file.field_words(name, field)
            words += more
            wanted |= {field, *before}
        for field in wanted:
            words += file.field_words(name, field)[0]
        return words, [Lines(file.definitions[name].lines().first, lines_with_fields(file.definitions[name], wanted))]

    def of_constant(self, key):
        item = self.repository.item(key)
        value = item.tokens[item.tokens.index("=") + 1:]
        return Entry(key, item.file.where, [item.lines()], self.of_paths(without_names(value, "const"), item, set()))

    def of_type(self, key):
        """What is seen of a type: its fields or variants, or the values that its `impl Model` shows in their place."""
        item = self.repository.item(key)
        model = item.file.model_of(key.name)
        if not model:
            return Entry(key, item.file.where, [item.lines()], self.of_fields_of_type(item), [item.file.imports])
        imports = [imports_in(model), item.file.imports]
        return Entry(key, item.file.where, [comment_of(item), lines_of_value(model)],
                     self.of_model(item, model, ["Value"]), imports)

    def of_view(self, key):
        """The type of a parameter or a result: how its values are shown, and what they keep, count too. What its fields
        hold is seen as contracts see it."""
        item = self.repository.item(key)
        model = item.file.model_of(key.name)
        uses = self.of_fields_of_type(item)
        if not model:
            return Entry(key, item.file.where, [item.lines()], uses, [item.file.imports])
        uses += self.of_model(item, model, dict(ghosts_of(model)))
        return Entry(key, item.file.where, [item.lines(), model.lines()], uses, [imports_in(model), item.file.imports])

    def of_model(self, item, model, names):
        ghosts, uses = dict(ghosts_of(model)), []
        for name in names:
            imports = [imports_in(model), item.file.imports]
            uses += self.of_term(ghosts[name].term, set(generics_of(model)), imports, item.file,
                                 f"{item.where()}: {name}")
        return uses

    def of_fields_of_type(self, item):
        """What the types of a struct's fields, or of an enum's variants, rest on; and the ghost fields of a struct."""
        bound = set(generics_of(item))
        names = {str(token) for token, after in zip(item.tokens, item.tokens[1:]) if after == ":"}
        uses = self.of_paths(without_names(item.tokens[item.tokens.index(item.kind) + 2:], item.kind), item,
                             bound | {item.name})
        for name, ghost in ghosts_of(item):
            uses += self.of_term(ghost.term, bound | names, [item.file.imports], item.file, f"{item.where()}: {name}")
        return uses

    def of_trait(self, key):
        """A trait's ghost members mean what the clauses of its functions say."""
        item = self.repository.item(key)
        ghosts = dict(ghosts_of(item))
        bound, uses = {"Self", *ghosts, *generics_of(item)}, []
        for name, ghost in ghosts.items():
            uses += self.of_term(ghost.term, bound, [item.file.imports], item.file, f"{item.where()}: {name}")
        for member in self.repository.members(item):
            if member.kind == "fn":
                uses += self.of_function(member, list(clauses_of(member)),
                                         Around(bound, None, generics_of(item), [item.file.imports]))
        return Entry(key, item.file.where, [item.lines()], uses, [item.file.imports])

    # ---- Words

    def of_term(self, term, bound, imports, file, where):
        words = free_words(tokens_of(term), bound, Place(where, lambda _: False))
        return [self.repository.code_word(word, imports, file, where) for word in words]

    def of_paths(self, tokens, item, bound):
        """What the paths among tokens of Rust name, but for those that are bound."""
        uses, path = [], []
        for at, token in enumerate([*tokens, ";"]):
            if WORD.match(token) and token not in KEYWORDS or token == "crate":
                path.append(str(token))
            elif token != "::":
                if path and path != ["crate"] and path[0] not in bound:
                    uses.append(self.repository.path(path, item.file, item.where()))
                path = []
        return uses

    def of_function(self, item, clauses, around):
        """What these clauses of a function rest on: their words, and the types of the parameters that they speak of."""
        signature, uses = Signature(item), []
        signature.bounds.update(around.bounds)
        for clause in clauses:
            where = f"{item.where()}: {clause.name or clause.kind}"
            for word in free_words(tokens_of(clause.term), around.bound, Place(where, lambda _: False)):
                uses += self.of_clause_word(word, item, signature, around, where)
        return uses

    def of_clause_word(self, word, item, signature, around, where):
        front = word.split(".")[0]
        if front in signature.types:
            tokens = [around.self_type if token == "Self" and around.self_type else token
                      for token in signature.types[front]]
            used = self.of_paths(tokens, item,
                                 set(signature.bounds) | ({"Self"} if around.self_type is None else set()))
            return [as_view(one) for one in used]
        if front in signature.bounds:
            return [self.member(word, signature.bounds[front], item, where)]
        return [self.repository.code_word(word, around.imports, item.file, where)]

    def member(self, word, bounds, item, where):
        """The trait by whose ghost member `S.member` has its meaning: one of ours, or of the kit."""
        kit = None
        for part in filter(WORD.match, bounds):
            key = self.repository.path([str(part)], item.file, where)
            if isinstance(key, Kit):
                kit = kit or key
            elif word.split(".")[1] in dict(ghosts_of(self.repository.item(key))):
                return key
        if kit is None:
            raise Fault(f"{where}: {word} is not found")
        return kit

    # ---- Lists

    def below(self, keys):
        """The entries of these keys and of all that they rest on, each behind what it uses; and the words of the kit.
        Of a type that is seen in both ways the fuller one counts."""
        views = {key._replace(kind="type") for key in self.reached(keys) if key.kind == "view"}
        found, kit, begun = {}, {}, set()

        def visit(key):
            if isinstance(key, Kit):
                kit[key] = True
                return
            key = as_view(key) if key in views else key
            if key not in begun:
                begun.add(key)
                for used in self.entry(key).uses:
                    visit(used)
                found[key] = self.entry(key)

        for key in keys:
            visit(key)
        return list(found.values()), list(kit)

    def reached(self, keys):
        found, waiting = set(), list(keys)
        while waiting:
            key = waiting.pop()
            if isinstance(key, Key) and key not in found:
                found.add(key)
                waiting += self.entry(key).uses
        return found


def as_view(key):
    return key._replace(kind="view") if isinstance(key, Key) and key.kind == "type" else key


def comment_of(item):
    lines = [line for line in item.lines().lines if line.startswith("///")]
    return Lines(item.lines().first, lines)


def lines_of_value(model):
    """An `impl Model` with no more than its values."""
    lines = model.lines().lines
    head = next(line for line in lines if line.startswith("impl"))
    value = next(line for line in lines if line.strip().startswith("ghost Value"))
    return Lines(model.lines().first, [head, value, "}"])


def generics_of(item):
    """The names of the type parameters of an item, and those behind `impl`."""
    start = 1 + next(at for at, token in enumerate(item.tokens) if token == item.kind)
    start += 0 if item.kind == "impl" else 1
    return generics(item.tokens[start:])[0] if start < len(item.tokens) else {}


def without_names(tokens, kind):
    """Tokens without attributes, ghost fields, and the names of fields and of an enum's variants."""
    kept, at = [], 0
    while at < len(tokens):
        if tokens[at] == "#":
            at = behind(tokens, at + 1)
        elif tokens[at] == "ghost":
            at = behind(tokens, tokens.index("{", at))
        elif tokens[at + 1:at + 2] == [":"] or kind == "enum" and is_variant(tokens, at):
            at += 1
        else:
            kept.append(tokens[at])
            at += 1
    return kept


def is_variant(tokens, at):
    """A name at the beginning of a variant."""
    depth = sum((token in "({") - (token in ")}") for token in tokens[:at] if token in ("(", "{", ")", "}"))
    return depth == 1 and WORD.match(tokens[at]) and tokens[at - 1] in ("{", ",", "]")


def behind(tokens, at):
    """Behind the brackets that begin here."""
    depth = 0
    while True:
        depth += (tokens[at] in "({[") - (tokens[at] in ")}]")
        at += 1
        if depth == 0:
            return at


def lines_with_fields(one, wanted):
    """The lines of a record with these of its fields, each with the comment above it."""
    lines = [line for _, line in one.comment + one.code]
    start = 1 + next(at for at, line in enumerate(lines) if line.endswith(" where"))
    kept = lines[:start]
    for chunk in chunks_of(lines[start:]):
        if any(FIELD.match(line) and FIELD.match(line)[1] in wanted for line in chunk):
            kept += chunk
    return kept


def chunks_of(lines):
    """The lines of each field of a record, with the comment above it."""
    chunks = [[]]
    for line in lines:
        if (line.startswith("  --") or FIELD.match(line)) and any(map(FIELD.match, chunks[-1])):
            chunks.append([])
        chunks[-1].append(line)
    return chunks
