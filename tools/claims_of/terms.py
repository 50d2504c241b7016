"""Terms of antt: their tokens, and which of their words are bound inside of them.

A word that is bound, as a parameter, behind a λ, by `let` or as a variable of a pattern, is no name to look for. Its
scope goes to the end of the brackets that it stands in. What the reader of terms does not know, as `elim` and `open`,
is a fault and not skipped."""
import re
from typing import NamedTuple

TOKEN = re.compile(r'"(?:[^"\\\n]|\\.)*"|--[^\n]*|\[\]|[(){}\[\];,⟦⟧]|[^\s(){}\[\];,⟦⟧"]+')
PAIRS = {"(": ")", "{": "}"}
UNKNOWN = {"elim", "open", "unfolding", "[", "]", "⟦", "⟧", "?"}
# What the language has of itself.
BUILT_IN = {"→", "×", "⊥", "¬", "=", ":", ".", ",", ";", "_", "Type", "Unit", "tt", "absurd", "refl", "λ", "let", "in",
            "where"}
# With these in a pattern a value is taken apart, also where no constructor of ours is meant.
TAKES_APART = {"[]", "∷", "zero", "suc", "true", "false"}


class Fault(Exception):
    """What cannot be read or found; the place is told with it."""


class Place(NamedTuple):
    """What a list of tokens stands in: a name for faults, and whether a word of a pattern is a constructor."""
    where: str
    is_constructor: object


def tokens_of(text):
    """The tokens without comments. A dot at the end of a word, as behind the variables of a λ, is one of its own."""
    found = []
    for token in TOKEN.findall(text):
        if token.startswith("--"):
            continue
        if len(token) > 1 and token.endswith(".") and token[0] != '"':
            found += [token[:-1], "."]
        else:
            found.append(token)
    return found


def closing(tokens, start, where):
    """The place of the bracket that closes the one at the start."""
    depth = 0
    for place in range(start, len(tokens)):
        depth += (tokens[place] in PAIRS) - (tokens[place] in PAIRS.values())
        if depth == 0:
            return place
    raise Fault(f"{where}: a bracket is not closed")


def at_top(tokens, wanted):
    """The first place of a token outside of brackets, or None."""
    depth = 0
    for place, token in enumerate(tokens):
        if depth == 0 and token == wanted:
            return place
        depth += (token in PAIRS) - (token in PAIRS.values())
    return None


def split_at_top(tokens, mark):
    parts, depth = [[]], 0
    for token in tokens:
        depth += (token in PAIRS) - (token in PAIRS.values())
        if depth == 0 and token == mark:
            parts.append([])
        else:
            parts[-1].append(token)
    return [part for part in parts if part]


def is_word(token):
    """A word, and no bracket, string or number."""
    return token[0] not in '(){}[];,"⟦⟧' and not token.isdigit() or token == "[]"


def binder(tokens):
    """The variables and the type of what stands in brackets, where it is `x y : A`; else None."""
    colon = at_top(tokens, ":")
    if not colon or not all(map(is_word, tokens[:colon])):
        return None
    return tokens[:colon], tokens[colon + 1:]


def free_words(tokens, bound, place):
    """The words that are bound nowhere, in their order. `bound` are those that are bound around."""
    return list(Walk(tokens, bound, place).words())


class Walk:
    """One pass over the tokens between two brackets."""

    def __init__(self, tokens, bound, place):
        self.tokens, self.bound, self.place, self.at = tokens, set(bound), place, 0

    def words(self):
        steps = {"λ": self.behind_lambda, "let": self.behind_let, "record": self.behind_record,
                 "(": self.brackets, "{": self.brackets}
        while self.at < len(self.tokens):
            token = self.tokens[self.at]
            if token in UNKNOWN:
                raise Fault(f"{self.place.where}: cannot read `{token}`")
            if token in steps:
                yield from steps[token]()
            else:
                self.at += 1
                yield from self.word(token)

    def word(self, token):
        """A word with its fields: only its front is a name."""
        front = token.split(".")[0] if token[0] not in ".0123456789" else ""
        if is_word(token) and front and front not in BUILT_IN and front not in self.bound:
            yield token

    def inside(self, tokens, more=()):
        return free_words(tokens, self.bound | set(more), self.place)

    def group(self):
        """The tokens between the bracket here and its own, behind which the pass goes on."""
        end = closing(self.tokens, self.at, self.place.where)
        inner, self.at = self.tokens[self.at + 1:end], end + 1
        return inner

    def brackets(self):
        inner = self.group()
        found = binder(inner)
        if found:
            yield from self.inside(found[1])
            self.bound.update(found[0])
        elif len(inner) > 1 and inner[1] == "=":
            yield from self.inside(inner[2:])
        else:
            yield from self.inside(inner)

    def behind_lambda(self):
        self.at += 1
        while self.tokens[self.at] != ".":
            if self.tokens[self.at] in PAIRS:
                yield from self.brackets()
            else:
                self.bound.add(self.tokens[self.at])
                self.at += 1
        self.at += 1

    def behind_let(self):
        name, rest = self.tokens[self.at + 1], self.tokens[self.at + 2:]
        end = self.end_of_let(rest)
        yield from (word for word in self.inside(rest[:end]))
        self.bound.add(name)
        self.at += 3 + end

    def end_of_let(self, rest):
        """The place of the `in` that belongs to the `let` before these."""
        depth = 0
        for place, token in enumerate(rest):
            depth += (token == "let") - (token == "in")
            if depth < 0:
                return place
        raise Fault(f"{self.place.where}: a `let` without `in`")

    def behind_record(self):
        """`record { f = e; .. }`, or the same with a value in front: the names of fields are none to look for. Of a
        type without a name, `record { f : A; .. }`, each field sees those before it."""
        self.at += 1
        if self.tokens[self.at] == "(":
            yield from self.inside(self.group())
        elif self.tokens[self.at] != "{":
            yield from self.word(self.tokens[self.at])
            self.at += 1
        seen = set()
        for field in split_at_top(self.group(), ";"):
            if len(field) < 2 or field[1] not in "=:":
                raise Fault(f"{self.place.where}: a field without a value")
            yield from self.inside(field[2:], seen)
            seen |= {field[0]} if field[1] == ":" else set()


def clause_words(patterns, body, place):
    """The free words of one clause of a definition: constructors of its patterns, and those of its body."""
    bound, found = set(), []
    for token in patterns:
        if not is_word(token) or token in BUILT_IN:
            continue
        if "." in token or token in TAKES_APART or place.is_constructor(token):
            found.append(token)
        else:
            bound.add(token)
    return found + free_words(body, bound, place)
