"""The parts of docs/audit.md that are made: the lists with a sentence for each definition, the numbers, and hx_main."""
import re
from typing import NamedTuple

from claims_of.lists import Lists
from claims_of.repository import Repository
from claims_of.roots import below_all
from claims_of.summary import count
from claims_of.terms import Fault

DOCUMENT, SENTENCES = "docs/audit.md", "docs/audit-sentences.txt"
UNPROMISED = "crates/hx_main/src/main.rt", "crates/hx_cli/src/command_line.rt"
SENTENCE = re.compile(r"([0-9a-f]{6}) (\S+(?: \S+)*)  (\S.*)")
PART = re.compile(r"(<!-- claims: (\w+) -->\n)(.*?)(<!-- end -->\n)", re.S)

# The lists, in reading order: what each is asked for.
LISTS = {
    "check": [("run", "check:answers.proof,answers.yes,answers.wrong")],
    "solve": [("run", "solve:answers.solved,answers.unknown,refusal")],
    "named_players_win": [("named_players_win", None)],
    "replies": [("run", "htp:replies")],
    "seat_names_winners": [("seat_names_winners", None)],
    "one_winner": [("one_winner", None)],
}

# What is counted too, with the words for it.
COUNTED = {
    "the clauses `check` and `solve` with all their promises": [("run", "check"), ("run", "solve")],
    "a valid tree, `IsValidTree`": [("hx_tree::IsValidTree", None)],
}
TITLES = {
    "check": "`yes`, `proof` and `wrong` of `check`", "solve": "`solved`, `unknown` and `refusal` of `solve`",
    "named_players_win": "`named_players_win`", "replies": "`replies` of `htp`",
    "seat_names_winners": "`seat_names_winners`", "one_winner": "`one_winner`",
}


# ---- The sentences

class Sentence(NamedTuple):
    """A sentence, and the mark of the definition as it stood when it was written."""
    mark: str
    text: str


def sentences_of(text):
    """Each sentence by the name of its definition."""
    found = {}
    for number, line in enumerate(text.splitlines(), 1):
        if not line.strip() or line.startswith("#"):
            continue
        match = SENTENCE.fullmatch(line)
        if not match or match[2] in found:
            raise Fault(f"{SENTENCES}:{number}: no mark, name and sentence, or a second sentence of a definition")
        found[match[2]] = Sentence(match[1], match[3])
    return found


def unmatched(sentences, entries):
    """Definitions without a sentence, sentences without a definition, and definitions that are newer than theirs."""
    for name, entry in entries.items():
        if name not in sentences:
            yield f"{SENTENCES}: {name} has no sentence; its mark is {entry.mark()}"
        elif sentences[name].mark != entry.mark():
            yield f"{SENTENCES}: {name} was changed after its sentence was written; its mark is now {entry.mark()}"
    yield from (f"{SENTENCES}: no list has {name}" for name in sentences if name not in entries)


def marked_anew(text, entries):
    """The sentences with the marks of the definitions as they stand."""
    def line(match):
        return f"{entries[match[2]].mark() if match[2] in entries else match[1]} {match[2]}  {match[3]}"
    return "".join(SENTENCE.sub(line, one) for one in text.splitlines(keepends=True))


# ---- The parts

class Parts:
    def __init__(self, top):
        self.top, self.repository = top, Repository(top)
        self.lists = {name: below_all(Lists(self.repository), asked) for name, asked in LISTS.items()}
        self.sentences = sentences_of((top / SENTENCES).read_text(encoding="utf-8"))
        self.new = self.in_order()

    def in_order(self):
        """Of each list what none before it has."""
        seen, new = set(), {}
        for name, (entries, _) in self.lists.items():
            new[name] = [entry for entry in entries if (entry.full_name(), entry.text()) not in seen]
            seen |= {(entry.full_name(), entry.text()) for entry in entries}
        return new

    def definitions(self):
        return {entry.full_name(): entry for entries in self.new.values() for entry in entries}

    def made(self):
        wrong = list(unmatched(self.sentences, self.definitions()))
        if wrong:
            raise Fault("\n".join(wrong))
        parts = {name: self.table(name) for name in LISTS}
        return {**parts, "numbers": self.numbers(), "kit": self.kit(), "main": self.main()}

    def table(self, name):
        entries, new = self.lists[name][0], self.new[name]
        above = len(entries) - len(new)
        stand = f", of which {above} stand above" if above else ""
        words = " + ".join(" ".join(filter(None, one)) for one in LISTS[name])
        yield f"{len(entries)} definitions{stand}; `tools/claims {words}` prints them:"
        yield ""
        yield "| definition | crate | lines | in words |"
        yield "|---|---|---|---|"
        for entry in new:
            shown = entry.key.name + (", with what it keeps" if entry.full_name().endswith(" shown") else "")
            link = f"[{shown}](../{entry.path})"
            yield f"| {link} | {entry.key.crate} | {len(entry.lines())} | {self.sentences[entry.full_name()].text} |"

    def numbers(self):
        yield "| what | definitions | lines | of which comments |"
        yield "|---|---|---|---|"
        for name, (entries, _) in self.lists.items():
            yield number_row(TITLES[name], entries)
        yield number_row("these together", self.below([one for asked in LISTS.values() for one in asked]))
        for title, asked in COUNTED.items():
            yield number_row(title, self.below(asked))

    def below(self, asked):
        return below_all(Lists(self.repository), asked)[0]

    def kit(self):
        words = sorted({word.name for _, kit in self.lists.values() for word in kit})
        yield f"The lists stop at {len(words)} words of the kit's library: {', '.join(f'`{word}`' for word in words)}."

    def main(self):
        for path in UNPROMISED:
            lines = (self.top / path).read_text(encoding="utf-8").splitlines()
            yield f"[{path}](../{path}), {len(lines)} lines:"
            yield ""
            yield "```rust"
            yield from lines
            yield "```"


def number_row(title, entries):
    lines, comments = count(entries)
    return f"| {title} | {len(entries)} | {lines} | {comments} |"


# ---- The document

def with_parts(text, parts):
    missing = set(parts) - {name for _, name, _, _ in PART.findall(text)}
    if missing:
        raise Fault(f"{DOCUMENT} has no place for {', '.join(sorted(missing))}")
    return PART.sub(lambda match: match[1] + "\n".join(parts[match[2]]) + "\n" + match[4], text)


def read_again(top):
    """Says that the sentences of what changed were read again, and are so."""
    path, entries = top / SENTENCES, Parts(top).definitions()
    path.write_text(marked_anew(path.read_text(encoding="utf-8"), entries), encoding="utf-8")


def write(top):
    path = top / DOCUMENT
    path.write_text(with_parts(path.read_text(encoding="utf-8"),
                               {name: list(part) for name, part in Parts(top).made().items()}), encoding="utf-8")


def differences(top):
    """The lines of the document that are not what is made now."""
    text = (top / DOCUMENT).read_text(encoding="utf-8")
    made = with_parts(text, {name: list(part) for name, part in Parts(top).made().items()})
    old, new = text.splitlines(), made.splitlines()
    found = [f"{DOCUMENT}: old: {line}" for line in old if line not in new]
    found += [f"{DOCUMENT}: now: {line}" for line in new if line not in old]
    return found or ([f"{DOCUMENT}: lines stand in another order"] if old != new else [])
