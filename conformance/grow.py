#!/usr/bin/env python3
"""Makes the cases of conformance/grown: right trees of small boards, found by full searches.

A style says which rules a tree may use besides chains, moves and children. Who wins is known from the search alone, so
each answer is due by definitions.md (Who wins), and the rules of checkers/check.py say only which lines to write.
"""
import itertools
import pathlib
import sys

HERE = pathlib.Path(__file__).resolve().parent
sys.path.insert(0, str(HERE.parent / "checkers"))
sys.dont_write_bytecode = True  # nothing is left beside the checker
import check  # noqa: E402

MOST_LINKS = 300  # of one closure, so that it stays short


class Search:
    """definitions: Who wins."""

    def __init__(self):
        self.known = {}

    def wins(self, player, board, mover):
        key = player, board, mover
        if key not in self.known:
            self.known[key] = check.Graph(board, player).are_joined(check.FIRST, check.LAST) or self.wins_later(*key)
        return self.known[key]

    def wins_later(self, player, board, mover):
        cells = check.members_of(board.empty())
        after = (self.wins(player, board.put(mover, cell), check.OTHER[mover]) for cell in cells)
        if mover == player:
            return any(after)
        return board.empty() != 0 and all(after)


class Links:
    """Links of a player on a board, each with its step, until nothing new is found or there are many."""

    def __init__(self, board, player):
        self.graph = check.Graph(board, player)
        self.steps, self.links = [], []
        for ends in itertools.combinations(check.members_of(self.graph.open), 2):
            self.add("base", list(ends))
        done = 0
        while done < len(self.links) < MOST_LINKS:
            self.meet(done)
            done += 1

    def add(self, kind, values):
        link = check.link_of(self.graph, self.links, kind, values)
        if link and not any(self.covers(old, link) for old in self.links):
            self.steps.append((kind, values))
            self.links.append(link)

    @staticmethod
    def covers(old, link):
        return (old.is_full, old.ends) == (link.is_full, link.ends) and old.carrier & ~link.carrier == 0

    def meet(self, place):
        """All steps of this link with earlier ones."""
        link = self.links[place]
        for earlier in range(place if link.is_full else 0):
            self.add("stone", [earlier, place])
            self.add("cell", [earlier, place])
        if not link.is_full:
            same = [k for k, old in enumerate(self.links[:place]) if not old.is_full and old.ends == link.ends]
            for others in itertools.chain(itertools.combinations(same, 1), itertools.combinations(same, 2)):
                self.add("or", [*others, place])

    def between_sides(self):
        return [place for place, link in enumerate(self.links) if link.joins_sides()]

    def lines_for(self, places):
        """The lines of the steps that these links need, and the new numbers of the steps."""
        needed, to_do = set(), list(places)
        while to_do:
            place = to_do.pop()
            if place not in needed:
                needed.add(place)
                kind, values = self.steps[place]
                to_do += values if kind != "base" else []
        numbers = {place: number for number, place in enumerate(sorted(needed))}
        return [self.line(*self.steps[place], numbers) for place in sorted(needed)], numbers

    @staticmethod
    def line(kind, values, numbers):
        words = map(vertex_word, values) if kind == "base" else (str(numbers[place]) for place in values)
        return " ".join([kind, *words])


class Tree:
    """A tree that grows from its leaves."""

    def __init__(self, size, style):
        self.size, self.style = size, style
        self.search = Search()
        self.headings, self.lines = [], []
        self.rules = [self.chain, self.turned, self.fill, self.by_links, self.move, self.all]

    def node(self, board, mover, winner):
        """The number of a node with this heading."""
        heading = board, mover, winner
        if heading not in self.headings:
            rule, *lines = next(filter(None, (rule(*heading) for rule in self.rules)))
            self.headings.append(heading)
            self.lines += [f"node {board.black:032x} {board.white:032x} {mover} {winner} {rule}", *lines]
        return self.headings.index(heading)

    def chain(self, board, mover, winner):
        return ["chain"] if check.Graph(board, winner).are_joined(check.FIRST, check.LAST) else None

    def turned(self, board, mover, winner):
        other = board._replace(black=self.size.turned(board.black), white=self.size.turned(board.white))
        if "turned" in self.style and (other, mover, winner) in self.headings:
            return [f"turned {self.headings.index((other, mover, winner))}"]
        return None

    def fill(self, board, mover, winner):
        if "fill" not in self.style:
            return None
        lines, after = [], board
        for kind, cells in self.fill_steps(board, winner):
            new = check.filled(after, winner, kind, cells)
            if new and self.search.wins(winner, new, mover):
                lines, after = lines + [" ".join([kind, *map(cell_word, cells)])], new
        return [f"fill {len(lines)} {self.node(after, mover, winner)}", *lines] if lines else None

    @staticmethod
    def fill_steps(board, winner):
        cells = list(check.members_of(board.empty()))
        yield from (("dead", [cell]) for cell in cells)
        yield from (("pair", list(pair)) for pair in itertools.combinations(cells, 2))
        loser = check.OTHER[winner]  # what is dead for the loser needs no stone of the winner's
        yield from (("other", [cell]) for cell in cells if check.is_dead(board, loser, cell))

    def by_links(self, board, mover, winner):
        links = Links(board, winner) if "links" in self.style else None
        for place in links.between_sides() if links else []:
            if links.links[place].is_full or mover == winner:
                lines, _ = links.lines_for([place])
                return [f"links {len(lines)}", *lines]
        return None

    def move(self, board, mover, winner):
        for cell in check.members_of(board.empty()) if mover == winner else []:
            after = board.put(mover, cell), check.OTHER[mover]
            if self.search.wins(winner, *after):
                return [f"move {cell_word(cell)} {self.node(*after, winner)}"]
        return None

    def all(self, board, mover, winner):
        to_answer, steps, threats = board.empty(), [], []
        if "threats" in self.style:
            to_answer, steps, threats = self.threats(board, winner)
        answers = self.answers(board, mover, winner, to_answer)
        return [f"all {len(steps)} {len(threats)} {len(answers)}", *steps, *threats, *answers]

    def threats(self, board, winner):
        links, to_answer, threats = Links(board, winner), board.empty(), []
        for place in links.between_sides()[:1 if "one threat" in self.style else None]:
            if to_answer & ~links.links[place].carrier:
                to_answer &= links.links[place].carrier
                threats.append(place)
        lines, numbers = links.lines_for(threats)
        return to_answer, lines, [f"threat {numbers[place]}" for place in threats]

    def answers(self, board, mover, winner, to_answer):
        under = self.under_lines(board, mover, to_answer) if "under" in self.style else {}
        return [f"line {cell_word(cell)} " + (under.get(cell) or self.child(board.put(mover, cell), winner))
                for cell in check.members_of(to_answer)]

    def child(self, board, winner):
        return f"child {self.node(board, winner, winner)}"

    @staticmethod
    def under_lines(board, mover, to_answer):
        """By cell, for as many cells as have a better one that itself has no such line."""
        found, named = {}, set()
        for cell, better in itertools.product(check.members_of(to_answer), list(check.members_of(board.empty()))):
            ways = [("dead", [])] + [("pair", [third]) for third in check.members_of(board.empty())]
            for kind, third in ways:
                if cell not in found and cell not in named and better not in found \
                        and check.is_dominated(board, mover, cell, kind, better, *third):
                    found[cell] = " ".join([kind, cell_word(better), *map(cell_word, third)])
                    named.add(better)
        return found

    def text(self):
        version = 2 if any(" turned " in line for line in self.lines) else 1
        head = f"hextree {version}\nsize {self.size.rows} {self.size.columns}\n"
        return head + "".join(line + "\n" for line in self.lines) + f"end {len(self.headings)} {self.headings[-1][2]}\n"


def cell_word(cell):
    row, column = divmod(cell, check.WIDTH)
    return "abcdefghijk"[column] + str(row + 1)


def vertex_word(vertex):
    return {check.FIRST: "first", check.LAST: "last"}.get(vertex) or cell_word(vertex)


# Rows, columns, the figure of the board with its rows one after the other, and the player to move.
POSITIONS = {
    "two-by-two": (2, 2, ".. ..", "black"), "two-by-two-for-white": (2, 2, ".. ..", "white"),
    "three-by-two": (3, 2, ".. .. ..", "black"), "two-by-three": (2, 3, "... ...", "black"),
    "two-by-three-for-white": (2, 3, "... ...", "white"), "one-by-three": (1, 3, "...", "white"),
    "four-by-one": (4, 1, ". . . .", "black"), "three-by-three-with-a-stone": (3, 3, "... .B. ...", "white"),
    "three-by-three-acute": (3, 3, "W.. ... ..B", "white"), "three-by-three-obtuse": (3, 3, "..B .W. ...", "black"),
    "three-by-three-two-each": (3, 3, ".BW .W. B..", "black"), "two-by-four": (2, 4, "..B. .W..", "white"),
    "four-by-two": (4, 2, ".. B. .W ..", "white"), "three-by-four": (3, 4, "..W. .B.. .W.B", "white"),
}
STYLES = {"moves": set(), "fill": {"fill"}, "under": {"under"}, "turned": {"turned"}, "links": {"links"},
          "threats": {"threats"}, "one-threat": {"threats", "one threat", "under"}, "fill-and-under": {"fill", "under"},
          "all-but-links": {"threats", "one threat", "under", "fill", "turned"}}


def grown(name, style):
    rows, columns, figure, mover = POSITIONS[name]
    size = check.Size(rows, columns)
    stones = dict(zip(size.cells, figure.replace(" ", "")))
    masks = (sum(check.only(cell) for cell in size.cells if stones[cell] == letter) for letter in "BW")
    board, tree = check.Board(size, *masks), Tree(size, STYLES[style])
    winner = mover if tree.search.wins(mover, board, mover) else check.OTHER[mover]
    tree.node(board, mover, winner)
    position = f"black {board.black:032x}\nwhite {board.white:032x}\nmove {mover}\n"
    return tree.text(), f"0\nyes {winner}\nhexpos 1\nsize {rows} {columns}\n{position}"


def main():
    seen = set()  # a style that changes nothing gives no further case
    for style, name in itertools.product(STYLES, POSITIONS):
        text, answer = grown(name, style)
        if len(text) < 10_000 and text not in seen:
            seen.add(text)
            place = HERE / "grown" / style
            place.mkdir(parents=True, exist_ok=True)
            (place / (name + ".hextree")).write_text(text)
            (place / (name + ".answer")).write_text(answer)


if __name__ == "__main__":
    main()
