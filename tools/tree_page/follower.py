"""Which links the winner of a plain tree keeps in a game, told from the tree alone.

The rules are those by which `hx play` moves, written again from docs/promises.md and the head of hx_play's files. So
what is drawn is no part of what the program says, and where the moves differ one of the two is wrong."""
from .records import check, links_of


class Follower:
    """Where the winner stands: at a node, or in links of one of which it keeps some."""

    def __init__(self, nodes):
        self.nodes, self.place = nodes, len(nodes) - 1
        self.steps, self.links, self.kept = [], [], None

    def node(self):
        return self.nodes[self.place]

    def carriers(self):
        """The cells on which the winner's links stand: of those that it keeps, or of those that its node names."""
        if self.kept is not None:
            return self.union(self.kept)
        heading, rule, _, entries = self.node()
        if rule not in ("links", "all"):
            return 0
        self.links = links_of(heading, entries[0])
        return self.union([len(self.links) - 1] if rule == "links" else [place for _, (place,) in entries[1]])

    def union(self, places):
        cells = 0
        for place in places:
            cells |= self.links[place].carrier
        return cells

    def first(self):
        """The winner's move at the root."""
        return self.move_at_node()

    def answer(self, stone):
        """The winner's move after this one of the opponent's."""
        if self.kept is not None:
            return self.move_in_kept(stone)
        _, rule, _, entries = self.node()
        if rule == "links":
            self.read_links()
            self.kept = {len(self.links) - 1}
            return self.move_in_kept(stone)
        for cell, _, (child, *_) in entries[2]:
            if cell == stone:
                self.place = child
                return self.move_at_node()
        self.read_links()
        threats = (place for _, (place,) in entries[1])
        return self.move_in(next(place for place in threats if not check.has(self.links[place].carrier, stone)), stone)

    def move_at_node(self):
        _, rule, values, _ = self.node()
        if rule == "move":
            cell, self.place = values
            return cell
        self.read_links()
        return self.move_in(len(self.links) - 1, None)

    def read_links(self):
        heading, _, _, entries = self.node()
        self.steps = entries[0]
        self.links = links_of(heading, self.steps)

    def move_in(self, place, stone):
        """In the link at this place alone: one that is Semi is an And over a cell, which is taken."""
        if not self.links[place].is_full:
            self.kept = set()
            return self.take_cell(place)
        self.kept = {place}
        return self.move_in_kept(stone)

    def move_in_kept(self, stone):
        """In the first kept link that the stone touches, or in the first of all, by a first part without it."""
        self.part_all()
        touched = [place for place in sorted(self.kept)
                   if stone is not None and check.has(self.links[place].carrier, stone)]
        place = (touched or sorted(self.kept))[0]
        self.kept.remove(place)
        return self.take_cell(next(part for part in self.steps[place][1]
                                   if stone is None or not check.has(self.links[part].carrier, stone)))

    def part_all(self):
        """What is left are Ors: a Base needs nothing more, and an And over a stone gives way to its two links."""
        for place in reversed(range(len(self.steps))):
            kind, values = self.steps[place]
            if place in self.kept and kind in ("base", "stone"):
                self.kept.remove(place)
                self.kept.update(values if kind == "stone" else ())

    def take_cell(self, place):
        """The cell of an And over a cell, whose two links are kept then."""
        left, right = self.steps[place][1]
        self.kept |= {left, right}
        cell, = check.members_of(self.links[place].carrier & ~self.links[left].carrier & ~self.links[right].carrier)
        return cell
