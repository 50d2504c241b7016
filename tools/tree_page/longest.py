"""The line of play by a plain tree in which the loser holds out longest.

The winner moves as `hx play` does (follower.py), so the loser alone chooses. At each of its moves it tries first what
may last longest by the steps of the links that are left, and leaves out what cannot outlast a line that it has."""
import copy

from .follower import Follower
from .positions import has_chain
from .records import check, links_of


class Standing(Follower):
    """Where the winner stands, for a search: the links of a node are made once."""

    def __init__(self, nodes):
        super().__init__(nodes)
        self.made = {}

    def read_links(self):
        if self.place not in self.made:
            heading, _, _, (steps, *_) = self.node()
            self.made[self.place] = steps, links_of(heading, steps)
        self.steps, self.links = self.made[self.place]

    def copied(self):
        other = copy.copy(self)
        other.kept = None if self.kept is None else set(self.kept)
        return other


def most_in_links(steps):
    """For each step how many moves the loser may make until nothing is left of its link: one for each Or on the way."""
    most = []
    for kind, values in steps:
        if kind == "base":
            most.append(0)
        elif kind == "or":
            most.append(1 + max(most[part] for part in values))
        else:
            most.append(sum(most[part] for part in values))
    return most


class Bounds:
    """How many moves the loser may make at the most, from a node on and in links that are kept."""

    def __init__(self, nodes):
        self.in_links, self.at_node = [], []
        for node in nodes:
            _, _, _, entries = node
            self.in_links.append(most_in_links(entries[0]) if entries else [])
            self.at_node.append(self.most_at(node))

    def most_at(self, node):
        """A child stands before its node."""
        _, rule, values, entries = node
        links = self.in_links[-1]
        if rule == "move":
            return self.at_node[values[-1]]
        if rule == "links":
            return links[-1]
        if rule == "all":
            return 1 + max([links[place] for _, (place,) in entries[1]]
                           + [self.at_node[child] for _, _, (child,) in entries[2]])
        return 0

    def most(self, standing):
        if standing.kept is None:
            return self.at_node[standing.place]
        return sum(self.in_links[standing.place][place] for place in standing.kept)


class Longest:
    """The longest line from each board to which the loser may come by the tree."""

    def __init__(self, nodes, winner):
        self.bounds, self.winner, self.known = Bounds(nodes), winner, {}

    def line(self, board, standing):
        """The moves of both, the loser's first, up to the winner's chain. There is none yet."""
        key = board.black, board.white, standing.place, standing.kept and frozenset(standing.kept)
        if key not in self.known:
            self.known[key] = self.searched(board, standing)
        return self.known[key]

    def searched(self, board, standing):
        best = []
        for most, move, answer, after, later in self.tries(board, standing):
            if len(best) >= 2 + 2 * most:
                break
            line = [move, answer, *(self.line(after, later) if most else [])]
            best = max(best, line, key=len)
        return best

    def tries(self, board, standing):
        """Each move and its answer, with how many moves the loser may make at the most then: the most first, and those
        into links first."""
        cells = standing.copied().carriers()
        found = []
        for move in check.members_of(board.empty()):
            later = standing.copied()
            answer = later.answer(move)
            after = board.put(check.OTHER[self.winner], move).put(self.winner, answer)
            most = 0 if has_chain(after, self.winner) else self.bounds.most(later)
            found.append((most, move, answer, after, later))
        return sorted(found, key=lambda one: (-one[0], not check.has(cells, one[1])))


def longest_line(nodes):
    """The moves from the root of a plain tree on, up to the winner's chain."""
    board, mover, winner = nodes[-1][0]
    standing, line = Standing(nodes), []
    if mover == winner and not has_chain(board, winner):
        line.append(standing.first())
        board = board.put(winner, *line)
    return line if has_chain(board, winner) else line + Longest(nodes, winner).line(board, standing)
