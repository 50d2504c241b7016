"""A template as a picture: its carrier and its ends are marked, and a caption has what `hx template` says of it."""
import re
import subprocess

from tree_page.pictures import picture
from tree_page.program import program
from tree_page.records import cell_of, check, end_told, name, names

SIDES = {"first": check.FIRST, "last": check.LAST}


class NoTemplate(Exception):
    """The bytes are not the text of a template."""


def answer_to(content):
    """What the program says, which reads the text, so that it is not judged here."""
    answer = subprocess.run([program(), "template"], input=content, stdout=subprocess.PIPE).stdout.decode().strip()
    wrong = re.fullmatch(r"bad template (\d+)", answer)
    if wrong:
        raise NoTemplate(f"line {wrong[1]} is not of the text of a template")
    if answer not in ("yes", "no") and not answer.startswith("unknown"):
        raise NoTemplate(f"hx template says {answer!r}")
    return answer


def vertex_of(word):
    return SIDES[word] if word in SIDES else cell_of(word)


def template_picture(content):
    answer = answer_to(content)
    (_, rows, columns), (_, black), (_, white), (_, owner), (_, kind), (_, *ends), (_, carrier) = (
        line.split() for line in content.decode().splitlines()[1:])
    vertices = list(map(vertex_of, ends))
    record = {"black": names(int(black, 16)), "white": names(int(white, 16)), "carrier": names(int(carrier, 16)),
              "chosen": " ".join(name(vertex) for vertex in vertices if vertex < check.FIRST)}
    first = owner if kind == "semi" else check.OTHER[owner]
    one, other = (end_told(vertex, owner) for vertex in vertices)
    caption = [f"{owner.capitalize()} joins {one} with {other},", f"{first.capitalize()} moves first: {answer}"]
    return picture(check.Size(int(rows), int(columns)), record, {(owner, vertex) for vertex in vertices}, caption)
