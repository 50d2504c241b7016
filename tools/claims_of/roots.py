"""What a list is asked for: a clause of a function, a ghost member of a trait, a field of a record, or a definition."""
import re

from claims_of.code import clauses_of, ghosts_of, imports_in
from claims_of.lists import Around, Entry, generics_of
from claims_of.repository import TYPES, Key
from claims_of.terms import Fault

PLACES = (("spec", "specs/*.antt"), ("code", "src/**/*.rt"))


class Asked:
    """What was asked for: an entry of its own, as the last of the list, and what of records is promised alone."""

    def __init__(self, entry, only=None):
        self.entry, self.only = entry, only or {}


def find(repository, lists, name, part):
    """The one place that a name, and a clause, a member or a field of it, stands in."""
    crate, name = crate_and_name(repository, name)
    found = [one for one in candidates(repository, crate, name) if part is None or has_part(repository, one, part)]
    asked = f"{name} {part}" if part else name
    if not found:
        raise Fault(f"{asked} is not found")
    if len(found) > 1:
        raise Fault(f"{asked} is in several places: {', '.join(sorted(told(one) for one in found))}")
    return made(repository, lists, found[0], part)


def crate_and_name(repository, name):
    front, _, rest = name.partition("::")
    return (front, rest) if front in repository.crates and rest else (None, name)


def candidates(repository, crate, name):
    """Functions, as (item, type or None), and keys of definitions, types and traits."""
    last = name.split("::")[-1]
    for kind, pattern in PLACES:
        for path in sorted((repository.top / "crates" / (crate or "")).glob(pattern if crate else "*/" + pattern)):
            text = path.read_text(encoding="utf-8")
            if re.search(rf"(?<!\w){re.escape(last)}(?!\w)", text):
                relative = str(path.relative_to(repository.top))
                found = in_specs if kind == "spec" else in_code
                yield from found(repository, relative, name)


def in_specs(repository, path, name):
    _, crate, _, file = path.split("/")
    module = file.rpartition(".")[0]
    if module != "Lib" and name.split("::")[-1] in repository.specs(crate, module, path).definitions:
        if name.split("::")[:-1] in ([], [module]):
            yield Key("spec", crate, module, name.split("::")[-1])


def in_code(repository, path, name):
    crate, module = path.split("/")[1], re.search(r"/src/(.*)\.rt$", path)[1]
    file = repository.code(crate, module, path)
    *types, last = name.split("::")
    for item in file.items:
        if not types and item.name == last and item.kind in (*TYPES, "trait"):
            yield Key("trait" if item.kind == "trait" else "type", crate, module, last)
        elif not types and item.name == last and item.kind == "fn":
            yield item, None
        elif types == [item.name] and item.kind in ("impl", "trait"):
            yield from ((member, item) for member in repository.members(item) if member.name == last and member.kind
                        == "fn")


def has_part(repository, one, part):
    if isinstance(one, Key):
        if one.kind == "trait":
            return part in dict(ghosts_of(repository.item(one)))
        return part in fields_of(repository, one)
    return any(clause.name == part.partition(":")[0] and clause.kind == "ensures" for clause in clauses_of(one[0]))


def fields_of(repository, one):
    """The fields of a record, and nothing of what is none."""
    if one.kind != "spec":
        return []
    definition = repository.specs(one.crate, one.module, one.full_name()).definitions[one.name]
    return re.findall(r"^  (?:pub )?([^\s:]+) :", definition.code_text(), re.M) if definition.kind == "record" else []


def no_such_field(repository, lists, records, wanted):
    """Which fields there are, and where those that are missing stand, if they stand in what one of these promises."""
    said, instead = [], []
    for record in records:
        fields = fields_of(repository, record)
        missing = [field for field in wanted if field not in fields]
        said.append(f"no field {', '.join(f'`{field}`' for field in missing)} in {record.name}; its fields are "
                    f"{', '.join(fields)}")
        for field in fields:
            inside = [name for one in lists.of_field(record, field) if isinstance(one, Key)
                      for name in fields_of(repository, one)]
            instead += [f"{field}.{name}" for name in missing if name in inside]
    return "; ".join(said or ["there is no record"]) + (f"; try {','.join(dict.fromkeys(instead))}" if instead else "")


def told(one):
    return one.full_name() if isinstance(one, Key) else one[0].where()


def made(repository, lists, one, part):
    if not isinstance(one, Key):
        return of_function(repository, lists, *one, part)
    if one.kind == "spec" and part:
        lists.only[one] = [part]
    return Asked(lists.entry(one))


# ---- Clauses of functions

def of_function(repository, lists, item, around, part):
    name, _, fields = (part or "").partition(":")
    clauses = [clause for clause in clauses_of(item) if not name or clause.name == name or clause.kind == "requires"]
    if all(clause.kind == "requires" for clause in clauses):
        raise Fault(f"{item.where()} has no clause")
    context = what_is_around(item, around)
    uses = lists.of_function(item, clauses, context)
    module = re.search(r"/src/(.*)\.rt$", item.file.where)[1]
    key = Key("clause", item.file.where.split("/")[1], module, f"{item.name} {name}".strip())
    entry = Entry(key, item.file.where, [signature_lines(item), *(lines_of(item, clause) for clause in clauses)], uses,
                  context.imports)
    return Asked(entry, restricted(repository, lists, uses, fields.split(","), item.where()) if fields else {})


def what_is_around(item, around):
    if around is None:
        return Around(set(), None, {}, [item.file.imports])
    imports = [imports_in(around), item.file.imports]
    if around.kind == "trait":
        return Around({"Self", *dict(ghosts_of(around))}, None, generics_of(around), imports)
    return Around(set(), around.name, generics_of(around), imports)


def signature_lines(item):
    """The lines of a function before its contract."""
    first = next(clauses_of(item))
    return item.file.lines(item.tokens[0].at, first.begin - 1)


def lines_of(item, clause):
    return item.file.lines(clause.begin, clause.end)


def restricted(repository, lists, uses, fields, where):
    """The record among what a clause rests on that has all these fields. Behind a point is a field of the record that
    the field before it promises."""
    own = list(dict.fromkeys(field.partition(".")[0] for field in fields))
    records = [one for one in dict.fromkeys(uses) if isinstance(one, Key) and fields_of(repository, one)]
    found = {one for one in records if all(field in fields_of(repository, one) for field in own)}
    if len(found) != 1:
        wanted = no_such_field(repository, lists, records,
                               own) if not found else f"several records have the fields {', '.join(own)}"
        raise Fault(f"{where}: {wanted}")
    record, only = found.pop(), {}
    for field in own:
        inside = [one.partition(".")[2] for one in fields if one.startswith(f"{field}.")]
        if inside:
            only.update(restricted(repository, lists, lists.of_field(record, field), inside, f"{where}: {field}"))
    return {record: own, **only}


# ---- Lists

def below_all(lists, asked):
    """The entries below all that is asked for, these at the end of what each rests on; and the kit's words."""
    found = [find(lists.repository, lists, name, part) for name, part in asked]
    for one in found:
        for key, fields in one.only.items():
            lists.only.setdefault(key, []).extend(fields)
    for one in found:
        lists.entries[one.entry.key] = one.entry
    return lists.below([one.entry.key for one in found])
