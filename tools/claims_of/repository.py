"""Where a word's definition stands: from the imports of a file to the file and the item that is meant."""
import pathlib
import re
from typing import NamedTuple

from claims_of.code import CodeFile, items_in
from claims_of.specs import SpecFile
from claims_of.terms import Fault

TYPES = ("struct", "enum", "type")
# What Rust knows without an import.
RUST = set("""bool char str u8 u16 u32 u64 u128 usize i8 i16 i32 i64 i128 isize Self Vec String Option Result Box Some
None Ok Err Drop Copy Clone Send Sync Sized Iterator IntoIterator Fn FnMut FnOnce Default PartialEq Eq PartialOrd Ord
HostRuntime AllocGlobal true false self""".split())
VARIANTS = {"Some", "None", "Ok", "Err"}
KEYWORDS = {"mut", "dyn", "impl", "as", "const", "pub", "crate", "ref", "for", "fn", "where", "move", "unsafe"}


class Key(NamedTuple):
    """A definition of ours: a definition of specs/ (`spec`), or a `type`, a `trait` or a `const` of src/; a `view` is a
    type with how its values are shown."""
    kind: str
    crate: str
    module: str
    name: str

    def full_name(self):
        return "::".join(filter(None, [self.crate, self.module, self.name]))


class Kit(NamedTuple):
    """A word of the kit's library, at which a list stops."""
    module: str
    name: str


class Repository:
    def __init__(self, top):
        self.top = pathlib.Path(top)
        self.crates = {path.name for path in (self.top / "crates").iterdir() if path.is_dir()}
        self.files = {}

    # ---- Files

    def file(self, path, kind, where):
        if path not in self.files:
            if not (self.top / path).is_file():
                raise Fault(f"{where}: there is no {path}")
            self.files[path] = kind((self.top / path).read_text(encoding="utf-8"), path)
        return self.files[path]

    def specs(self, crate, module, where):
        return self.file(f"crates/{crate}/specs/{module}.antt", SpecFile, where)

    def code(self, crate, module, where):
        return self.file(f"crates/{crate}/src/{module or 'lib'}.rt", CodeFile, where)

    def item(self, key):
        """The item of a type, a trait or a constant."""
        kinds = TYPES if key.kind in ("type", "view") else (key.kind,)
        found = self.code(key.crate, key.module, key.full_name()).find(key.name, kinds)
        if len(found) != 1:
            raise Fault(f"{key.full_name()} is found {len(found)} times")
        return found[0]

    # ---- Words of antt

    def word(self, word, imports, where, own=None):
        """What a word means: one of the file's own definitions, or what it imports."""
        front = word.split(".")[0]
        if own and front in own.definitions:
            return self.own_key(own, front)
        if own and front in own.constructor_of:
            return self.own_key(own, own.constructor_of[front])
        for one in imports:
            if one.find(word):
                return self.imported(*one.find(word), where)
        raise Fault(f"{where}: {word} is not found")

    def code_word(self, word, imports, file, where):
        """What a word of a clause means: what is imported for it, or else what the code around has by this name."""
        front = word.split(".")[0]
        if not any(one.find(word) for one in imports):
            if file.find(front, (*TYPES, "const")) or front in file.uses or front in VARIANTS:
                return self.path([front], file, where)
        return self.word(word, imports, where)

    @staticmethod
    def own_key(own, name):
        _, crate, _, file = own.where.split("/")
        return Key("spec", crate, file.rpartition(".")[0], name)

    def imported(self, module, name, where):
        parts = module.split(".")
        if parts[0] != "Rattle" or parts[1] not in self.crates:
            return Kit(module, name)
        if parts[2] != "specs":
            raise Fault(f"{where}: cannot read {module}")
        if parts[3] == "declared":
            return self.declared(parts[1], parts[4:], name, where)
        return self.specified(parts[1], parts[3:], name, where)

    def specified(self, crate, parts, name, where):
        """What stands in a file of specs/; of a constructor its type."""
        file = self.specs(crate, parts[0], where)
        if len(parts) == 2 and name in getattr(file.definitions.get(parts[1]), "constructors", ()):
            return Key("spec", crate, parts[0], parts[1])
        if len(parts) == 1 and name in file.definitions:
            return Key("spec", crate, parts[0], name)
        if len(parts) == 1 and name in file.constructor_of:
            return Key("spec", crate, parts[0], file.constructor_of[name])
        raise Fault(f"{where}: {name} is not found in {'.'.join([crate, *parts])}")

    def declared(self, crate, parts, name, where):
        """What stands in a file of src/: a type, a variant of one, or a constant."""
        if parts[-1] == "TheConstants":
            return self.checked(Key("const", crate, "/".join(parts[:-1]), name), where)
        variant = name if parts[-1] == "TheVariants" else None
        parts = parts[:-1] if variant else parts
        key = self.checked(Key("type", crate, "/".join(parts[:-1]), parts[-1]), where)
        if not variant and self.item(key).file.model_of(key.name):
            key = key._replace(kind="view")
        if variant and variant not in self.item(key).tokens or not variant and name != key.name:
            raise Fault(f"{where}: {name} is not found in {key.full_name()}")
        return key

    def checked(self, key, where):
        try:
            self.item(key)
        except Fault as fault:
            raise Fault(f"{where}: {fault}") from None
        return key

    # ---- Paths of Rust

    def path(self, path, file, where):
        """The type, trait or constant that a path names in a file of src/."""
        crate = file.where.split("/")[1]
        module = re.search(r"/src/(.*)\.rt$", file.where)[1]
        own = [item for item in file.items if item.name == path[0] and item.kind in (*TYPES, "trait", "const")]
        if own:
            return key_of(own[0], crate, module)
        if path[0] in file.uses:
            return self.full_path(file.uses[path[0]] + path[1:], crate, where)
        if path[0] in RUST:
            return Kit("", path[0])
        return self.full_path(path, crate, where)

    def full_path(self, path, crate, where):
        if path[0] == "crate":
            return self.in_crate(crate, path[1:], where)
        if path[0] in self.crates:
            return self.in_crate(path[0], path[1:], where)
        if path[0] in self.kits(crate):
            return Kit("::".join(path[:-1]), path[-1])
        raise Fault(f"{where}: {'::'.join(path)} is not found")

    def kits(self, crate):
        """The libraries of the kit on which a crate stands."""
        lines = [line.partition("#")[0].partition(":") for line in (self.top / "crates.txt").read_text().splitlines()]
        return {"std", "core"} | {used for head, _, rest in lines if head.split()[:1] == [crate]
                                  for used in rest.split()}

    def in_crate(self, crate, path, where):
        """An item by its path from the root of a crate, which may hand on what stands elsewhere."""
        module, inner = "", path[0]
        while len(path) > 1 and (self.top / f"crates/{crate}/src/{inner}.rt").is_file():
            module, path = inner, path[1:]
            inner = f"{module}/{path[0]}"
        file = self.code(crate, module, where)
        own = [item for item in file.items if item.name == path[0] and item.kind in (*TYPES, "trait", "const")]
        if own:
            return key_of(own[0], crate, module)
        if path[0] in file.uses:
            return self.full_path(root_path(file.uses[path[0]], crate, self) + path[1:], crate, where)
        raise Fault(f"{where}: {crate}::{'::'.join(path)} is not found")

    def members(self, item):
        """The items inside of an impl or a trait."""
        start = item.tokens.index("{")
        return list(items_in(item.tokens[start + 1:-1], item.file, item.tokens[start].at + 1))


def root_path(path, crate, repository):
    """A path in `lib.rt`, where a module of the crate needs no `crate` in front."""
    known = path[0] == "crate" or path[0] in repository.crates or path[0] in repository.kits(crate)
    return path if known else ["crate", *path]


def key_of(item, crate, module):
    kind = item.kind if item.kind in ("trait", "const") else "type"
    return Key(kind, crate, "" if module == "lib" else module, str(item.name))
