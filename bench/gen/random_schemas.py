"""Random schemas, defaults of them, and the readers' schemas that they evolve into, for `compare.py`.

A type is a graph of `Type`, in which one that has a name stands as often as it is used; `spelled` makes the JSON tree of it, which
defines it where it stands first and refers to it by its name from then on.
"""

import copy

PLAIN = ("null", "boolean", "int", "long", "string", "bytes")
NAMED = ("fixed", "enum", "record")
# What a type is chosen to be, and how often.
USUAL = {"null": 1, "boolean": 1, "int": 2, "long": 2, "string": 2, "bytes": 1, "fixed": 2, "enum": 2, "record": 5, "array": 2, "map": 2, "union": 3}
EMPTY = {"null": 4, "fixed": 3, "record": 6, "array": 3, "int": 0.3, "map": 0.3, "union": 0.3, "enum": 0.2}
# The namespaces of a schema: a type of none of them cannot be referred to inside those that have one.
SPACES = (("",), ("",), ("n",), ("n", "n.m", "nn"), ("a.b.c", "a.b.d"))
WIDE = "éß漢😀"
ENDLESS = 1_000


class Type:
    """A type: its kind, and what the kind has: `of`, `branches`, `fields`, `symbols`, `size`, a name, a namespace and aliases."""

    def __init__(self, kind, **parts):
        self.kind, self.name, self.space, self.aliases = kind, "", "", []
        self.__dict__.update(parts)

    def fullname(self):
        return f"{self.space}.{self.name}" if self.space else self.name

    def parts(self):
        """The types that it is made of."""
        if self.kind in ("array", "map"):
            return [self.of]
        if self.kind == "union":
            return self.branches
        return [field.type for field in self.fields] if self.kind == "record" else []


class Field:
    """A field of a record, whose default is a list of one JSON tree, or None."""

    def __init__(self, name, type, default=None, aliases=()):
        self.name, self.type, self.default, self.aliases = name, type, default, list(aliases)


def all_types(root):
    """Each type once."""
    found, left = {}, [root]
    while left:
        type = left.pop()
        if id(type) not in found:
            found[id(type)] = type
            left += type.parts()
    return list(found.values())


def set_heights(root):
    """Tells each type how deep its least data are; a type without data is endless."""
    types = all_types(root)
    for type in types:
        type.height = ENDLESS
    changed = True
    while changed:
        changed = False
        for type in types:
            heights = [part.height for part in type.parts()]
            if type.kind in ("array", "map") or not heights:
                height = 1
            else:
                height = 1 + (min(heights) if type.kind == "union" else max(heights))
            if height < type.height:
                type.height, changed = height, True


class Maker:
    """Makes types at random."""

    def __init__(self, choose, kinds=None, most=40):
        self.choose, self.kinds, self.left = choose, kinds or USUAL, most
        self.spaces = choose.choice(SPACES)
        self.names, self.known, self.open = set(), [], []

    def number(self, *often):
        """A small number: each is as likely as its weight says."""
        return self.choose.choices(range(len(often)), often)[0]

    def name_of(self, type):
        """Gives a type a name that no other one has."""
        while not type.name or type.fullname() in self.names:
            type.space = self.choose.choice(self.spaces)
            type.name = self.choose.choice("ABCDEFGH") + (str(self.choose.randrange(40)) if len(self.names) > 3 else "")
        self.names.add(type.fullname())
        if self.choose.randrange(4) == 0:
            type.aliases = [self.choose.choice(["X", "Y", "n.Z", "a.b.c.A"]) + str(self.choose.randrange(20))]

    def type(self, depth=0, is_branch=False, may_recur=False):
        """A type."""
        self.left -= 1
        if self.known and self.choose.randrange(5) == 0:
            type = self.choose.choice(self.known)
            if may_recur or type not in self.open:
                return type
        kinds = {kind: weight for kind, weight in self.kinds.items() if not (is_branch and kind == "union")}
        if depth > 5 or self.left < 0:
            kinds = {kind: weight for kind, weight in kinds.items() if kind in PLAIN or kind in ("fixed", "enum")}
        return self.of_kind(self.choose.choices(list(kinds), kinds.values())[0], depth)

    def of_kind(self, kind, depth=0):
        """A type of a kind."""
        if kind in PLAIN:
            return Type(kind)
        if kind in ("array", "map"):
            return Type(kind, of=self.type(depth + 1, may_recur=True))
        if kind == "union":
            return self.union(1 + self.number(1, 5, 4, 2, 1), depth)
        type = Type(kind)
        self.name_of(type)
        if kind == "fixed":
            type.size = 0 if "int" not in self.kinds or self.kinds["int"] < 1 else self.choose.choice((0, 1, 2, 4, 8, 16, 40))
        if kind == "enum":
            self.give_symbols(type)
        self.known.append(type)
        if kind == "record":
            self.give_fields(type, self.number(1, 3, 4, 4, 3, 2, 1, 1), depth)
        return type

    def give_symbols(self, type):
        """Gives an enum symbols, and now and then a default."""
        count = 1 + self.number(2, 3, 3, 2, 1) if self.choose.randrange(20) else 100
        type.symbols = [f"S{k}" for k in self.choose.sample(range(2 * count), count)]
        type.symbol = self.choose.choice(type.symbols) if self.choose.randrange(3) == 0 else None

    def give_fields(self, type, count, depth):
        """Gives a record fields."""
        self.open.append(type)
        type.fields = []
        for name in self.choose.sample("abcdefghijkl", count):
            field = Field(name, self.type(depth + 1))
            if self.choose.randrange(8) == 0:
                field.aliases = [f"old_{name}"]
            type.fields.append(field)
        self.open.pop()

    def union(self, count, depth):
        """A union of up to this many branches."""
        branches = []
        if self.choose.randrange(2):
            branches.append(Type("null"))
        while len(branches) < count:
            # A type that is being made may be a branch where another one ends the data.
            ends = any(it.kind in ("null", "int", "string") for it in branches)
            branch = self.type(depth + 1, is_branch=True, may_recur=ends)
            if branch.kind != "union" and not any(is_same_branch(branch, it) for it in branches):
                branches.append(branch)
            else:
                count -= 1
        if not branches:
            branches.append(Type("null"))
        self.choose.shuffle(branches)
        return Type("union", branches=branches)


def is_same_branch(one, other):
    """Whether two types cannot be branches of one union."""
    return one is other or (one.kind == other.kind and one.kind not in NAMED)


def schema(choose, kinds=None, most=40):
    """A type that has data."""
    while True:
        maker = Maker(choose, kinds, most)
        root = maker.of_kind(choose.choice(("record", "record", "record", "union", "array", "map"))) if choose.randrange(6) else maker.type()
        set_heights(root)
        if root.height < 60:
            return root


class Defaults:
    """Makes defaults of types, as JSON trees."""

    def __init__(self, choose, most=60):
        self.choose, self.left = choose, most

    def text(self, most):
        """A string for a text, bytes or a fixed."""
        letters = "ab \\\"\n\u00ff" if most is None else "ab\u0000\u00e9\u00ff"
        count = self.choose.choice((0, 1, 2, 2, 3, 8)) if most is None else most
        return "".join(self.choose.choices(letters, k=count))

    def of(self, type):
        """A default of a type."""
        self.left -= 1
        choose, kind = self.choose, type.kind
        if kind == "null":
            return None
        if kind == "boolean":
            return choose.random() < 0.5
        if kind in ("int", "long"):
            bits = choose.choice((1, 4, 7, 8, 14, 31, 31 if kind == "int" else 63))
            return choose.getrandbits(bits) * choose.choice((1, -1))
        if kind in ("string", "bytes"):
            return self.text(None)
        if kind == "fixed":
            return self.text(type.size)
        if kind == "enum":
            return choose.choice(type.symbols)
        return self.of_parts(type)

    def of_parts(self, type):
        """A default of a type that has parts."""
        choose, kind = self.choose, type.kind
        if kind == "union":
            fitting = [it for it in type.branches if it.height < type.height] if self.left < 0 else type.branches
            return self.of(choose.choice([it for it in fitting if it.height < ENDLESS]))
        if kind == "record":
            made = {}
            for field in type.fields:
                if field.default is None or choose.randrange(3):
                    made[field.name] = self.of(field.type)
            return made
        count = 0 if self.left < 0 or type.of.height >= ENDLESS else choose.choice((0, 0, 1, 2, 3))
        if kind == "array":
            return [self.of(type.of) for _ in range(count)]
        return {choose.choice(("k", "key", "x", "ü", "")) + str(k): self.of(type.of) for k in range(count)}


class Evolution:
    """Makes a reader's type of a writer's, type by type."""

    def __init__(self, choose, root, rate):
        self.choose, self.rate, self.made, self.added = choose, rate, {}, 0
        named = [it for it in all_types(root) if it.kind in NAMED]
        self.maker = Maker(choose, most=8)
        self.maker.names = {it.fullname() for it in named}
        self.maker.spaces = sorted({it.space for it in named}) or ("",)

    def happens(self, share=1.0):
        return self.choose.random() < self.rate * share

    def of(self, type, is_branch=False):
        """The reader's type for a writer's."""
        if type.kind in NAMED:
            return self.named(type)
        if type.kind in ("array", "map"):
            return Type(type.kind, of=self.of(type.of))
        if type.kind == "union":
            return self.union(type, is_branch)
        made = Type(self.promoted(type.kind))
        if not is_branch and self.happens(0.4):
            return self.wrapped(made)
        return made

    def promoted(self, kind):
        """The kind, or another one that takes its data, and now and then one that takes some of them or none."""
        if self.happens():
            return {"int": "long", "string": "bytes", "bytes": "string"}.get(kind, kind)
        return {"long": "int", "null": "int", "boolean": "null"}.get(kind, kind) if self.happens(0.05) else kind

    def wrapped(self, type):
        """A union of a type and others."""
        branches = [type]
        for kind in self.choose.sample(PLAIN, self.choose.randrange(3)):
            if not any(is_same_branch(Type(kind), it) for it in branches):
                branches.append(Type(kind))
        self.choose.shuffle(branches)
        return Type("union", branches=branches)

    def union(self, type, is_branch):
        """A union with branches moved, added or left out."""
        branches = []
        for branch in type.branches:
            made = self.of(branch, is_branch=True)
            if not any(is_same_branch(made, it) for it in branches) and not (len(type.branches) > 1 and self.happens(0.15)):
                branches.append(made)
        if self.happens() and not any(it.kind == "null" for it in branches):
            branches.append(Type("null"))
        if not branches:
            branches.append(Type("int"))
        if self.happens():
            self.choose.shuffle(branches)
        if len(branches) == 1 and not is_branch and self.happens():
            return branches[0]
        return Type("union", branches=branches)

    def named(self, type):
        """A type with a name, which is made once."""
        if id(type) in self.made:
            return self.made[id(type)]
        made = copy.copy(type)
        made.aliases = [it for it in type.aliases if self.choose.randrange(2)]
        self.made[id(type)] = made
        if self.happens(0.6):
            self.rename(made)
        if type.kind == "enum":
            self.change_symbols(made)
        elif type.kind == "fixed" and self.happens(0.05):
            made.size += 1
        elif type.kind == "record":
            made.fields = self.changed_fields(type)
        return made

    def rename(self, made):
        """Gives a type another name, of which the old one is an alias most of the time."""
        old, space = made.fullname(), made.space
        self.added += 1
        made.name = f"{made.name}_{self.added}"
        if space and self.happens():
            made.space = f"{space}.v2"
        if self.choose.randrange(12):
            made.aliases.append(old)
        self.choose.shuffle(made.aliases)

    def change_symbols(self, made):
        """Adds symbols, moves them, leaves one out, or gives a default."""
        made.symbols = list(made.symbols)
        if self.happens():
            made.symbols += ["ADDED", "MORE"][:self.choose.randrange(3)]
        if self.happens(0.5):
            self.choose.shuffle(made.symbols)
        if len(made.symbols) > 1 and self.happens(0.3):
            made.symbols.pop()
        if made.symbol not in made.symbols:
            made.symbol = None
        if self.happens(0.5):
            made.symbol = self.choose.choice(made.symbols)

    def changed_fields(self, type):
        """The reader's fields of a record."""
        fields = []
        for field in type.fields:
            if self.happens(0.5):
                continue
            made = Field(field.name, self.of(field.type), None, field.aliases)
            if self.happens(0.6):
                made.name, made.aliases = f"{field.name}_new", [*made.aliases, field.name]
            fields.append(made)
        taken = {name for field in fields for name in (field.name, *field.aliases)}
        for name in ("p", "q", "r", "s"):
            if self.happens() and name not in taken:
                fields.append(self.added_field(name))
        if self.happens():
            self.choose.shuffle(fields)
        return fields

    def added_field(self, name):
        """A field that the writer lacks, with a default most of the time."""
        type = self.choose.choice([*self.maker.known, None])
        if type is None or self.choose.randrange(3):
            type = self.maker.type(3)
        set_heights(type)
        has_default = type.height < ENDLESS and self.choose.randrange(15)
        return Field(name, type, [Defaults(self.choose).of(type)] if has_default else None)


def evolved(choose, root, rate=0.3):
    """A reader's type for a writer's."""
    return Evolution(choose, root, rate).of(root)


class Speller:
    """Makes the JSON tree of types."""

    def __init__(self, choose):
        self.choose, self.defined = choose, set()

    def tree(self, type, space=""):
        """The tree of a type that stands in a namespace."""
        if type.kind in PLAIN:
            return type.kind if self.choose.randrange(10) else {"type": type.kind}
        if type.kind == "array":
            return {"type": "array", "items": self.tree(type.of, space)}
        if type.kind == "map":
            return {"type": "map", "values": self.tree(type.of, space)}
        if type.kind == "union":
            return [self.tree(branch, space) for branch in type.branches]
        if id(type) in self.defined:
            return type.name if type.space == space and self.choose.randrange(2) else type.fullname()
        return self.definition(type, space)

    def definition(self, type, space):
        """The tree that defines a type."""
        self.defined.add(id(type))
        tree = {"type": type.kind}
        if type.space == space and self.choose.randrange(2):
            tree["name"] = type.name
        elif type.space and self.choose.randrange(2):
            tree["name"] = type.fullname()
        else:
            tree["name"], tree["namespace"] = type.name, type.space
        if type.aliases:
            tree["aliases"] = type.aliases
        if type.kind == "fixed":
            tree["size"] = type.size
        elif type.kind == "enum":
            tree["symbols"] = type.symbols
            if type.symbol is not None:
                tree["default"] = type.symbol
        else:
            tree["fields"] = [self.field(field, type.space) for field in type.fields]
        if self.choose.randrange(12) == 0:
            tree["doc"] = "what it is"
        return self.in_any_order(tree)

    def field(self, field, space):
        """The tree of a field."""
        tree = {"name": field.name, "type": self.tree(field.type, space)}
        if field.default is not None:
            tree["default"] = field.default[0]
        if field.aliases:
            tree["aliases"] = field.aliases
        if self.choose.randrange(12) == 0:
            tree["order"] = "ascending"
        return self.in_any_order(tree)

    def in_any_order(self, tree):
        """The same tree, its members now and then in another order."""
        if self.choose.randrange(5):
            return tree
        members = list(tree.items())
        self.choose.shuffle(members)
        return dict(members)


def spelled(choose, root):
    """The JSON tree of a type."""
    return Speller(choose).tree(root)
