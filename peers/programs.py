"""Random programs of the language, typed by its rules: each name is free in at most one part of a `||` or an application."""

COMMANDS = ["c0", "c1", "c2"]
# Numbers have one bit, or as many as a program's wide ones.
NUMBERS = {"e0": True, "e1": True, "t0": False, "t1": False}
VARIABLES = {"v0": True, "v1": False}
WIDE = [4, 4, 4, 31, 32, 33, 63, 64]


class Maker:
    """Makes terms whose free names are among those given; `local` has the variables of blocks around, with widths."""

    def __init__(self, rng):
        self.rng = rng
        self.wide = rng.choice(WIDE)
        self.bound = 0

    def fresh(self):
        self.bound += 1
        return f"x{self.bound}"

    def parted(self, names):
        """The names, dealt out to two parts."""
        left = {name: ty for name, ty in names.items() if self.rng.random() < 0.5}
        return left, {name: ty for name, ty in names.items() if name not in left}

    def of_type(self, names, ty):
        return [name for name, its in names.items() if its == ty]

    def command(self, names, depth):
        known = self.of_type(names, "com")
        if depth == 0 or self.rng.random() < 0.1:
            return self.rng.choice(known) if known else "skip"
        forms = [self.sequence, self.sequence, self.parallel, self.choice, self.loop, self.assignment, self.block, self.applied, self.projected, self.table]
        return self.rng.choice(forms)(names, depth - 1)

    def sequence(self, names, depth):
        return f"({self.command(names, depth)} ; {self.command(names, depth)})"

    def parallel(self, names, depth):
        left, right = self.parted(names)
        return f"({self.command(left, depth)} || {self.command(right, depth)})"

    def choice(self, names, depth):
        return f"(if {self.number(names, depth, 1)} then {self.command(names, depth)} else {self.command(names, depth)})"

    def loop(self, names, depth):
        return f"(while {self.number(names, depth, 1)} do {self.command(names, depth)})"

    def assignment(self, names, depth):
        known = [(name, ty[1]) for name, ty in names.items() if ty[0] == "var"]
        known += [(self.place(names, name, depth), ty[2]) for name, ty in names.items() if ty[0] == "array"]
        if not known:
            return self.command(names, depth)
        name, width = self.rng.choice(known)
        return f"({name} := {self.number(names, depth, width)})"

    def table(self, names, depth):
        """A block with an array of 2, 4 or 8 numbers."""
        name, index, width = self.fresh(), self.rng.choice([1, 2, 3]), self.rng.choice([1, self.wide])
        return f"(new {name}[{2 ** index}] : {width} in {self.command({**names, name: ('array', index, width)}, depth)})"

    def place(self, names, name, depth):
        """A number of an array, whose index is any that doesn't use the array itself."""
        others = {other: ty for other, ty in names.items() if other != name}
        return f"({name} {self.number(others, depth - 1, names[name][1])})"

    def block(self, names, depth):
        name, width = self.fresh(), self.rng.choice([1, self.wide])
        return f"(new {name} : {width} in {self.command({**names, name: ('var', width)}, depth)})"

    def applied(self, names, depth):
        name, (left, right) = self.fresh(), self.parted(names)
        if self.rng.random() < 0.5:
            return f"((fun {name} : com . {self.command({**left, name: 'com'}, depth)}) {self.command(right, depth)})"
        body = self.command({**left, name: ("exp", self.wide)}, depth)
        return f"((fun {name} : exp {self.wide} . {body}) {self.number(right, depth, self.wide)})"

    def projected(self, names, depth):
        return f"({self.rng.choice(['fst', 'snd'])} ({self.command(names, depth)}, {self.command(names, depth)}))"

    def number(self, names, depth, width):
        known = self.of_type(names, ("exp", width))
        known += [f"!{name}" for name in self.of_type(names, ("var", width))]
        known += [f"!{self.place(names, name, depth)}" for name, ty in names.items() if ty[0] == "array" and ty[2] == width]
        if depth <= 0 or self.rng.random() < 0.2:
            return self.rng.choice(known) if known else f"{self.rng.randrange(2 ** width)}:{width}"
        if width == 1 and self.rng.random() < 0.6:
            sign = self.rng.choice(["=", "<"])
            return f"({self.number(names, depth - 1, self.wide)} {sign} {self.number(names, depth - 1, self.wide)})"
        if self.rng.random() < 0.2:
            return f"(not {self.number(names, depth - 1, width)})"
        if self.rng.random() < 0.2:
            return f"({self.command(names, depth - 1)} ; {self.number(names, depth - 1, width)})"
        sign = self.rng.choice(["+", "-", "&", "|", "^"])
        return f"({self.number(names, depth - 1, width)} {sign} {self.number(names, depth - 1, width)})"


def random_build(rng, folder):
    """Writes a program with a library, a build file, and a pulse file that begins the run."""
    maker = Maker(rng)
    imports = {name: "com" for name in COMMANDS}
    imports |= {name: ("exp", maker.wide if is_wide else 1) for name, is_wide in NUMBERS.items()}
    imports |= {name: ("var", maker.wide if is_wide else 1) for name, is_wide in VARIABLES.items()}
    lines = [f"import {name} : {ty if ty == 'com' else ' '.join(map(str, ty))}" for name, ty in imports.items()]
    left, right = maker.parted(imports)
    body = f"(f {maker.command(right, 2)} ; {maker.command(left, 4)})"
    (folder / "main.gos").write_text("\n".join(["import f : com -> com", *lines, f"export {body} : com", ""]))
    (folder / "lib.gos").write_text(f"export fun a : com . {maker.command({'a': 'com'}, 3)} : com -> com\n")
    (folder / "b.txt").write_text(
        "gosbuild 1\ninst main main.gos main.obj\ninst lib lib.gos lib.obj\nbind main f lib\nroot main\n"
        "net out.net\nverilog out.v\npulses in.pls\ntrace out.trc\n"
    )
    (folder / "in.pls").write_text("cycles 600\nnext 0 main.run\n")
