"""Lists of modules, of which tools/gos-make writes build files (docs/MAKE.md): which module serves which import, and the instances
that come of it, one for each place in which an import is served.
"""
import re
from dataclasses import dataclass, field
from pathlib import Path

import builds
import scopes
import templates
from builds import Wrong

FILE = re.compile(r"[A-Za-z0-9_./-]{1,255}")
DEFAULTS = {"net": "out.net", "verilog": "out.v", "pulses": "in.pls", "trace": "out.trc"}
# The pulse file of a build without pulses, and its text.
NO_PULSES = ("none.pls", "cycles 1\n")
# The lines of a list: their first words, and what stands behind these.
FORMS = {
    "root": "NAME [from MODULE] [NAME=VALUE ..]", "serve": "IMPORT .. by MODULE [NAME=VALUE ..]", "build": "FILE",
    **dict.fromkeys(DEFAULTS, "FILE"), "pulses": "FILE, or none",
}
MOST_INSTANCES = 1000


@dataclass
class Line:
    """A line of a list that says which module there is: at what number, for which imports, the module, and the values of its names."""

    number: int
    names: list
    module: str
    values: dict = field(default_factory=dict)
    used: set = field(default_factory=set)


@dataclass
class Listed:
    """What a list says: the file's name, its root, its lines `serve` and the other files of the build."""

    file: str
    root: Line = None
    serves: list = field(default_factory=list)
    files: dict = field(default_factory=lambda: dict(DEFAULTS))
    has_pulses: bool = True

    def wrong(self, number, said):
        return Wrong(f"{self.file}:{number}: {said}")

    def line_for(self, user, name):
        """The line that serves an import of an instance, if there is one: that which names the instance, before all others."""
        for wanted in (f"{user}.{name}", name):
            for line in self.serves:
                if wanted in line.names:
                    line.used.add(wanted)
                    return line
        return None


@dataclass
class Source:
    """A module's text as it is found: a template, or a source of one's own, which is taken as it stands."""

    name: str
    file: str
    template: templates.Template
    is_own: bool


@dataclass
class Instance:
    """An instance: its module with its values, and whom it serves: an instance, by which import and which line."""

    name: str
    source: Source
    values: dict
    text: str
    user: object = None
    imported: str = ""
    line: Line = None

    def __post_init__(self):
        module = scopes.module_of(self.text.encode())
        self.imports, self.type = {name: it.type for name, it in module.imports.items()}, module.type

    @property
    def kind(self):
        """What tells its text from others."""
        return self.source.file, tuple(self.values.items())


def read(file):
    """The list in a file."""
    listed = Listed(file, files={**DEFAULTS, "build": re.sub(r"\.\w+$", "", file) + ".txt"})
    for number, text in enumerate(builds.read_text(file).split("\n"), 1):
        words = text.partition("#")[0].split()
        if words:
            take(listed, number, *words)
    if not listed.root:
        raise Wrong(f"{file}: no line says which the root is, as `root main` does")
    build = listed.files["build"]
    if build == file or not FILE.fullmatch(build):
        why = "would be written over this list" if build == file else f"would be called {build}, which gos can't read"
        raise Wrong(f"{file}: the build file {why}; a line `build FILE` gives it another name")
    return listed


def take(listed, number, first, *words):
    """Takes a line of a list."""
    form = f"the form of this line is `{first} {FORMS.get(first)}`"
    if first not in FORMS:
        raise listed.wrong(number, f"`{first}` begins no line; what does: {', '.join(FORMS)}{templates.near(first, FORMS)}")
    if first in listed.files:
        if len(words) != 1 or not FILE.fullmatch(words[0]):
            raise listed.wrong(number, f"{form}, and a file's name has letters, digits, _ . - and / alone")
        if first == "pulses":
            listed.has_pulses = words[0] != "none"
        listed.files[first] = words[0] if first != "pulses" or listed.has_pulses else NO_PULSES[0]
        return
    given = [it for it in words if "=" in it]
    plain = words[:len(words) - len(given)]
    if any("=" in it for it in plain):
        raise listed.wrong(number, f"values stand at the end: {form}")
    by = {"root": "from", "serve": "by"}[first]
    names, module = (plain[:-2], plain[-1]) if plain[-2:-1] == (by,) else (plain, "")
    line = Line(number, list(names), module)
    line.values = at_line(listed, line, lambda: values_of(given))
    if first == "root" and len(names) == 1 and not listed.root and templates.value_of(names[0]):
        line.module = module or names[0]
        listed.root = line
    elif first == "root":
        raise listed.wrong(number, "there is a root already" if listed.root else form)
    elif not names or not module or by in names:
        raise listed.wrong(number, form)
    else:
        for name in names:
            if any(name in it.names for it in listed.serves):
                raise listed.wrong(number, f"another line serves `{name}`")
        listed.serves.append(line)


def values_of(given):
    """The values that words such as `W=8` give."""
    values = {}
    for word in given:
        name, _, text = word.partition("=")
        value = templates.value_of(text)
        if value is None or not name:
            raise Wrong(f"`{word}` gives no value: a number or a name is one, as in `W=8`")
        values[name] = value
    return values


def source_of(module, ends=(".gos.in", ".gos")):
    """The source of a module that is called so: a file, or a name for which a template or a source is here or in lib. What may be here
    ends so."""
    name = re.sub(r"\.gos(\.in)?$", "", module.rsplit("/", 1)[-1])
    if "/" in module or name != module:
        places = [(Path(module), True)]
    else:
        places = [(Path(f"{module}{end}"), True) for end in ends]
        places += [(builds.TOP / "lib" / f"{module}{end}", False) for end in (".gos.in", ".gos")]
    made = ""
    for path, is_here in places:
        if not path.is_file():
            continue
        is_own = is_here and path.suffix != ".in"
        if is_own and templates.is_made(builds.read_text(path)):
            made = f"; {path} came of a template, which isn't here"
            continue
        shown = str(path) if is_here else path.name
        if is_own and not FILE.fullmatch(shown):
            raise Wrong(f"{shown} is no name of a file for gos: it has letters, digits, _ . - and / alone")
        # (a source of one's own may have braces in its comments)
        return Source(name, shown, templates.Template(shown, "") if is_own else templates.read(path, shown), is_own)
    library = {it.name.split(".")[0] for it in (builds.TOP / "lib").glob("*.gos*")}
    raise Wrong(f"there is no {' and no '.join(dict.fromkeys(str(path) if here else f'lib/{path.name}' for path, here in places))}"
                f"{made or templates.near(module, library)}")


def instance_of(name, line, wanted=None):
    """An instance of a line's module; where it serves an import, names of its template without a value get that of the wanted type."""
    source = source_of(line.module)
    if source.is_own:
        if line.values:
            raise Wrong(f"{source.file} is a source, and takes no values; a template, {source.file}.in, does")
        return Instance(name, source, {}, builds.read_text(source.file))
    found = templates.found_in(templates.tree_of(source.template.type_text()), wanted)
    values = source.template.values(line.values, found)
    return Instance(name, source, values, source.template.module(values))


def grown(listed):
    """All instances, the root first, each with whom it serves."""
    instances = [at_line(listed, listed.root, lambda: instance_of(listed.root.names[0], listed.root))]
    for user in instances:
        for name, type in user.imports.items():
            line = listed.line_for(user.name, name)
            if line:
                instances.append(serving(listed, line, user, name, type, {it.name for it in instances}))
                if len(instances) > MOST_INSTANCES:
                    raise listed.wrong(line.number, f"more than {MOST_INSTANCES} instances come of this list")
    for line in listed.serves:
        for name in line.names:
            if name not in line.used:
                imports = {it for user in instances for it in user.imports} | {f"{user.name}.{it}" for user in instances for it in user.imports}
                raise listed.wrong(line.number, f"no instance has an import `{name}`{templates.near(name, sorted(imports))}")
    check_open(listed, instances)
    return instances


def at_line(listed, line, made):
    """What is made for a line; a fault without a place gets that of the line."""
    try:
        return made()
    except Wrong as wrong:
        raise listed.wrong(line.number, wrong) from wrong


def serving(listed, line, user, name, type, taken):
    """The instance that serves an import of an instance."""
    wanted = templates.tree_of(type)
    called = name if name not in taken else f"{user.name}_{name}"
    while called in taken:
        called += "_"
    made = at_line(listed, line, lambda: instance_of(called, line, wanted))
    made.user, made.imported, made.line = user, name, line
    if wanted and templates.tree_of(made.type) != wanted:
        gives = f"gives {made.type}" if made.type else "gives no type: gos check says what is wrong with it"
        raise listed.wrong(line.number, f"`{name}` of {user.name} is of type {type}, and {described(made)} {gives}")
    above = user
    while above:
        if above.line is line and above.user.kind == user.kind:
            raise listed.wrong(line.number, f"`{name}` of {user.name} has no end: {user.source.name} serves itself, by way of {above.name}")
        above = above.user
    return made


def described(made):
    """A module and its values, in words."""
    values = ", ".join(f"{name} = {value}" for name, value in made.values.items())
    return made.source.file + (f" with {values}" if values else "")


def check_open(listed, instances):
    """Whether the imports that nothing serves can be ports of one circuit."""
    served = {(it.user.name, it.imported) for it in instances[1:]}
    ports = {instances[0].name: "the root"}
    for user in instances:
        for name, type in user.imports.items():
            if (user.name, name) in served:
                continue
            if not re.fullmatch(r"com|(exp|var) \d+", type):
                raise Wrong(f"{listed.file}: nothing serves `{name}` of {user.name}, and no port can be of type {type}; "
                            f"`serve {name} by MODULE` says what does")
            if name in ports:
                raise Wrong(f"{listed.file}: {ports[name]} and {user.name} would both have a port `{name}`, and a circuit has one of a name; "
                            f"serve one of them, as by `serve {user.name}.{name} by MODULE`")
            ports[name] = user.name


def files_of(instances):
    """The file of each sort of instances, by what tells it from others: that of the module's name, with its values where there are more."""
    kinds = {}
    for it in instances:
        kinds.setdefault(it.source.name, {}).setdefault(it.kind, it)
    files = {}
    for name, found in kinds.items():
        for kind, it in found.items():
            values = "".join(f"_{key}{value}" for key, value in it.values.items()) if len(found) > 1 else ""
            files[kind] = it.source.file if it.source.is_own else f"{name}{values}.gos"
    if len(set(files.values())) < len(files):
        twice = next(file for file in files.values() if list(files.values()).count(file) > 1)
        raise Wrong(f"two modules of this list would be written to {twice}; give one another name")
    return files


def build_text(listed, instances, files):
    """The build file of these instances."""
    return "\n".join([
        "gosbuild 1",
        *(f"inst {it.name} {files[it.kind]} {it.name}.obj" for it in instances),
        *(f"bind {it.user.name} {it.imported} {it.name}" for it in instances[1:]),
        f"root {instances[0].name}",
        *(f"{word} {listed.files[word]}" for word in DEFAULTS),
        "",
    ])
