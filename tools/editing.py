"""What an editor asks of a text besides faults: names that could stand at a place, the names of a text, and other names for them."""
import re
from pathlib import Path

import grammar
import hints
import scopes

# Numbers of the Language Server Protocol for sorts of names, in a list of what could stand at a place, and in one of a text's names.
FUNCTION, VARIABLE, MODULE, WORD = 3, 6, 9, 14
SYMBOL_MODULE, SYMBOL_FUNCTION, SYMBOL_VARIABLE, SYMBOL_OBJECT = 2, 12, 13, 19


class NoName(Exception):
    """Why a name can't be had."""


# What could stand at a place.


def completions(document, at, module):
    """What could stand at a byte of a document, as items; `module` finds the document of a source that a build file names."""
    found = in_build(document, at, module) if document.is_build else in_source(document, at) if document.is_source else ()
    return [{"label": label, "kind": kind, **({"detail": detail} if detail else {})} for label, kind, detail in found]


def in_source(document, at):
    word = re.search(rb"[A-Za-z0-9_]*$", document.data[:at])
    if b"#" in document.data[document.data.rfind(b"\n", 0, at) + 1:at]:
        return
    place = scopes.place_of(document.data, word.start())
    for name, binder in place.names.items() if "name" in place.kinds else ():
        yield name, FUNCTION if "->" in binder.type else VARIABLE, binder.type
    yield from ((it, WORD, "") for it in grammar.WORDS if it in place.kinds)


def in_build(document, at, module):
    first = document.data.rfind(b"\n", 0, at) + 1
    words = document.data[first:at].decode(errors="replace").split(" ")
    line, number = [it for it in words[:-1] if it], len([it for it in words[:-1] if it])
    if not number:
        before = [it[0].text for it in document.statements if it[0].start < first]
        yield from ((it, WORD, hints.STATEMENTS[it]) for it in hints.MAY_FOLLOW.get(before[-1] if before else "", ()))
    elif (line[0], number) in (("bind", 1), ("bind", 3), ("root", 1)):
        yield from ((name, MODULE, source) for name, source in document.instances.items())
    elif (line[0], number) == ("bind", 2) and line[1] in document.instances:
        found = module(document, document.instances[line[1]])
        yield from ((name, VARIABLE, it.type) for name, it in (found.module.imports if found else {}).items())


# The names of a text.


def symbols(document):
    """The names that a document binds, in their order."""
    if document.is_build:
        found = [(line[1], SYMBOL_OBJECT, line[2].text, (line[0], line[-1])) for line in document.statements if line[0].text == "inst" and len(line) == 4]
    elif document.is_source:
        found = [(it.name, SYMBOL_FUNCTION if "->" in it.type else SYMBOL_VARIABLE, it.type, (it.name, it.name)) for it in binders(document)]
        export = document.module.export
        found += [(export, SYMBOL_MODULE, document.module.type, (export, document.module.tokens[-1]))] if export else []
    else:
        found = []
    for name, kind, detail, (first, last) in found:
        whole = document.range(first.start, last.stop)
        yield {"name": name.text, "kind": kind, "detail": detail, "range": whole, "selectionRange": document.range(name.start, name.stop)}


def binders(document):
    return [it for start, it in sorted(document.module.bound.items()) if it.name.start == start]


# Another name.


def places_of_name(document, at, others):
    """The name at a byte, and where it stands: documents, each with words or tokens of it. Of an import, lines of build files have it too."""
    if document.is_build:
        return in_lines(document, at)
    token = document.module.name_at(at) if document.is_source else None
    binder = document.module.bound.get(token.start) if token else None
    if not binder:
        raise NoName("no name that a source binds stands here")
    own = [it for it in document.module.tokens if it.kind == "name" and document.module.bound.get(it.start) is binder]
    found = [(document, own)]
    for build in others if binder.word == "import" else ():
        users = {name for name, source in build.instances.items() if Path(build.path.parent, source).resolve() == document.path.resolve()}
        lines = [it for it in build.statements if it[0].text == "bind" and len(it) == 4 and it[1].text in users and it[2].text == token.text]
        found += [(build, [line[2] for line in lines])] if lines else []
    return token, found


def in_lines(document, at):
    """The instance at a byte of a build file, and where its name stands."""
    roles = {"inst": (1,), "bind": (1, 3), "root": (1,)}
    words = [line[role] for line in document.statements for role in roles.get(line[0].text, ()) if role < len(line)]
    word = next((it for it in words if it.start <= at <= it.stop), None)
    if not word:
        raise NoName("no name of an instance stands here")
    return word, [(document, [it for it in words if it.text == word.text])]


def renamed(document, at, name, others):
    """The edits of each document, by its URI, with which the name at a byte becomes another one."""
    if not hints.NAME.fullmatch(name) or name in grammar.WORDS:
        raise NoName(f"`{name}` is no name" + ("; it is a word of the language" if name in grammar.WORDS else ""))
    word, places = places_of_name(document, at, others)
    if document.is_build and name != word.text and name in document.instances:
        raise NoName(f"there is an instance `{name}` already")
    if not document.is_build:
        look_at_bindings(document, places[0][1], name)
    return {it.uri: [{"range": it.range(one.start, one.stop), "newText": name} for one in words] for it, words in places}


def look_at_bindings(document, words, name):
    """Refuses a name by which something would be bound by another binder than before."""
    before, text, starts = document.module, document.data, {it.start for it in words}
    for it in sorted(words, key=lambda one: -one.start):
        text = text[:it.start] + name.encode() + text[it.stop:]
    after = scopes.module_of(text)
    numbers = [{it.start: number for number, it in enumerate(module.tokens)} for module in (before, after)]
    bound = [{numbers[at][start]: numbers[at][it.name.start] for start, it in module.bound.items()} for at, module in enumerate((before, after))]
    if bound[0] != bound[1] or len(after.imports) != len(before.imports) or not starts:
        raise NoName(f"`{name}` is bound here already, and would be taken for the other one")
