"""Lists of moves: a program is walked through at random, and what it shows becomes a trace. Then a line, a label, or a text is changed.

What `verify` and `explain` have to say follows from the model of the language in tools/moves.py, which is no part of gos.
"""

import re
import sys
from pathlib import Path

import builds
import changes
from case import BUILD, lines

sys.path.append(str(Path(__file__).resolve().parent.parent / 'tools'))

import moves  # noqa: E402  (it stands in the folder of tools)
import terms  # noqa: E402

# So many lines are looked for at most: where it takes more, a program may go round for ever.
MOST_LINES = 3_000
BIND = re.compile(rb'^bind (\w+) (\w+) (\w+)$', re.M)


def program_of(made):
    """The program of a build's case."""
    instances = [line.split() for line in made.files[BUILD].decode().split('\n') if line.startswith('inst ')]
    modules = {name: terms.read(source, made.files[source]) for _, name, source, _ in instances}
    return moves.program_of('main', modules, [tuple(it.decode() for it in found) for found in BIND.findall(made.files[BUILD])])


def is_right(program):
    """Whether a build is one that a circuit may have, and so can be walked through: a port is no function and no pair."""
    return all(kind[0] in terms.EVENTS for kind in (program.type, *program.ports.values()))


def places(program, stand, path=()):
    """All lines that can be made at a running term, but for answers of the root; labels with a value or the bits of one."""
    waiting = [(stand.term, ())]
    while waiting:
        term, path = waiting.pop()
        if moves.computed(term, stand.store):
            yield moves.Line('s', path), None
        if found := moves.shown(term, program):
            yield moves.Line('l', path), found
        waiting += [(term.parts[at], (*path, at)) for at in moves.REACHED.get(term.form, ())]
        if term.form in moves.ACCESSES and moves.is_index(term, (0, 1)):
            waiting.append((term.parts[0].parts[1], (*path, 0, 1)))
        head, at = (term.parts[0], (*path, 0)) if term.form in moves.ACCESSES else (term, path)
        while head.form in moves.HEADS:
            if moves.unfolded(head):
                yield moves.Line('u', at), None
            head, at = head.parts[0], (*at, 0)


def walked(choose, program, most):
    """The lines of a walk, and its labels."""
    stand, walk, labels = moves.Stand(), [], []
    for _ in range(most):
        ways = list(places(program, stand)) if stand.term else []
        value = moves.answer_of(stand.term) if stand.term else 0
        if value is not None:
            ways.append((moves.Line('r'), (program.root, int(stand.term is not None), None, (value, 0))))
        if not ways:
            break
        line, found = choose.choice(ways)
        if found:
            name, event, _, (value, width) = found
            labels.append((name, event, choose.randrange(2 ** width) if value is None else value))
        walk.append(line)
        stand, _ = moves.made(program, labels, stand, line)
        if stand.term and stand.term.size > 5_000:
            break
    while walk and walk[-1].word == 'u':
        walk.pop()
    return walk, labels


def trace_of(choose, program, labels):
    """The text of a trace with these labels."""
    cycle, said = 0, []
    for name, event, value in labels:
        cycle += choose.choice((0, 0, 1, 1, 7))
        kind = program.type if name == program.root else program.ports[name]
        has_value = kind[0] != 'com' and (event == 1 or event == 2)
        said.append(f'{cycle} {name}.{terms.EVENTS[kind[0]][event]}' + (f' {value}' if has_value else ''))
    return lines(*said, f'cycles {cycle + choose.choice((1, 1, 50))}')


def wanted_of(program, labels, walk):
    """The end of the line that `verify` has to print."""
    stand = moves.Stand()
    for number, line in enumerate(walk):
        try:
            stand, _ = moves.made(program, labels, stand, line)
        except moves.CantBeMade:
            return f'M2 line {number}'
    if walk and walk[-1].word == 'u':
        return f'M2 line {len(walk) - 1}'
    return f'M3 labels {stand.used}' if stand.used < len(labels) else f'ok lines {len(walk)} labels {len(labels)}'


def found_of(program, labels):
    """The line that `explain` has to print, as a pattern; or nothing where it takes too long to know."""
    found, used = moves.explained(program, labels, MOST_LINES)
    if used == len(labels):
        return rf'ok lines [0-9]+ labels {used}\n'
    return rf'out\.trc: M5 label {used}\n' if len(found) < MOST_LINES else ''


def changed(choose, program, labels, walk):
    """Labels and lines, in one of which something is changed."""
    labels, walk = list(labels), list(walk)
    how, at = choose.randrange(6), choose.randrange(max(1, len(walk)))
    if how == 0 and labels:
        del labels[choose.randrange(len(labels))]
    elif how == 1 and labels:
        labels.insert(choose.randrange(len(labels) + 1), choose.choice(labels))
    elif how == 2:
        del walk[at:at + choose.choice((1, 1, 9_999))]
    elif how == 3 and walk:
        walk.insert(at, choose.choice(walk))
    elif how == 4 and walk:
        path = walk[at].path
        path = choose.choice((path[:-1], (*path, choose.randrange(3)), (*path[:-1], choose.randrange(3))))
        walk[at] = moves.Line(choose.choice('usl'), path)
    elif walk:
        walk[at] = moves.Line(choose.choice('uslr'), choose.choice(walk).path)
        walk[at].path = () if walk[at].word == 'r' else walk[at].path
    return labels, walk


def case(choose):
    """A case of `verify` or `explain`. What is printed for one whose texts weren't changed is known."""
    made = builds.project(choose).build()
    program = program_of(made)
    made.words = [b'verify', BUILD.encode(), b'm.txt']
    walk, labels = walked(choose, program, choose.choice((3, 20, 60, 200))) if is_right(program) else ([], [])
    if choose.randrange(2):
        labels, walk = changed(choose, program, labels, walk)
    made.files['out.trc'] = trace_of(choose, program, labels)
    made.files['m.txt'] = moves.text_of(walk).encode()
    if choose.randrange(3) == 0:
        name = choose.choice(('m.txt', 'out.trc', 'm.txt', BUILD))
        made.files[name] = changes.changed(choose, made.files[name])
    elif is_right(program):
        said = wanted_of(program, labels, walk)
        made.wanted = re.escape((said if said.startswith('ok') else f'm.txt: {said}') + '\n')
    if is_right(program) and choose.randrange(3) == 0 and (said := found_of(program, labels)):
        made.words[0], made.wanted = b'explain', said if made.wanted else ''
        if choose.randrange(20) == 0:
            made.words[2], made.wanted = choose.choice((b'out.trc', b'in.pls', b'main.gos', BUILD.encode(), b'none/m.txt')), ''
    return made
