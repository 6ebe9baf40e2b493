"""Objects: plans of random parts that are joined at random where they fit; and texts that are changed or extreme.

A handshake is its side, `A` where it asks and `S` where it serves, and the bits of its request and of its answer.
"""

import builds
import changes
from case import BUILD, command, lines

WIDTHS = (1, 1, 8, 8, 32, 64)
RUN = (0, 0)


def read(width):
    """The bits of an expression's handshake, and of a variable's read."""
    return 0, width


def written(width):
    return width, 0


def handshakes(kind):
    """The handshakes of a type, as the bits of each and whether who holds the type serves it."""
    word, *rest = kind
    if word == 'com':
        return [('S', RUN)]
    if word == 'exp':
        return [('S', read(rest[0]))]
    if word == 'var':
        return [('S', read(rest[0])), ('S', written(rest[0]))]
    first = handshakes(rest[0])
    if word == 'fun':
        first = [('A' if side == 'S' else 'S', bits) for side, bits in first]
    return first + handshakes(rest[1])


def turned(given):
    return [('A' if side == 'S' else 'S', bits) for side, bits in given]


def type_words(kind):
    """A type in prefix order."""
    return ' '.join(type_words(it) if isinstance(it, tuple) else str(it) for it in kind)


def part(choose, w, v):
    """A part: its line and its handshakes."""
    exp, kind = read(w), choose.choice((('com',), ('exp', w), ('var', w), ('fun', ('com',), ('exp', w)), ('pair', ('com',), ('var', v))))
    source = handshakes(kind)
    test, body = ('A', read(1)), ('A', RUN)
    i = choose.randrange(1, 5)
    return choose.choice([
        ('skip', [('S', RUN)]), (f'lit {w} {choose.randrange(2 ** w)}', [('S', exp)]),
        ('seq', [body, body, ('S', RUN)]), (f'seqexp {w}', [body, ('A', exp), ('S', exp)]),
        ('par', [body, body, ('S', RUN)]), ('if', [test, body, body, ('S', RUN)]),
        (f'ifexp {w}', [test, ('A', exp), ('A', exp), ('S', exp)]), ('while', [test, body, ('S', RUN)]),
        (f'{choose.choice(("add", "sub", "and", "or", "xor"))} {w}', [('A', exp), ('A', exp), ('S', exp)]),
        (f'{choose.choice(("eq", "less"))} {w}', [('A', exp), ('A', exp), ('S', read(1))]),
        (f'not {w}', [('A', exp), ('S', exp)]), (f'assign {w}', [('A', exp), ('A', written(w)), ('S', RUN)]),
        (f'deref {w}', [('A', exp), ('S', exp)]),
        (f'local {w} com', [body, ('S', exp), ('S', written(w)), ('S', RUN)]),
        (f'local {w} exp {v}', [('A', read(v)), ('S', exp), ('S', written(w)), ('S', read(v))]),
        (f'array {w} {2 ** i} com', [body, ('A', read(i)), ('S', exp), ('S', written(w)), ('S', RUN)]),
        (f'array {w} {2 ** i} exp {v}', [('A', read(v)), ('A', read(i)), ('S', exp), ('S', written(w)), ('S', read(v))]),
        (f'share {type_words(kind)}', turned(source) + source + source),
    ])


def joined(choose, ends):
    """Joints between ends that fit: the one that asks, the one that serves. Some ends stay open."""
    free = {}
    for end, side, bits in ends:
        free.setdefault((side, bits), []).append(end)
    joints = []
    for (side, bits), asking in free.items():
        serving = free.get(('S', bits), [])
        if side == 'A':
            choose.shuffle(asking)
            choose.shuffle(serving)
            joints += [f'{a} {b}' for a, b in zip(asking, serving) if choose.randrange(10)]
    choose.shuffle(joints)
    return joints


def plan(choose, many, result, imports, weight=None):
    """The text of a plan of so many parts."""
    parts = [part(choose, choose.choice(WIDTHS), choose.choice(WIDTHS)) for _ in range(many)]
    ends = [(f'p{n}.{j}', *shake) for n, (_, shakes) in enumerate(parts) for j, shake in enumerate(shakes)]
    ends += [(f'r.{j}', *shake) for j, shake in enumerate(turned(handshakes(result)))]
    ends += [(f'i{n}.{j}', *shake) for n, (_, kind) in enumerate(imports) for j, shake in enumerate(handshakes(kind))]
    joints = joined(choose, ends)
    return lines(
        'gosobj 2', f'weight {weight or choose.randrange(1, 500)}', f'imports {len(imports)}',
        *[f'import {name} {type_words(kind)}' for name, kind in imports], f'result {type_words(result)}', f'parts {many}',
        *[line for line, _ in parts], f'joints {len(joints)}', *joints, 'end')


def extreme(choose):
    """A plan of very many parts or of very large ones, or a type that is as deep as can be."""
    many = choose.choice((63, 64, 65, 1_000))
    kinds = choose.choice((['skip'], ['share ' + 'fun com ' * (many % 70) + 'com'], ['share ' + 'pair com ' * 63 + 'com'], ['seq', 'not 64']))
    parts = kinds * (many // len(kinds))
    kind = choose.choice(('com', 'fun com ' * many + 'com', 'pair com ' * many + 'com', 'fun ' * many + 'com ' * (many + 1)))
    return lines('gosobj 2', 'weight 8192', 'imports 0', f'result {kind.strip()}', f'parts {len(parts)}', *parts, 'joints 0', 'end')


def any_plan(choose, result, prefix=''):
    """A plan of this result, and its imports by name and type."""
    kinds = (('com',), ('exp', choose.choice(WIDTHS)), ('var', choose.choice(WIDTHS)), ('fun', ('com',), ('com',)))
    imports = [(f'{prefix}c{n}', choose.choice(kinds[:3] if choose.randrange(6) else kinds)) for n in range(choose.choice((0, 1, 2, 6)))]
    return plan(choose, choose.choice((0, 1, 2, 5, 12, 40)), result, imports), imports


def linked(choose):
    """The files of a link of an object, and of some that serve its imports."""
    result = choose.choice((('com',), ('exp', choose.choice(WIDTHS)))) if choose.randrange(15) else ('fun', ('com',), ('com',))
    text, imports = any_plan(choose, result)
    files, instances, binds = {'main.obj': text}, [('main', 'main.gos', 'main.obj')], []
    for number, (name, kind) in enumerate(imports):
        if len(kind) == 3 or choose.randrange(3) == 0:
            files[f'g{number}.obj'], _ = any_plan(choose, kind if choose.randrange(30) else ('com',), f'g{number}_')
            instances.append((f'g{number}', 'main.gos', f'g{number}.obj'))
            binds.append(('main', name, f'g{number}'))
    return {BUILD: builds.build_file(instances, binds), **files}


def case(choose):
    """A case of `link` of one object or some, of which one may be changed, or the build file."""
    if choose.randrange(25) == 0:
        files = {BUILD: builds.build_file([('main', 'main.gos', 'main.obj')], []), 'main.obj': extreme(choose)}
    else:
        files = linked(choose)
    name = choose.choice([name for name in files if name != BUILD])
    if choose.randrange(5) == 0:
        files[BUILD] = choose.choice((changes.changed, builds.binds_changed))(choose, files[BUILD])
    else:
        files[name] = changes.often_changed(choose, files[name], 0.6)
    return command(f'link {BUILD}', files)
