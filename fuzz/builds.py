"""Builds of several instances: sources that fit together, a build file, and pulses; and such in which one file is changed."""

import changes
import pulses
import sources
from case import BUILD, command, lines

# As long as the name of a file may be.
NAME_OF_255 = 'n' * 250 + '.file'


def build_file(instances, binds, root='main', files=('out.net', 'out.v', 'in.pls', 'out.trc')):
    """The text of a build file. An instance is its name, its source and its object."""
    return lines(
        'gosbuild 1', *['inst ' + ' '.join(it) for it in instances], *['bind ' + ' '.join(it) for it in binds], f'root {root}',
        *[f'{word} {name}' for word, name in zip(('net', 'verilog', 'pulses', 'trace'), files)])


class Project:
    """Instances that serve one another's imports, and the imports that nothing serves."""

    def __init__(self, choose, prefix=''):
        self.choose, self.prefix = choose, prefix
        self.files, self.instances, self.binds, self.open = {}, [], [], []

    def add(self, name, kind, size, depth):
        """Adds an instance of this type, and most often some for its imports."""
        source = f'{self.prefix}{name}.gos'
        prefix = f'{name}_' if self.choose.randrange(12) else self.choose.choice(('', 'main_'))
        self.files[source], imports = sources.module(self.choose, kind, size, prefix)
        self.instances.append((name, source, f'{self.prefix}{name}.obj'))
        for number, (wanted, its) in enumerate(imports):
            if depth and (len(its) == 3 or self.choose.randrange(2)):
                giver = f'{name}{number}'
                self.binds.append((name, wanted, giver))
                its = its if self.choose.randrange(40) else sources.any_type(self.choose)
                self.add(giver, its, max(1, size // 2), depth - 1)
            else:
                self.open.append((wanted, its))

    def build(self):
        """The case of its build."""
        choose = self.choose
        order = choose.sample(self.instances, len(self.instances))
        choose.shuffle(self.binds)
        events = pulses.events_of([('give', 'main', self.kind)] + [('take', *it) for it in self.open if len(it[1]) < 3])
        self.files['in.pls'] = pulses.text(choose, events, choose.choice((3, 100, 100, 2_000)))
        files = ['out.net', 'out.v', 'in.pls', 'out.trc']
        if choose.randrange(40) == 0:
            files[choose.choice((0, 1, 3))] = NAME_OF_255
        self.files[BUILD] = build_file(order, self.binds, 'main', files)
        return command(f'{choose.choice(["build"] * 15 + ["link"])} {BUILD}', self.files)


def project(choose):
    made = Project(choose, 'd/' if choose.randrange(30) == 0 else '')
    made.kind = choose.choice((sources.COM, ('exp', choose.choice(sources.WIDTHS))))
    made.add('main', made.kind, choose.choice((2, 4, 8, 16, 30)), choose.choice((0, 1, 2)))
    return made


def many(choose):
    """A build of many instances of one source, in a chain."""
    count = choose.choice((10, 100, 300))
    names = [f'm{n}' for n in range(count)]
    binds = [(user, 'n', giver) for user, giver in zip(names, names[1:])]
    if choose.randrange(3) == 0:
        binds.append((names[-1], 'n', choose.choice(names)))
    text = build_file([(name, 's.gos', f'{name}.o') for name in names], binds, 'm0')
    source = b'import n : com export n' + b' ; skip' * choose.choice((0, 0, 10, 30)) + b' : com'
    return command(f'build {BUILD}', {BUILD: text, 's.gos': source, 'in.pls': lines('cycles 9')})


def binds_changed(choose, text):
    """A build file in which a word of a `bind` line becomes another, or a `bind` line goes or comes behind another."""
    said = text.splitlines(keepends=True)
    places = [n for n, line in enumerate(said) if line.startswith(b'bind ')]
    if not places:
        return text
    at, other = choose.choice(places), choose.choice(places)
    one, two = said[at].split(), said[other].split()
    how = choose.randrange(5)
    if how == 0:
        del said[at]
    elif how == 1:
        said.insert(other, said[at])
    else:
        one[how - 1] = choose.choice((two[how - 1], two[1], two[3], b'main'))
        said[at] = b' '.join(one) + b'\n'
    return b''.join(said)


def broken(choose, made):
    """A case in which a file isn't there, is a folder, or lies on a device that is full."""
    names = [*made.files, 'out.net', 'out.v', 'out.trc', *(name for name in ('main.obj', 'd') if choose.randrange(2))]
    name = choose.choice(names)
    made.files.pop(name, None)
    how = choose.randrange(3)
    if how == 0:
        made.folders.append(name)
    elif how == 1 and name.startswith(('out', 'main.obj')):
        made.full.append(name)
    return made


def case(choose):
    """A case of `build` or `link`, with a file that may be changed, not be there, or be there before."""
    if choose.randrange(120) == 0:
        return many(choose)
    made = project(choose).build()
    how = choose.randrange(10)
    if how < 4:
        change = choose.choice((changes.changed, binds_changed))
        made.files[BUILD] = change(choose, made.files[BUILD])
    elif how < 6:
        name = choose.choice(list(made.files))
        made.files[name] = changes.changed(choose, made.files[name])
    elif how == 6:
        made = broken(choose, made)
    elif how == 7:
        made.files[choose.choice(('out.net', 'out.v', 'out.trc', 'main.obj'))] = b'what was here before\n' * choose.choice((1, 9_000))
    return made
