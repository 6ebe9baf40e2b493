"""Pulse files for given events."""

from case import lines

# The input events of a port of each side and type, and whether a value comes with them.
EVENTS = {
    ('give', 'com'): [('run', False)], ('give', 'exp'): [('ask', False)],
    ('take', 'com'): [('done', False)], ('take', 'exp'): [('ans', True)], ('take', 'var'): [('ans', True), ('done', False)],
}


def events_of(ports):
    """The input events of ports, each with the bits of its value, or none."""
    return [(f'{name}.{event}', kind[1] if has_value else None)
            for side, name, kind in ports for event, has_value in EVENTS[side, kind[0]]]


def entry(choose, events, cycles):
    """An entry at a cycle of the run, or the next one of the list."""
    event, bits = choose.choice(events)
    value = '' if bits is None else f' {choose.randrange(2 ** bits)}'
    if choose.randrange(6) == 0:
        return f'at {choose.randrange(cycles)} {event}{value}'
    return f'next {choose.choice((0, 0, 0, 1, 2, choose.randrange(cycles)))} {event}{value}'


def text(choose, events, most, entries=None):
    """The text of a right pulse file with about so many cycles at most."""
    cycles = choose.randrange(1, most + 1)
    many = choose.choice((0, 1, 2, 5, 20)) if entries is None else entries
    first = next((event for event, bits in events if bits is None), None)
    begun = [f'next 0 {first}'] if first else []
    return lines(f'cycles {cycles}', *begun, *[entry(choose, events, cycles) for _ in range(many)])
