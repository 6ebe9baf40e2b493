"""Words that may be no command, and `demo`."""

from case import Case, lines

WORDS = ['check', 'compile', 'link', 'sim', 'build', 'demo', 'main.gos', 'b.txt', 'none', '', '--help', '-', '.', 'a b', 'x' * 255,
         'x' * 256, 'x' * 5_000, '0', '1', '01', '12', '13', '+1', '99999999999999999999', 'ü', 'a*', 'main.gos ', 'd/e', 'CHECK', 'tidy']
NO_TEXT = [b'\xff', b'main\xc3.gos', b'\xed\xa0\x80']


def case(choose):
    if choose.randrange(20) == 0:
        return Case([b'demo', str(choose.randrange(1, 13)).encode()], {})
    words = [choose.choice(WORDS).encode() for _ in range(choose.choice((0, 1, 1, 2, 2, 3, 4, 6)))]
    if choose.randrange(10) == 0:
        words.append(choose.choice(NO_TEXT))
    return Case(words, {'main.gos': b'export skip : com', 'b.txt': lines('gosbuild 1')})
