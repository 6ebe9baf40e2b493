"""The lines that gos may print: those of faults are read from the table in docs/FORMATS.md, the others are its texts."""

import re
from pathlib import Path

FORMATS = Path(__file__).resolve().parent.parent / 'docs' / 'FORMATS.md'
N = r'(?:0|[1-9][0-9]*)'
NAME = r'[A-Za-z_][A-Za-z0-9_]{0,254}'
TYPE = r'(?:com|exp|var|[0-9]+|->|[ ()*])+'
# What the words of a form stand for. The others stand for themselves.
PARTS = {
    'LEN': N, 'AT': N, 'I': N, 'L': N, 'K': N, 'T': N, 'W': N, 'N': N, 'NET': N, 'NAME': NAME, 'SPAN': rf'{N}\.\.{N}', 'TYPE': TYPE,
    'WANT': rf'(?:any exp|any var|com or exp|{TYPE})', 'PORT.EVENT': rf'{NAME}\.[a-z]+', '..': rf'{N}(?: {N})*',
}
# The faults that a command may tell, by their letters.
LETTERS = {b'check': 'LSC', b'compile': 'LSC', b'link': 'OB', b'sim': 'NKP', b'build': 'LSCBP', b'demo': '', b'tidy': 'NK', b'gates': 'NKG',
           b'verify': 'LSCBM', b'explain': 'LSCBM'}
OK = {
    b'check': rf'ok weight {N}', b'compile': rf'ok weight {N}', b'link': rf'ok weight {N}', b'sim': rf'ok cycles {N} pulses {N} unused {N}',
    b'build': rf'ok weight {N} cycles {N} pulses {N} unused {N}', b'demo': rf'ok weight {N} cycles {N} pulses {N} unused {N}',
    b'tidy': rf'ok cells {N} to {N}', b'gates': rf'ok inputs {N} latches {N} outputs {N} ands {N}',
    b'verify': rf'ok lines {N} labels {N}', b'explain': rf'ok lines {N} labels {N}',
}


def faults():
    """The form of each fault's line, by its name."""
    rows = re.findall(r'^\| `([LSCOBNKPGM][0-9]+)(?: ([^`]*))?` \| `\w+::', FORMATS.read_text(), re.M)
    forms = {}
    for name, words in rows:
        words = words.replace('NET NET ..', '..').split()
        forms[name] = re.compile(' '.join([name, *(PARTS.get(word, re.escape(word)) for word in words)]))
    return forms


def usage():
    return ''.join(re.search(r'^    (usage: .*)\n    ( \| .*)$', FORMATS.read_text(), re.M).groups())


FAULTS, USAGE = faults(), usage()
