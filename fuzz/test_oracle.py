#!/usr/bin/env python3
"""Tests that what is looked at tells wrong runs from right ones, and that each case is made of its seed and its number alone.

    fuzz/test_oracle.py
"""

import random
import sys
import unittest

sys.dont_write_bytecode = True

import changes  # noqa: E402  (no module is kept compiled beside its text)
import forms  # noqa: E402
import netlists  # noqa: E402
import objects  # noqa: E402
import oracle  # noqa: E402
import sources  # noqa: E402
from case import command, lines  # noqa: E402

OBJECT = lines('gosobj 2', 'weight 5', 'imports 0', 'result com', 'parts 1', 'skip', 'joints 1', 'r.0 p0.0', 'end')
NET = lines('gosnet 1', 'cells 2', 'input 1', 'reg 1 0', 'ports 1', 'give main com 0 1', 'end')
TRACE = lines('0 main.run', '1 main.done', 'cycles 3')
COMPILED = command('compile a.gos a.obj', {'a.gos': b'export skip : com'})
SIMULATED = command('sim a.net in.pls out.trc', {'a.net': NET, 'in.pls': lines('cycles 3', 'next 0 main.run')})


def judged(case, status, line, full=(), **new):
    """What is wrong with a run that ends so and leaves these new files. In their names `_` stands for the dot."""
    files = {**case.files, **{name.replace('_', '.'): data for name, data in new.items()}}
    return oracle.judge(case.words, case.files, oracle.Run(status, line, files, 0, 0), [], full)


class Oracle(unittest.TestCase):
    """Of each sort of run a right one, and some that are wrong in one thing."""

    def is_wrong(self, case, status, line, wanted, **new):
        self.assertIn(wanted, judged(case, status, line, **new) or 'nothing')

    def test_right_runs(self):
        self.assertIsNone(judged(COMPILED, 0, 'ok weight 5\n', a_obj=OBJECT))
        self.assertIsNone(judged(COMPILED, 2, 'a.gos: S1 at 17\n'))
        self.assertIsNone(judged(COMPILED, 2, 'a.gos: C5 c at 7..8 and 9..10\n'))
        self.assertIsNone(judged(COMPILED, 5, ''))
        self.assertIsNone(judged(SIMULATED, 0, 'ok cycles 3 pulses 2 unused 0\n', out_trc=TRACE))
        self.assertIsNone(judged(SIMULATED, 2, 'a.net: K1 cycle 0 1\n'))
        self.assertIsNone(judged(command('check a b', {}), 1, forms.USAGE + '\n'))
        self.assertIsNone(judged(command('check a', {}), 3, ''))
        self.assertIsNone(judged(command('compile a.gos .', COMPILED.files), 3, ''))
        self.assertIsNone(judged(command('check a.gos', {}), 2, 'a.gos: L1 length 65537\n', full=['a.gos']))

    def test_ends(self):
        self.is_wrong(COMPILED, -11, '', 'signal 11')
        self.is_wrong(COMPILED, 70, '', 'status 70')
        self.is_wrong(COMPILED, 1, forms.USAGE + '\n', 'are a command')
        self.is_wrong(COMPILED, 3, '', 'can be read')
        self.is_wrong(COMPILED, 5, 'ok weight 5\n', 'a line is printed')
        self.is_wrong(command('check a b', {}), 0, 'ok weight 5\n', 'no command')

    def test_lines(self):
        for line in ('', 'a.gos: S1 at 17', 'a.gos: S1 at 017\n', 'a.gos: S1 at 17 \n', 'a.gos: S4 at 17\n', 'a.gos: C5 c at 7..8\n'):
            self.is_wrong(COMPILED, 2, line, 'the line has no form')
        self.is_wrong(COMPILED, 2, 'a.gos: N1 at 1\n', 'none of this command')
        self.is_wrong(COMPILED, 2, 'b.gos: S1 at 1\n', 'not there')
        self.is_wrong(COMPILED, 2, 'a.gos: S1 at 18\n', 'not in the file')
        self.is_wrong(COMPILED, 2, 'a.gos: C1 c at 8..8\n', 'not in the file')
        self.is_wrong(COMPILED, 0, 'ok weight 5', 'the line has no form', a_obj=OBJECT)

    def test_files(self):
        self.is_wrong(COMPILED, 0, 'ok weight 5\n', 'not written')
        self.is_wrong(COMPILED, 0, 'ok weight 6\n', 'another weight', a_obj=OBJECT)
        self.is_wrong(COMPILED, 0, 'ok weight 5\n', 'changed or new', a_obj=OBJECT, core=b'')
        self.is_wrong(COMPILED, 2, 'a.gos: S1 at 17\n', 'changed or new', a_obj=OBJECT)
        self.is_wrong(COMPILED, 2, 'a.gos: S1 at 17\n', 'changed or new', a_gos=b'')

    def test_traces(self):
        self.is_wrong(SIMULATED, 0, 'ok cycles 3 pulses 3 unused 0\n', 'other numbers', out_trc=TRACE)
        self.is_wrong(SIMULATED, 0, 'ok cycles 3 pulses 2 unused 0\n', 'fall', out_trc=lines('1 main.run', '0 main.done', 'cycles 3'))
        self.is_wrong(SIMULATED, 0, 'ok cycles 3 pulses 1 unused 0\n', 'pass', out_trc=lines('3 main.run', 'cycles 3'))
        self.is_wrong(SIMULATED, 0, 'ok cycles 3 pulses 1 unused 0\n', 'no form', out_trc=lines('main.run', 'cycles 3'))

    def test_cut(self):
        run = oracle.Run(2, 'a.net: N2 limit at 15\n', {}, 0, 0)
        self.assertEqual(oracle.cut_at_fault(run, {'a.net': NET})[1], 'a.net: N1 at 15\n')
        whole = oracle.Run(2, f'a.net: N1 at {len(NET)}\n', {}, 0, 0)
        self.assertIsNone(oracle.cut_at_fault(whole, {'a.net': NET + b'\n'}))


class Making(unittest.TestCase):
    """What the cases are made with."""

    def test_forms(self):
        counts = {letter: sum(name[0] == letter for name in forms.FAULTS) for letter in 'LSCOBNKP'}
        self.assertEqual(counts, {'L': 4, 'S': 3, 'C': 10, 'O': 3, 'B': 12, 'N': 2, 'K': 4, 'P': 5})

    def test_same_choices_make_the_same_case(self):
        for make in (sources.case, objects.case, netlists.case, netlists.case_of_pulses):
            self.assertEqual(make(random.Random('1 1')), make(random.Random('1 1')))

    def test_each_change_takes_each_text(self):
        for change in {*changes.CHANGES, changes.length}:
            for text in (b'', b'\n', b'a', b'1', OBJECT):
                for seed in range(20):
                    self.assertIsInstance(change(random.Random(seed), text), bytes)

    def test_no_word_leads_outwards(self):
        case = command('check /a', {'b.txt': b'net /a\ntrace ../b\nnet d/e\n'}).kept_inside()
        self.assertEqual((case.words[1], case.files['b.txt']), (b'_a', b'net _a\ntrace _/b\nnet d/e\n'))


if __name__ == '__main__':
    unittest.main()
