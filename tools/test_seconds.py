#!/usr/bin/env python3
"""Tests of tools/seconds on an invented log, in the words that rt prints."""
import os
import subprocess
import sys
import tempfile
import time
import unittest

SECONDS = os.path.join(os.path.dirname(os.path.abspath(__file__)), 'seconds')

LOG = """crates/base/proofs/X.antt:1:2: note: large solution: rt: base proved
fn base::f: proved
logic=proved functions=119 sum=064d
rt: base proved
rt: base: trying its must-fail edits (2)
rt: two_words is kept: an earlier run on this machine proved the same files over the same libraries
rt: bad NOT PROVED
rt: above NOT PROVED: its library bad failed
rt: half: its tests are NOT PROVED
rt: half proved
rt: program: its tests are proved
rt: program proved
rt: broken proved
rt: must-fail base/one.edit: refused, as it must be: note: src/field.rt:12:5: it is not proved that what the function ensures holds
rt: must-fail base/two.edit: refused, as it must be (only by a limit of the prover, which gave no verdict): proofs/X.antt:1:2
rt: two_words: 2 of its 2 must-fail edits were tried by an earlier run on this machine, and nothing that they stand on has changed
rt: must-fail two_words/fine.edit: refused, as it must be
rt: must-fail two_words/other.edit: refused, as it must be: proofs/m/f/Answers.antt:3:1: error
rt: part: 1 of its 2 must-fail edits were tried by an earlier run on this machine, and nothing that they stand on has changed
rt: must-fail part/old.edit: refused, as it must be
rt: must-fail part/new.edit: refused, as it must be
rt: must-fail broken/kept.edit: NOT REFUSED: the crate is still proved with this edit
rt: must-fail program/wrong.edit: BAD EDIT: an 'old:' text is in src/main.rt 0 times, and not once
rt: program ran, and wrote what its file stdout has
rt: program ran (built by Rattle's own compiler), and wrote what its file stdout has
rt: broken: what the program wrote, out/stdout, is not what its file stdout has: they differ first at byte 1, line 1
rt: FAILED: bad above half broken/kept.edit broken (run)
"""

SEEN = """above\tproof\t1.0
base\tedit_seconds\t133.8
base\tproof\t136.4
broken\tproof\t3.2
half\tproof\t9.0
part\tedit_seconds\t7.0
program\tproof\t7.0
program\trun\t2.2
"""

TABLE = """crate\tproof\tedits\tedit_seconds\trun
above\tfailed\t-\t-\t-
bad\tfailed\t-\t-\t-
base\t136\t2\t134\t-
broken\t3\t1\tfailed\tfailed
half\tfailed\t-\t-\t-
part\t-\t2\t7\t-
program\t7\t1\tfailed\t2
two_words\tkept\t2\tkept\t-
total\t146\t8\t141\t2
clock\t200\t-\t-\t-
"""

# nine crates have edits; of two with as many seconds the first by name comes first
MANY = [('low', 1, 1), ('b', 1, 30), ('a', 1, 30), ('many', 3, 50), ('four', 1, 4), ('five', 1, 5), ('a_longer_name', 1, 200),
        ('six', 1, 6), ('seven', 1, 7)]
MANY_SEEN = ''.join(f'{crate}\tedit_seconds\t{seconds}\n' for crate, _, seconds in MANY)
MANY = ''.join(f'rt: must-fail {crate}/x{i}.edit: refused, as it must be: src/lib.rt:1:1\n' for crate, edits, _ in MANY for i in range(edits))

PRINTED = """must-fail edits          edits  seconds   each
a_longer_name                1      200  200.0
many                         3       50   16.7
a                            1       30   30.0
b                            1       30   30.0
seven                        1        7    7.0
six                          1        6    6.0
five                         1        5    5.0
four                         1        4    4.0
all 9 crates with edits     11      333   30.3
"""


class Seconds(unittest.TestCase):
    def setUp(self):
        self.room = tempfile.TemporaryDirectory()
        self.addCleanup(self.room.cleanup)

    def file(self, name, text):
        path = os.path.join(self.room.name, name)
        with open(path, 'w', encoding='utf-8') as out:
            out.write(text)
        return path

    def run_tool(self, *words):
        return subprocess.run([SECONDS, *words], capture_output=True, text=True)

    def written(self, log, *more):
        out = os.path.join(self.room.name, 'new', 'seconds.tsv')
        run = self.run_tool(self.file('log', log), *more, '--to', out)
        self.assertEqual((run.returncode, run.stderr), (0, ''))
        with open(out, encoding='utf-8') as file:
            return file.read()

    def test_table(self):
        self.assertEqual(self.written(LOG, '200', '--seen', self.file('seen', SEEN)), TABLE)

    def test_without_the_clock(self):
        self.assertEqual(self.written(LOG, '--seen', self.file('seen', SEEN)), TABLE.replace('clock\t200\t-\t-\t-\n', ''))

    def test_where_nothing_was_seen(self):
        lines = self.written(LOG).split('\n')
        self.assertEqual(lines[3:5], ['base\tdone\t2\tdone\t-', 'broken\tdone\t1\tfailed\tfailed'])
        self.assertEqual(lines[-2], 'total\t0\t8\t0\t0')

    def printed(self, log, seen, *more):
        run = self.run_tool(self.file('log', log), *more, '--seen', self.file('seen', seen), '--to', os.path.join(self.room.name, 'seconds.tsv'))
        self.assertEqual((run.returncode, run.stderr), (0, ''))
        return run.stdout

    def test_the_crates_whose_edits_cost_most(self):
        self.assertEqual(self.printed(MANY, MANY_SEEN), PRINTED)

    def test_a_crate_whose_edit_failed_has_no_seconds(self):
        self.assertEqual([line.split() for line in self.printed(LOG, SEEN).splitlines()[1:]],
                         [['base', '2', '134', '67.0'], ['part', '2', '7', '3.5'], ['all', '2', 'crates', 'with', 'edits', '4', '141', '35.2']])

    def test_the_clock_beside_the_budget(self):
        for clock, took, verdict in ((1500, '25:00', '0:00 left'), (1501, '25:01', '0:01 over it'),
                                     (2285, '38:05', '13:05 over it'), (59, '0:59', '24:01 left')):
            said = f'the run took {took} minutes by the clock; the budget is 25:00, {verdict}\n'
            self.assertEqual(self.printed(MANY, MANY_SEEN, str(clock)), PRINTED + said)
            self.assertEqual(self.printed('rt: base proved\n', '', str(clock)), said)

    def test_what_runs_is_seen(self):
        """A process as rt starts one, by its words and its folder: in the crate's, on a copy, and of another kind."""
        checker = os.path.join(self.room.name, 'rattle')
        os.symlink(os.path.realpath(sys.executable), checker)
        seen, wait = os.path.join(self.room.name, 'seen'), 'import time; time.sleep(9)'
        started = []
        for crate, folder in (('low', 'crates/low'), ('low', 'copy_1'), ('low', 'copy_2'), ('two_words', 'crates/two_words'), (None, 'other')):
            folder = os.path.join(self.room.name, folder)
            os.makedirs(folder)
            words = [checker, '-c', wait] + (['--crate-name', crate] if crate else [])
            started.append(subprocess.Popen(words, cwd=folder))
        started.append(subprocess.Popen([SECONDS, '--watch', str(os.getpid()), seen]))
        try:
            for _ in range(100):
                time.sleep(0.2)
                if os.path.exists(seen):
                    break
        finally:
            for one in started:
                one.kill()
                one.wait()
        with open(seen, encoding='utf-8') as file:
            found = {(crate, column): float(count) for crate, column, count in map(str.split, file)}
        self.assertEqual(set(found), {('low', 'proof'), ('low', 'edit_seconds'), ('two_words', 'proof')})
        self.assertAlmostEqual(found['low', 'edit_seconds'], 2 * found['low', 'proof'], delta=0.3)

    def test_side_by_side(self):
        old = self.file('old.tsv', 'crate\tproof\tedits\tedit_seconds\trun\na\t100\t2\t40\t-\ngone\t5\t-\t-\t1\ntotal\t105\t2\t40\t1\n')
        new = self.file('new.tsv', 'crate\tproof\tedits\tedit_seconds\trun\na\t125\t3\t30\t-\nnew\t0\t-\t-\t2\ntotal\t125\t3\t30\t2\nclock\t90\t-\t-\t-\n')
        run = self.run_tool('--compare', old, new)
        self.assertEqual(run.returncode, 0)
        self.assertEqual(run.stdout.split('\n')[2:], [
            '| `a` | 100 | 125 | 1.25 | 2 | 3 | 40 | 30 | 0.75 | - | - |',
            '| `gone` | 5 | - | - | - | - | - | - | - | 1 | - |',
            '| `new` | - | 0 | - | - | - | - | - | - | - | 2 |',
            '| total | 105 | 125 | 1.19 | 2 | 3 | 40 | 30 | 0.75 | 1 | 2 |',
            '| clock | - | 90 | - | - | - | - | - | - | - | - |', ''])

    def test_faults(self):
        log, table = self.file('log', LOG), self.file('t.tsv', TABLE)
        for words in ((), (log, 'x'), (log, '--seen', '/no/such'), (log, '--watch', '1', 'x'), ('--compare', table), ('--compare', log, table), (self.file('empty', ''),), ('/no/such',), (log, '--compare', table, table)):
            run = self.run_tool(*words)
            self.assertEqual((words, run.returncode), (words, 2))
            self.assertIn('seconds', run.stderr)


if __name__ == '__main__':
    unittest.main()
