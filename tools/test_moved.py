#!/usr/bin/env python3
"""Tests of tools/moved: on small trees made for it, and on this repository's own history where the checkout has it."""
import collections
import importlib.machinery
import importlib.util
import os
import re
import subprocess
import sys
import tempfile
import unittest

sys.dont_write_bytecode = True
TOOLS = os.path.dirname(os.path.abspath(__file__))
ROOT = os.path.dirname(TOOLS)
loader = importlib.machinery.SourceFileLoader('moved', os.path.join(TOOLS, 'moved'))
moved = importlib.util.module_from_spec(importlib.util.spec_from_loader('moved', loader))
loader.exec_module(moved)


def git(folder, *words):
    # the settings of whoever runs the test must not matter
    plain = dict(os.environ, GIT_CONFIG_GLOBAL=os.devnull, GIT_CONFIG_SYSTEM=os.devnull)
    settings = ['-c', 'user.name=test', '-c', 'user.email=test@test.example', '-c', 'commit.gpgsign=false']
    run = subprocess.run(['git', '-C', folder] + settings + list(words), env=plain, capture_output=True, check=True)
    return run.stdout.decode()


def commit(folder, files):
    """A commit whose tree has these files and no others."""
    git(folder, 'rm', '-r', '-q', '--ignore-unmatch', '.')
    for path, text in files.items():
        os.makedirs(os.path.dirname(os.path.join(folder, path)), exist_ok=True)
        with open(os.path.join(folder, path), 'w', encoding='utf-8') as out:
            out.write(text)
    git(folder, 'add', '-A')
    git(folder, 'commit', '-q', '--allow-empty', '-m', 'a tree')
    return git(folder, 'rev-parse', 'HEAD').strip()


def verdicts(pairs, kind):
    """The names of each verdict, sorted; a moved or changed one with the crates that it went between."""
    found = collections.defaultdict(list)
    for pair in pairs:
        item = pair.new or pair.old
        if item.kind == kind:
            way = f' {pair.old.crate}>{pair.new.crate}' if pair.old and pair.new and pair.old.crate != pair.new.crate else ''
            found[pair.verdict].append(item.name + way)
    return {verdict: sorted(names) for verdict, names in found.items()}


class Invented(unittest.TestCase):
    def compare(self, old, new):
        with tempfile.TemporaryDirectory() as folder:
            git(folder, 'init', '-q')
            first, second = commit(folder, old), commit(folder, new)
            return moved.compare(folder, first, second)

    def check(self, kind, before, after, **wanted):
        self.assertEqual(verdicts(self.compare(before, after), kind), wanted)

    def test_new_changed_gone_same(self):
        self.check('definition',
                   {'crates/a/specs/X.antt': 'use P.{ℕ}\n\npub f : ℕ\nf = 1\n\ng : ℕ\ng = 2\n\nh : ℕ\nh = 3\n'},
                   {'crates/a/specs/X.antt': 'use Q.{ℕ}\n\npub f : ℕ\nf = 1\n\n-- other\ng : ℕ\ng = 7\n\nk : ℕ\nk = 3\n'},
                   same=['f'], changed=['g'], gone=['h'], new=['k'])

    def test_a_clause_and_an_unfolding_belong_to_the_declaration(self):
        old = 'f : ℕ → ℕ\nunfolding g\nf zero = 1\nf (suc n) = 2\n'
        for new in (old.replace('= 2', '= 3'), old.replace('unfolding g', 'unfolding h'), old.replace('f zero = 1\n', '')):
            self.check('definition', {'crates/a/specs/X.antt': old}, {'crates/a/specs/X.antt': new}, changed=['f'])

    def test_a_comment_belongs_to_none(self):
        self.check('definition',
                   {'crates/a/specs/X.antt': 'f : ℕ\nf = 1\n-- of g\ng : ℕ\ng = 2 -- two\n'},
                   {'crates/a/specs/X.antt': '-- of f\nf : ℕ\nf = 1\n\ng : ℕ\n-- here\ng = 2\n'}, same=['f', 'g'])

    def test_moved_to_another_crate_and_file(self):
        self.check('definition',
                   {'crates/a/specs/X.antt': 'f : ℕ\nf = 1\n\ng : ℕ\ng = 2\n'},
                   {'crates/b/specs/X.antt': 'f : ℕ\nf = 1\n', 'crates/a/specs/Y.antt': 'g : ℕ\ng = 2\n'}, moved=['f a>b', 'g'])

    def test_moved_and_changed(self):
        self.check('definition', {'crates/a/specs/X.antt': 'f : ℕ\nf = 1\n'}, {'crates/b/specs/Y.antt': 'f : ℕ\nf = 2\n'},
                   changed=['f a>b'])

    def test_layout_alone(self):
        self.check('definition',
                   {'crates/a/specs/X.antt': 'f : ℕ → ℕ\nf n = record { a = [ zero ↦ 1 | suc m ↦ 2 ]; b = g (h n) }\n'},
                   {'crates/a/specs/X.antt': 'f :\n    ℕ → ℕ\nf n = record {\n  a = [\n    | zero ↦ 1\n    | suc m ↦ 2\n  ];\n  b =\n    g (h n);\n}\n'},
                   same=['f'])

    def test_crate_in_a_path(self):
        old = 'f : ℕ\nf = Rattle·expr·specs.specs.Lists.size a\n'
        self.check('definition', {'crates/a/specs/X.antt': old},
                   {'crates/a/specs/X.antt': old.replace('Rattle·expr·specs', 'Rattle·lists')}, same=['f'])
        self.check('definition', {'crates/a/specs/X.antt': old}, {'crates/a/specs/X.antt': old.replace('Lists', 'Sets')},
                   changed=['f'])
        self.check('proof', {'crates/far_off/proofs/m/g/Proof.antt': 'returns c = code.calls-far-off·m·h c\n'},
                   {'crates/near/proofs/m/g/Proof.antt': 'returns c = code.calls-near·m·h c\n'}, moved=['g far_off>near'])
        # today's paths, also beside those of the older Rattle
        new = 'f : ℕ\nf = Rattle.near.specs.Lists.size a\n'
        for one in ('f : ℕ\nf = Rattle·far_off·specs.specs.Lists.size a\n', new.replace('near', 'far_off')):
            self.check('definition', {'crates/near/specs/X.antt': one, 'crates/far_off/specs/Y.antt': ''},
                       {'crates/near/specs/X.antt': new, 'crates/far_off/specs/Y.antt': ''}, same=['f'])
        self.check('definition', {'crates/near/specs/X.antt': new}, {'crates/near/specs/X.antt': new.replace('.near', '.std')}, changed=['f'])

    def test_proofs_of_both_forms(self):
        old = {'crates/a/proofs/m/f/Proof.antt': 'returns c = g c\n', 'crates/a/proofs/m/h/Proof.antt': 'returns c = k c\n'}
        new = {'crates/a/proofs/m/f/Answers.antt': 'returns c = g c\n', 'crates/a/proofs/m/f/Invariants.antt': 'invariant-loop-i l = p l\n',
               'crates/a/proofs/m/h/Answers.antt': 'returns c = q c\n'}
        self.check('proof', old, new, moved=['f'], changed=['h'], new=['f/Invariants'])
        self.check('proof', new, new, same=['f', 'f/Invariants', 'h'])

    def test_operators_records_and_data(self):
        old = ('infixl 20 _>>=_\npub _>>=_ : A → B\n_>>=_ (done a) k = k a\n\n'
               'pub record R : Type 0 where\n  pub one : ℕ  -- the first\n\ndata D : Type 0 where\n  a b : D\n')
        self.check('definition', {'crates/a/specs/X.antt': old},
                   {'crates/a/specs/X.antt': old.replace('20', '30').replace('one : ℕ', 'one : B').replace('a b :', 'a c :')},
                   changed=['D', 'R', '_>>=_'])

    def test_laws_of_a_module_have_its_line(self):
        old = ('module _ (n : ℕ)\n    (m : ℕ) where\n  f : P n\n  f = q\n    where\n      q : P n\n      q = r\n\n'
               '  module _ (k : ℕ) where\n    g : P k\n    g = s\n\n  h : P m\n  h = t\n\nlast : ℕ\nlast = 1\n')
        file = 'crates/a/proofs/L.antt'
        self.check('law', {file: old}, {file: old}, same=['f', 'g', 'h', 'last'])
        self.check('law', {file: old}, {file: old.replace('(k : ℕ)', '(k : B)')}, changed=['g'], same=['f', 'h', 'last'])
        self.check('law', {file: old}, {file: old.replace('(m : ℕ)', '(m : B)')}, changed=['f', 'g', 'h'], same=['last'])
        self.check('law', {file: old}, {file: old.replace('q = r', 'q = u')}, changed=['f'], same=['g', 'h', 'last'])

    def test_names_that_occur_often(self):
        def laws(**files):
            """Files by crate and name: a_X=1 is crates/a/proofs/X.antt with a law of that number."""
            return {f'crates/{at[0]}/proofs/{at[2:]}.antt': f'help : ℕ\nhelp = {n}\n' for at, n in files.items()}
        both = ['help a>b', 'help a>b']
        # known by crate and file
        self.check('law', laws(a_X=1, b_X=2), laws(a_X=3, b_X=4), changed=['help', 'help'])
        # by text
        self.check('law', laws(a_X=1, a_Y=2), laws(b_Z=1, b_W=2), moved=both)
        # by the name of the file
        self.check('law', laws(a_X=1, a_Y=2), laws(b_X=3, b_Y=4), changed=both)
        # one by text, then the other by the name of its file
        self.check('law', laws(a_X=1, a_Y=2), laws(b_Z=1, b_Y=3), moved=both[:1], changed=both[:1])
        # neither text nor file tells which is which
        self.check('law', laws(a_X=1, a_Y=2), laws(b_Z=3, b_W=4), new=['help', 'help'], gone=['help', 'help'])
        # of one text, each goes to the file of its own name
        pairs = self.compare(laws(a_X=1, a_Y=1), laws(b_Y=1, c_X=1))
        self.assertEqual(sorted((p.old.place, p.new.place) for p in pairs), [('X.antt', 'X.antt'), ('Y.antt', 'Y.antt')])
        # a file that has a name twice, of which one goes
        twice = {'crates/a/proofs/X.antt': 'help : ℕ\nhelp = 1\n\nhelp : B\nhelp = 2\n'}
        self.check('law', twice, {'crates/a/proofs/X.antt': 'help : B\nhelp = 2\n'}, same=['help'], gone=['help'])
        # proofs of one text are told apart by their functions
        same = 'returns : tie.Need\nreturns c = search needs\n'
        self.check('proof', {'crates/a/proofs/m/f/Proof.antt': same, 'crates/a/proofs/m/g/Proof.antt': same},
                   {'crates/b/proofs/m/g/Proof.antt': same, 'crates/b/proofs/k/h/Proof.antt': same},
                   moved=['g a>b'], gone=['f'], new=['h'])

    def test_the_type_of_an_impl(self):
        text = 'impl<\'a> T<\'a> {\n    fn a() {}\n}\n\nimpl fmt::Display for U {\n    fn b() {}\n}\n\nimpl V {\n    fn c() {}\n}\n'
        self.assertEqual([i.name for i in moved.in_file('crates/a/src/m.rt', text)], ['T::a', 'U::b', 'V::c'])

    def test_promises(self):
        old = ('ghost use Rattle·a.specs.X.{f};\n// a function\npub fn f(x: u8, t: [u8; 4]) -> u8\n    ensures is { λ r. ⌜ r ≡ g {n = 1} x ⌝ }\n'
               '    ensures low { λ r. ⌜ r < 9 ⌝ }\n{\n    let y = x;\n    y\n}\n\nfn bare(x: &[u8]) {}\n\n'
               'impl T {\n    pub const N: usize = 4;\n\n    fn of(x: a::m::U) -> T\n        requires { ⌜ x < 2 ⌝ }\n    {\n        x\n    }\n}\n')
        file = 'crates/a/src/m.rt'
        self.check('promise', {file: old}, {file: old}, same=['T::of', 'bare', 'f'])
        self.check('promise', {file: old}, {file: old.replace('let y = x;', 'let y = x + 0;')}, same=['T::of', 'bare', 'f'])
        self.check('promise', {file: old}, {file: old.replace('r < 9', 'r < 8')}, changed=['f'], same=['T::of', 'bare'])
        self.check('promise', {file: old}, {file: old.replace('[u8; 4]', '[u8; 5]')}, changed=['f'], same=['T::of', 'bare'])
        self.check('promise', {file: old}, {file: old.replace('x < 2', 'x < 3')}, changed=['T::of'], same=['bare', 'f'])
        self.check('promise', {file: old}, {file: old.replace('&[u8]', '&[u16]')}, changed=['bare'], same=['T::of', 'f'])
        self.check('promise', {file: old}, {file: old.replace('x: u8, t: [u8; 4])', '\n    x: u8,\n    t: [u8; 4],\n)')},
                   same=['T::of', 'bare', 'f'])
        self.check('promise', {file: old}, {'crates/b/src/k.rt': old.replace('a::m', 'crate::m')},
                   moved=['T::of a>b', 'bare a>b', 'f a>b'])
        found = {i.name: (i.public, i.clauses) for i in moved.in_file(file, old)}
        self.assertEqual(found, {'f': (True, 2), 'bare': (False, 0), 'T::of': (False, 1)})

    def test_edits(self):
        edit = '# why\nfile: src/m.rt\nold: 1\nnew: 2\n'
        self.check('edit', {'crates/a/must-fail/e.edit': edit, 'crates/a/must-fail/g.edit': edit},
                   {'crates/b/must-fail/e.edit': edit.replace('why', 'because'), 'crates/a/must-fail/n.edit': edit},
                   moved=['e a>b'], gone=['g'], new=['n'])
        self.check('edit', {'crates/a/must-fail/e.edit': edit}, {'crates/a/must-fail/e.edit': edit.replace('new: 2', 'new: 3')},
                   changed=['e'])

    def test_the_note(self):
        old = {'crates/a/specs/X.antt': 'f : ℕ\nf = 1\n\nh : ℕ\nh = 4\n\nold : ℕ\nold = 5\n', 'crates/a/src/m.rt': 'fn p(x: u8) {}\n'}
        new = {'crates/b/specs/X.antt': 'f : ℕ\nf = 1\n\nh : ℕ\nh = 3\n\nyoung : ℕ\nyoung = 5\n', 'crates/a/src/m.rt': 'pub fn p(x: u8) {}\n'}
        text = moved.note(self.compare(old, new))
        for line in ('| definitions | 1 | 1 | 1 | 1 | 0 |', '- crates/b/specs/X.antt (was in crates/a/specs/X.antt): `h`',
                     '- 1 from crates/a to crates/b: 1 X.antt', '- crates/b/specs/X.antt: `young`', '- crates/a/specs/X.antt: `old`',
                     'Of the new and gone the same but for the name: `old` is now `young`', '| of public functions | 0 | 0 | 0 | 0 | 1 |',
                     'Now public: `p` (crates/a/src/m.rt)', '0 of the 1 public functions have a clause. 0 of the 0 private functions have a clause.',
                     '| laws | 0 | 0 | 0 | 0 | 0 |', '| proofs of functions | 0 | 0 | 0 | 0 | 0 |', '| edits | 0 | 0 | 0 | 0 | 0 |'):
            self.assertIn(line, text.split('\n'))

    def test_a_bad_commit(self):
        with tempfile.TemporaryDirectory() as folder:
            git(folder, 'init', '-q')
            commit(folder, {'crates/a/specs/X.antt': 'f : ℕ\nf = 1\n'})
            for words, status in ((['HEAD'], 0), (['no-such'], 2), (['HEAD', 'no-such'], 2), (['--all'], 2), ([], 2)):
                run = subprocess.run([os.path.join(TOOLS, 'moved')] + words, cwd=folder, capture_output=True)
                self.assertEqual((words, run.returncode), (words, status))
                self.assertEqual(len(run.stderr.splitlines()), 1 if status else 0)


def code_lines(files, folder):
    """How often each line of code stands in the .antt files of a folder of the crates; read without tools/moved's reader."""
    lines = collections.Counter()
    for path, text in files.items():
        if path.split('/')[2] == folder and path.endswith('.antt') and not moved.PROOF.search(path):
            for line in text.split('\n'):
                line = re.sub(r'(^|\s)--(\s.*)?$', '', line).rstrip()
                if line and not re.match(r'(pub )?(use|mod) ', line):
                    lines[line] += 1
    return lines


def has_commit(name):
    return subprocess.run(['git', '-C', ROOT, 'cat-file', '-e', name + '^{commit}'], capture_output=True).returncode == 0


class History(unittest.TestCase):
    SPLIT = '7c6a1efd10744a897fbdc4bf9ee84c9ab975ac2d'  # each layer became a crate of its own

    @classmethod
    def setUpClass(cls):
        for name in (cls.SPLIT, cls.SPLIT + '^'):
            if not has_commit(name):
                print('test_moved: this checkout has not the history to compare, so only the invented trees are tested', file=sys.stderr)
                raise unittest.SkipTest('no history')

    def counts(self, old, new):
        """The files and the pairs, once the pairs are found to have each thing of both commits once."""
        before, after = moved.files_of(ROOT, old), moved.files_of(ROOT, new)
        pairs = moved.compare(ROOT, old, new)
        for files, side in ((before, 1), (after, 2)):
            rt = [text for path, text in files.items() if path.split('/')[2] == 'src' and path.endswith('.rt')]
            heads = sum(len(re.findall(r'^\s*(?:pub )?(?:extern "C" )?fn ', text, re.M)) for text in rt)
            found = collections.Counter(pair[side].kind for pair in pairs if pair[side])
            self.assertEqual(found['promise'], heads)
            self.assertEqual(found['proof'], sum(bool(moved.PROOF.search(path)) for path in files))
            self.assertEqual(found['edit'], sum(path.endswith('.edit') for path in files))
        return before, after, pairs

    def test_a_commit_with_itself(self):
        _, _, pairs = self.counts(self.SPLIT, self.SPLIT)
        self.assertEqual({pair.verdict for pair in pairs}, {'same'})
        self.assertGreater(len(pairs), 3000)

    def test_the_split_of_the_crates(self):
        _, _, pairs = self.counts(self.SPLIT + '^', self.SPLIT)
        found = verdicts(pairs, 'definition')
        self.assertEqual(found['gone'], ['movedOf', 'noConfiguration'])
        self.assertEqual(found['new'], ['outcomeOf', 'zeroConfiguration'])
        # two that name edgeAt and urgentAt where they now stand, and two that use what was renamed
        self.assertEqual(found['changed'], ['answerBy', 'answerTo', 'borne', 'isUrgent'])
        self.assertEqual((len(found['moved']), len(found['same'])), (203, 367))
        laws = verdicts(pairs, 'law')
        self.assertEqual((laws['gone'], laws.get('new')), (['passed-of', 'ranges-of'], None))

    def test_each_line_that_differs_is_of_a_thing_that_is_named(self):
        for old in (self.SPLIT + '^', self.SPLIT + '~12', self.SPLIT + '~40'):
            if not has_commit(old):
                continue
            before, after, pairs = self.counts(old, self.SPLIT)
            for folder, kind in (('specs', 'definition'), ('proofs', 'law')):
                left, right = code_lines(before, folder), code_lines(after, folder)
                named = {i.name for p in pairs if p.verdict in ('new', 'changed', 'gone') for i in p[1:] if i and i.kind == kind}
                for line in list((left - right) + (right - left)):
                    words = [w for w in line.split() if w not in ('pub', 'abbrev', 'unfoldable', 'record', 'data')]
                    if not line.startswith((' ', 'module', 'unfolding', 'infix', '}', ')', ']')):
                        self.assertIn(words[0], named, line)


if __name__ == '__main__':
    unittest.main()
