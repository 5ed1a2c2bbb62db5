"""Reads the sources as `rt fmt` lays them out: functions with their spans, and mutants."""

import re
from collections import Counter
from itertools import accumulate

from shared import TOP

# Matches the lines that begin or end a block of a type or a trait, and whole functions. A function's body ends where
# its indentation comes back; a declaration without a body ends with `;` before any `{` that ends a line.
ITEM = re.compile(r'''
    ^\}$ |
    ^(?:impl(?:<[^{]*?>)?\ (?:(?:fmt::|std::\w+::)?(?P<trait>.+)\ for\ )?|(?P<of_trait>(?:pub(?:\(crate\))?\ )?trait\ ))
        (?P<owner>[\w'_,\ &()\[\];]+) |
    ^(?P<attributes>(?:\ *\#\[.*\n)*)(?P<indent>\ *)(?P<visibility>pub(?:\([a-z]+\))?\ )?(?:const\ )?
        (?:extern\ "C"\ )?fn\ (?P<name>\w+)
        (?P<rest>.*\{\}$ | .*(?<!\{)(?:\n(?P=indent)(?:\ .*|\).*)(?<!\{))*?(?<=;)$ |
                 (?:.*\n)+?(?P=indent)(?:\}|(?:\).*)?\{\})$)?''', re.M | re.X)
# A clause or a ghost item, up to where its indentation comes back.
PROMISE = re.compile(r'^( *)(?:requires|ensures|ghost)\b.*(?:\n\1(?: .*|\}.*))*', re.M)
# The checker may put one of these before a name where it spells a trait or a type.
AROUND = r'(?:Array|Slice|Ref|Tuple\d+)*'
# A crate's mutants: each one that `rt ci` also tries has its own file in a folder; the others are blocks of one file.
TRIED_ALONE, MUTANTS = 'must-fail', 'mutants.txt'
# This file marks crates with theorems that no contract names. There, mutants may change statements and clauses;
# elsewhere, only mutants whose goal is a lemma may change statements.
STATEMENTS = 'specs/Statements.antt'
REFUSED, PROVED = 'refused', 'proved'
PAIR = re.compile(r'(?:^file: (.+)\n)?^old: (.+)\nnew: ?(.*)$', re.M)
EDIT = re.compile(rf'(?=file: )(?:{PAIR.pattern}|^goal: .+|\n)+', re.M)


def crates():
    """Returns the crates of the repository, in the order of crates.txt."""
    names = re.findall(r'^(\w+)', (TOP / 'crates.txt').read_text(encoding='utf-8'), re.M)
    assert names, 'crates.txt names no crate'
    return names


def spelled(name):
    """Returns how the checker spells a trait or a type: `Index<(u32, u32)>` is `IndexTuple2U32U32`, `[&'a [Block]; 4]`
    is `ArrayRefSliceBlock4`, and `From<Failed<T>>` is `FromFailed`."""
    words = re.findall(r'\w+', re.sub(r"'\w+|<\w+>(?=>)", '', name))
    return ''.join(f'{AROUND}{word[0].upper()}{word[1:]}' for word in words)


class Function:
    """A function: its module; its type (`of`) and trait (`what`); and its lines, from `begin`, where its attributes
    are. `owner` is, for example, `Board` or `Default for Config`. `folders` say where its proofs are below proofs/."""

    def __init__(self, module, found, owner):
        self.module, self.name, self.indent = module, found['name'], found['indent']
        if found['rest'] is None:
            raise ValueError(f'the function {self.name} has no end where `rt fmt` puts it')
        self.begin = found.string.count('\n', 0, found.start()) + 1
        self.first = self.begin + found['attributes'].count('\n')
        self.last = self.first + found['rest'].count('\n')
        self.is_public = found['visibility'] == 'pub ' or bool(owner and owner['of_trait'])
        self.what = owner['trait'] or '' if owner and self.indent else ''
        self.of = re.sub('<.*', '', owner['owner'].strip()) if owner and self.indent else ''
        self.owner = f'{self.what} for {self.of}' if self.what else self.of
        self.crate, self.folders = module.path[0], [*module.path[1:], *filter(None, [self.owner])]

    def is_called(self, place):
        """Returns whether this is the checker's name: `crate::module::VariantOrd::cmp` is that of `impl Ord for
        Variant`."""
        names = [*self.module.path, spelled(self.of) + spelled(self.what), self.name]
        return bool(re.fullmatch('::'.join(filter(None, names)), place))


class Module:
    """One file of src/: its functions."""

    def __init__(self, file, crate):
        parts = file.relative_to(TOP / 'crates' / crate / 'src').with_suffix('').parts
        self.path = (crate, *(parts if parts not in (('lib',), ('main',)) else ()))
        self.file, self.text = file, file.read_text(encoding='utf-8')
        owner, self.functions = None, []
        for found in ITEM.finditer(self.text):
            if found['name']:
                self.functions.append(Function(self, found, owner))
            else:
                owner = found['owner'] and found


class Sources:
    """The functions of all crates."""

    def __init__(self):
        modules = [Module(file, crate) for crate in crates()
                   for file in sorted(TOP.glob(f'crates/{crate}/src/**/*.rt'))]
        self.functions = [f for module in modules for f in module.functions]


class Edit:
    """A mutant: its crate, its pairs of texts, the goals that it names and has to break, and the functions
    in whose spans the texts stand. `function` is that of the last pair. `fault` says why it cannot be tried."""

    def __init__(self, crate, block, sources):
        first, _, self.text = block.partition('\n')
        self.verdict, _, self.name = first.partition(' ')
        self.crate, self.is_equal = crate, self.verdict == PROVED
        self.goals = re.findall(r'^goal: (.+)$', self.text, re.M)
        self.is_of_theorem = any(goal.startswith('proofs/') for goal in self.goals)
        self.pairs, self.edited, self.functions = self.parse(), {}, []
        counts = [self.apply(*pair, sources) for pair in self.pairs]
        self.function = self.functions[-1] if self.functions else None
        self.fault = next(self.faults(counts, sources), None)

    def parse(self):
        """Returns the file of each pair of texts, and the pair: the second replaces the first. Empty if this is no
        edit."""
        found = PAIR.findall(self.text) if EDIT.fullmatch(self.text) else []
        files = accumulate((path for path, *_ in found), lambda last, path: path or last)
        return [(TOP / 'crates' / self.crate / file, *texts) for file, (_, *texts) in zip(files, found)]

    def apply(self, file, old, new, sources):
        """Edits the text of a file, notes in which function, and returns how many times the old text stood there."""
        before = self.edited.get(file) or (file.read_text(encoding='utf-8') if file.exists() else '')
        self.edited[file], count = before.replace(old, new), before.count(old)
        if count == 1:
            line = before[:before.index(old)].count('\n') + 1
            around = (f for f in sources.functions if f.module.file == file and f.first <= line <= f.last)
            self.functions.append(next(around, None))
        return count

    def faults(self, counts, sources):
        if not self.pairs:
            yield f'it is no edit: {self.text}'
        if self.crate not in crates():
            yield 'crates.txt lacks its crate'
        if self.verdict not in (REFUSED, PROVED):
            yield f'it is neither {REFUSED} nor {PROVED}, but {self.verdict}'
        for (file, old, _), count in zip(self.pairs, counts):
            if count != 1:
                yield f'its text stands {count} times in {file.relative_to(TOP)}: {old.strip()}'
        yield from filter(None, map(self.lost_promise, self.edited, self.edited.values()))

    def lost_promise(self, file, text):
        """Returns a clause or ghost item that the edited file lacks: a mutant has to promise what the original does."""
        if self.is_of_theorem or (TOP / 'crates' / self.crate / STATEMENTS).exists():
            return None
        if 'src' not in file.relative_to(TOP / 'crates' / self.crate).parts:
            return f'it changes {file.relative_to(TOP)}, which has no bodies'
        before, after = (Counter(promise[0].strip() for promise in PROMISE.finditer(code))
                         for code in (file.read_text(encoding='utf-8'), text))
        return next((f'it changes more than bodies: {promise}' for promise in before - after), None)


def blocks_of_edits(folder):
    """Yields the text of each mutant of a crate, below a line with its verdict and its name. In the list, a block of
    one line may name the file of the mutants below it."""
    for file in sorted(folder.glob(f'{TRIED_ALONE}/*.edit')):
        yield f'{REFUSED} {file.stem}\n{file.read_text(encoding="utf-8")}'
    text = (folder / MUTANTS).read_text(encoding='utf-8') if (folder / MUTANTS).exists() else ''
    heading = ''
    for block in filter(None, re.split(r'\n{2,}', text.strip('\n'))):
        first, _, rest = block.partition('\n')
        if re.fullmatch('file: .+', block):
            heading = f'{block}\n'
        else:
            yield f'{first}\n{"" if rest.startswith("file: ") else heading}{rest}'


def edits(sources):
    """Returns all mutants, folder by folder, also those of a folder that crates.txt lacks, which nothing else tries."""
    found = [Edit(folder.name, block, sources) for folder in sorted(TOP.glob('crates/*/'))
             for block in blocks_of_edits(folder)]
    assert found, 'there is no edit'
    return found
