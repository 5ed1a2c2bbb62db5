"""Mutants in copies of their functions, and the checker's report on a crate with such copies."""

import re

VERDICT = re.compile(r'^(?:fn|struct|enum|impl|trait) (\S+): (.*)$', re.M)
BY_A_CALL = re.compile(r'no proof: it calls `|not proved; it waits for ')
ERROR = re.compile(r'^(?:\./)?(\S+?):(\d+):\d+: error(?:\[[\w-]+\])?: (.*(?:\n  .*)*)', re.M)
UNPROVED = re.compile(r'^note: \S+: it is not proved that .*?\(`([^`]+)`\)', re.M)
SEARCHED = re.compile(r'`search` did not prove (`[^`]+`(?:, `[^`]+`)*)')
# A message begins so if a proof file names something that an edit removed.
NAMES = re.compile(r'has no field|is not in scope|has no `|was not admitted|^(?:`[^`]*`: )?record `[^`]*`')
# If a function has an open goal and no fault in its answers, the checker searches again, for proofs to offer to the
# author. So we put a fault into a wrong body's answers, and judge the body by its open goals.
NO_OFFERS = 'no_offers'
FAULT = f'\n{NO_OFFERS} : NoOffers\n{NO_OFFERS} = {NO_OFFERS}\n'


class Copy:
    """A body under another name beside its function, and the function's proofs renamed with it."""

    def __init__(self, edit):
        self.edit, self.function, self.module = edit, edit.function, edit.function.module
        self.name = f'{self.function.name}_{"as" if edit.is_equal else "but"}_{re.sub("[^a-zA-Z0-9_]", "_", edit.name)}'
        text = '\n'.join(self.module.text.split('\n')[self.function.begin - 1:self.function.last])
        for _, old, new in edit.pairs:
            text = text.replace(old, new)
        self.text = re.sub(rf'\bfn {self.function.name}\b', f'fn {self.name}', text, count=1)

    def is_called(self, place):
        """Returns whether this is the checker's name, also for closures."""
        return self.name in place.split('::')

    def proofs(self, folder):
        """Returns the texts of its proofs by their paths in the crate, made from those of its function."""
        begin, name = self.function.folders, self.function.name
        found = folder.joinpath('proofs', *begin, name)
        old, new = ('.'.join([rf'Rattle.{self.edit.crate}.proofs', *begin, part, '']) for part in (name, self.name))
        texts = {}
        for path in sorted(found.rglob('*.antt')):
            text = path.read_text(encoding='utf-8').replace(old, new)
            texts[path.relative_to(found).as_posix()] = re.sub(rf'\b{name}_spec\b', f'{self.name}_spec', text)
        if not self.edit.is_equal and 'Proof.antt' not in texts:
            texts['Answers.antt'] = texts.get('Answers.antt', '') + FAULT
        return {'/'.join(['proofs', *begin, self.name, path]): text for path, text in texts.items()}


def can_be_copied(edit, folder):
    """Returns whether an edit changes only one function's body, which is not a trait's and does not call itself."""
    function = edit.function
    is_of_trait = function is None or function.owner and ' for ' in function.owner
    if edit.is_of_theorem or {*edit.functions} != {function} or is_of_trait:
        return False
    return not folder.joinpath('proofs', *function.folders, f'+{function.name}').exists()


def texts_with(copies, folder):
    """Returns the texts of a crate's files with copies in them, by their paths in the crate."""
    texts = {path: text for copy in copies for path, text in copy.proofs(folder).items()}
    for copy in sorted(copies, key=lambda copy: -copy.function.last):
        path = copy.module.file.relative_to(folder).as_posix()
        lines = texts.get(path, copy.module.text).split('\n')
        lines[copy.function.last:copy.function.last] = ['', *copy.text.split('\n')]
        texts[path] = '\n'.join(lines)
    return texts


class Report:
    """A check's output: the verdict of each function, and the errors, each joined to one line."""

    def __init__(self, output):
        parts = VERDICT.split(output)  # the notes on a function stand right above its verdict
        self.verdicts = dict(zip(parts[1::3], parts[2::3]))
        self.unproved = {place: UNPROVED.findall(notes) for notes, place in zip(parts[::3], parts[1::3])}
        self.errors = [(path, int(line), re.sub(r'\n +', ' ', said)) for path, line, said in ERROR.findall(output)]
        self.last = output.rstrip('\n').rpartition('\n')[2]
        self.is_complete = self.last.startswith('logic=')

    def first_error(self):
        return '{}:{}: {}'.format(*self.errors[0]) if self.errors else self.last

    def is_refused(self, place):
        """Returns whether a function is refused for its own faults."""
        said = self.verdicts.get(place, '')
        is_refused = said.startswith(('not proved', 'no proof')) and not BY_A_CALL.match(said)
        return is_refused and not (self.has_fault(place) and not any(self.goals_left(place)))

    def errors_of(self, place):
        """Returns the errors in a function's proofs: recursive functions have a mark before their name."""
        *folders, name = place.split('::')[1:]
        folders = tuple('/'.join(['proofs', *folders, mark + name, '']) for mark in ('', '+'))
        return [error for error in self.errors if error[0].startswith(folders)]

    def has_fault(self, place):
        """Returns whether its answers have the fault that was planted."""
        return any(map(is_put_there, self.errors_of(place)))

    def goals_left(self, place):
        """Returns a function's unproved goals with the reasons, and those whose proof only names something missing. For
        a missing name in a `use`, the checker names no goal."""
        left, named = dict.fromkeys(self.unproved.get(place, []), 'it is not proved'), {}
        for goals in SEARCHED.findall(self.verdicts.get(place, '')):
            left.update(dict.fromkeys(re.findall(r'`([^`]+)`', goals), 'search did not prove it'))
        for _, _, said in (error for error in self.errors_of(place) if not is_put_there(error)):
            goal, why = re.fullmatch(r'(?:`([^`]+)`: )?(.*)', said, re.S).groups('use')
            (named if NAMES.search(why[:400]) else left).setdefault(goal, why)
        return left, {goal: why for goal, why in named.items() if goal not in left}


def is_put_there(error):
    """Returns whether an error is that of the planted FAULT."""
    return error[2].startswith(f'`{NO_OFFERS}`: ')


def clause_of(goal):
    """Returns a goal by its clause alone, without the branch of the body in which it is left."""
    head, clause = re.match(r'returns|loop-\w+-(?:init|preserved)', goal), re.search(r'-clause-.*', goal)
    return head[0] + (clause[0] if clause else '') if head else goal
