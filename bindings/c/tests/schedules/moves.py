"""Writes the moves of a model (Team.antt or Threads.antt of crates/argon2_c/specs) in C, for explore_schedules.c and
places.c: for each move a function `make_MOVE`, which the model must allow, and which changes the state as the model
does. Before the first move the state must be a start of the model. `print_moves` prints how often each move was made
over all runs.

A fill of a segment is there what the exploration sees of it: the proved call was made in this step for this lane. Which
blocks a call is passed is checked elsewhere in explore_schedules.c. So a memory is a number here: 0 is the present one,
and n + 1 differs from it in the segment of lane n. What memory contains is not part of the state here.
"""

import re

TOKEN = re.compile(r'[()→×⊎≡≢≤<+*:]|[^\s()]+')
RELATIONS = {'≡': '==', '≢': '!=', '<': '<', '≤': '<='}
# The fields of the state and of the work, and what C has in their place. {0} is the first argument.
TEAM = {
    'step': 'model.step', 'is_over': 'model.is_over', 'woken': 'model.woken[{0}]', 'entered': 'model.entered[{0}]',
    'state': 'model.state[{0}]', 'code': 'model.code[{0}]', 'memory': '0', 'claimed': '0', 'before': '0',
}
# The fields that no condition of a move reads, or reads as a number that does not change.
NOT_CHANGED = 'memory', 'claimed', 'before', 'owner'
# The places of Threads.antt that have numbers, and how many.
PLACES = {'Waking': 1, 'Taking': 2, 'Working': 2, 'Telling': 1, 'Waiting': 0, 'Woken': 0, 'Counting': 1, 'Left': 0,
          'Ending': 1, 'Ended': 0}
NAMES = {
    **{f's.{name}': field for name, field in TEAM.items()}, **{f's.team.{name}': field for name, field in TEAM.items()},
    **{name: f'NUMBER({", ".join([name, "{0}", "{1}"][:1 + many] + ["0"] * (2 - many))})'
       for name, many in PLACES.items()},
    's.place': 'model.place[{0}]', 's.wakes': 'model.wakes[{0}]', 'members': 'model.members',
    'is_long': 'model.is_long', 'w.segment': '({2} == {1} + 1)', 'w.Keeps': 'true',
    'w.Fills': '(model.written[{1}] == {0} + 1)',
    'w.worker': '({0} * model.filling->tasks / model.filling->job->lanes)',
    'w.tasks': 'model.filling->tasks', 'w.lanes': 'model.filling->job->lanes',
    'w.steps': '(4 * (uint64_t)model.filling->job->passes + 1)', 'suc': '({0} + 1)', 'true': 'true', 'false': 'false',
    'cond': '({0} ? {1} : {2})', 'eqb': '({0} == {1})', 'ltb': '({0} < {1})',
}
# Workers, threads and lanes are numbers below MOST_THREADS.
ALL = '({{ bool all = true; for (uint64_t {0} = 0; {0} < MOST_THREADS; {0}++) all = all && {1}; all; }})'
SOME = '({{ bool some = false; for (uint64_t {0} = 0; {0} < MOST_THREADS; {0}++) some = some || {1}; some; }})'


class Reader:
    """Reads an expression of Team.antt, and returns it in C. A method reads what binds tighter than the one before."""

    def __init__(self, text, known, names):
        self.tokens, self.known, self.names = TOKEN.findall(text), known, dict(names)

    def next_is(self, *tokens):
        """Returns whether one of these tokens comes next."""
        return bool(self.tokens) and self.tokens[0] in tokens

    def implied(self):
        """Reads an expression with an arrow, or for all or some numbers."""
        if self.next_is('(') and self.tokens[2:5] == [':', 'ℕ', ')']:
            name, kind = self.tokens[1], ALL if self.tokens[5] == '→' else SOME
            self.tokens, self.names[name] = self.tokens[6:], name
            return kind.format(name, self.implied())
        first = self.joined(0)
        return f'(!{first} || {self.after(self.implied)})' if self.next_is('→') else first

    def after(self, reads):
        """Reads on after the next token."""
        self.tokens.pop(0)
        return reads()

    def joined(self, level):
        """Reads what operators of this level join: ⊎, ×, relations, +, and then *."""
        levels = {'⊎': '||'}, {'×': '&&'}, RELATIONS, {'+': '+', '-': '-'}, {'*': '*'}
        if level == len(levels):
            return self.applied()
        found = self.joined(level + 1)
        while self.next_is(*levels[level]):
            sign, other = levels[level][self.tokens[0]], self.after(lambda: self.joined(level + 1))
            # Natural numbers end at 0.
            found = f'({found} > {other} ? {found} - {other} : 0)' if sign == '-' else f'({found} {sign} {other})'
        return found

    def applied(self):
        """Reads a name with its arguments."""
        name, head, arguments = self.tokens[0], self.atom(), []
        while self.tokens and (self.next_is('(') or re.match(r'[\w.]', self.tokens[0])):
            arguments.append(self.atom())
        if name in self.known:
            parameters, body = self.known[name]
            return Reader(body, self.known, zip(parameters, arguments)).implied()
        return NAMES[name].format(*arguments) if name in NAMES else head

    def atom(self):
        """Reads a token, or what is in parentheses."""
        token = self.tokens.pop(0)
        if token == '(':
            found = self.implied()
            assert self.tokens.pop(0) == ')'
            return found
        return self.names.get(token) or NAMES.get(token, token)


def definitions(text):
    """Returns the parameters and the body of each definition: a record is all of its fields."""
    plain = re.findall(r'^abbrev pub (\w+) : .*\n\1 (.*?) = (.*)$', text, re.M)
    records = re.findall(r'^pub record (\w+) (.*) : Type 0 where\n((?:  pub .*\n)+)', text, re.M)
    found = {name: (parameters.split(), body) for name, parameters, body in plain}
    for name, parameters, fields in records:
        types = re.findall(r'^  pub \w+ : (.*?)(?:  --.*)?$', fields, re.M)
        names = [word for group in re.findall(r'\((.*?) :', parameters) for word in group.split()]
        found[name] = names, ' × '.join(f'({one})' for one in types)
    return found


def cases(name, text):
    """Returns the move, its numbers and the body of each line that defines this function of a state and a move."""
    found = re.findall(rf'^{name} w (?:members is_long )?s \(?(\w+)([^=)]*)\)? = (.*)$', text, re.M)
    return [(move, parameters.split(), body) for move, parameters, body in found]


START = """static void look_at_start(void)
{{
    must(model.has_begun || {start}, "IsStart");
    model.has_begun = true;
}}
"""
MOVE = """static uint64_t made_{move};

static inline void make_{move}({numbers})
{{
    look_at_start();
    must({guard}, "{move}");
    made_{move}++;
    {changes}
}}
"""
PRINT = '    printf("%s {move} %llu\\n", model, (unsigned long long)made_{move});'


def atoms(reader):
    """Reads the arguments of a function, up to a parenthesis or the end."""
    found = []
    while reader.tokens and not reader.next_is(')'):
        found.append(reader.atom())
    return found


def assignments(body, known, names):
    """Returns the assignments in C for what a record with other fields, `record s { .. }`, changes in the team."""
    found = []
    for field, value in re.findall(r'(\w+) = ([^;}]*?) *[;}]', body[body.index('{'):]):
        if field not in NOT_CHANGED:
            reader = Reader(value.removeprefix(f'updated s.{field} '), known, names)
            place = f'[{reader.atom()}]' if reader.tokens != TOKEN.findall(value) else ''
            found.append(f'model.{field}{place} = {reader.implied()};')
    return found


def changes(body, known, numbers):
    """Returns the statements in C that change the state as a move does: first the places and wakes, then the team."""
    numbers, found = {name: name for name in numbers}, []
    if moved := re.search(r'(goes|wakes_for|waits_for) w members is_long s (.*)', body):
        found.append(f'{moved[1]}({", ".join(atoms(Reader(moved[2], known, numbers)))});')
    if team := re.search(r'(?:^|team = )(\w+) w s(?:\.team)?\b([^;}]*)', body):
        parameters, changed = known[team[1]]
        names = dict(zip(parameters[2:], atoms(Reader(team[2], known, numbers))))
        found += assignments(changed, known, names)
    return '\n    '.join(found)


def imported(text, known):
    """Returns the definitions that a model takes from another one, of which these are known, by their names here."""
    names = re.search(r'^use Rattle\.argon2_c\.specs\.Team\.\{(.*)\}$', text, re.M)
    pairs = [name.split(' as ') for name in names[1].split(', ')] if names else []
    return {pair[-1]: known[pair[0]] for pair in pairs if pair[0] in known}


def moves(text, below=''):
    """Returns the functions in C. `below` is the text of the model from which this one imports."""
    text, below = (re.sub(r'\n {4,}', ' ', one) for one in (text, below))  # (such a line continues the one before)
    known = imported(text, definitions(below)) | definitions(text)
    after = {move: changes(body, known, numbers) for move, numbers, body in cases('after', text)}
    start = START.format(start=Reader(known['IsStart'][1], known, {}).implied())
    functions, prints = ['#pragma GCC diagnostic ignored "-Wunused-parameter"', start], []
    for move, numbers, body in cases('Can', text):
        functions.append(MOVE.format(
            move=move, numbers=', '.join(f'uint64_t {number}' for number in numbers) or 'void',
            guard=Reader(body, known, {name: name for name in numbers}).implied(), changes=after[move]))
        prints.append(PRINT.format(move=move))
    return '\n'.join([*functions, 'static void print_moves(const char *model)\n{', *prints, '}\n'])
