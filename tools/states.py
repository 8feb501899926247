#!/usr/bin/env python3
"""states.py [--check]: writes the states of the recogniser, crates/grammar/specs/Table.antt and crates/grammar/src/table.rt,
from the grammar as crates/meaning/specs/ writes it. With --check it writes nothing, and fails where a file is not what it
would write.

Rules and kinds are read out of meaning's own text; what does not have the shape that is read here stops the script. What is
left of a grammar behind a word is worked out here clause by clause as there. Nothing rests on that: the check of crates/grammar
computes every state and every entry of the table anew, and refuses what is not so.

A state is what is left of the grammar behind some words. Within the parentheses of an expression it is what is left up to the
closing one, with a hole for what follows; how many more are open is a number beside the state."""
import functools
import re
import sys

GRAMMAR, KEYWORDS = 'crates/meaning/specs/Grammar.antt', 'crates/meaning/specs/Keywords.antt'
SPECS, CODE = 'crates/grammar/specs/Table.antt', 'crates/grammar/src/table.rt'
EXPRESSIONS = ['bool_e', 'constraint_e']  # the rules that may stand in parentheses


def stop(why):
    sys.exit(f'states.py: {why}')


def found(pattern, text):
    return re.search(pattern, text, re.M | re.S) or stop(f'nothing in the text has the shape {pattern}')


# ---- the kinds of words: number by name, and by spelling
keywords = open(KEYWORDS).read()
KIND = {name: int(number) for name, number in re.findall(r'^(k_\w+) = (\d+)$', keywords, re.M)}
NAME = {number: name for name, number in KIND.items()}
spellings = [s for part in ('marks', 'keywords') for s in re.findall(r'"(.+?)"', found(rf'^{part} =(.*?)\[\]', keywords)[1])]
SPELT = {s: KIND['k_open'] + i for i, s in enumerate(spellings)}
KINDS = KIND['k_end']  # the kinds below it are those of words
if KINDS != KIND['k_open'] + len(spellings):
    stop('k_end does not follow the last keyword')

# ---- the grammar: tuples by the names of Grammar.antt, as ('seq', ('tok', 18), ('tok', 1))
grammar = open(GRAMMAR).read()
FORMS = {'none': 0, 'eps': 0, 'tok': 1, 'seq': 2, 'alt': 2, 'star': 1, 'nt': 1}
NONE, EPS = ('none',), ('eps',)
# a definition is its parameters and its text, up to the next empty line
DEFINED = {m[1]: (m[2].split(), m[3]) for m in
           re.finditer(r'^(?:abbrev|unfoldable) pub (\w+) : .*\n\1((?: \w+)*) =((?:.|\n(?!\n))+)', grammar, re.M)}


def then(a, b):
    """a · b"""
    if a == NONE:
        return a
    if a == EPS:
        return b
    return then(a[1], then(a[2], b)) if a[0] == 'seq' else ('seq', a, b)


OPERATORS = [('∷', lambda a, b: [a] + b), ('∣', lambda a, b: ('alt', a, b)), ('·', then)]  # the loosest first; each to the right
found(r'^infixr 60 ◌·◌\ninfixr 50 ◌∣◌$', grammar)


def read(text, given):
    """the value of an expression of Grammar.antt: a grammar, a number, a spelling or a list"""
    text = re.sub(r'--.*', '', text)
    words = re.findall(r'"[^"]*"|\[\]|[()·∣∷]|[^\s()·∣∷"]+', text)
    if ''.join(words) != re.sub(r'\s', '', text):
        stop(f'{GRAMMAR}: not understood: {text}')

    def one():
        word = words.pop(0)
        if word == '(':
            inner = operation(0)
            return inner if words.pop(0) == ')' else stop(f'{GRAMMAR}: a ) is missing in {text}')
        if word[0] == '"':
            return word[1:-1]
        if word == '[]':
            return []
        if word in given:
            return given[word]
        if word in KIND or word.isdigit():
            return KIND[word] if word in KIND else int(word)
        if word in FORMS:
            return (word, *(one() for _ in range(FORMS[word])))
        if word == 'spelt':
            spelling = one()
            return SPELT.get(spelling) or stop(f'{GRAMMAR}: "{spelling}" is the spelling of no kind')
        params, body = DEFINED.get(word) or stop(f'{GRAMMAR}: {word} has no definition of a shape that is read here')
        return read(body, {p: one() for p in params})

    def operation(level):
        if level == len(OPERATORS):
            return one()
        sign, does = OPERATORS[level]
        a = operation(level + 1)
        if words and words[0] == sign:
            words.pop(0)
            return does(a, operation(level))
        return a

    value = operation(0)
    return value if not words else stop(f'{GRAMMAR}: {words[0]} not understood in {text}')


RULES = read('rules', {})
DEEP = int(found(r'^left g k = left_in (\d+) g k$', grammar)[1])


# ---- what is left of a grammar behind a word, as Grammar.antt says it
def nullable(g):
    if g[0] == 'seq':
        return nullable(g[1]) and nullable(g[2])
    if g[0] == 'alt':
        return nullable(g[1]) or nullable(g[2])
    return g[0] in ('eps', 'star')


def either(a, b):
    return b if a == NONE else a if b == NONE else ('alt', a, b)


@functools.cache
def left(g, k, deep=DEEP):
    if g[0] == 'tok':
        return EPS if g[1] == k else NONE
    if g[0] == 'seq':
        first = then(left(g[1], k, deep), g[2])
        return either(first, left(g[2], k, deep)) if nullable(g[1]) else first
    if g[0] == 'alt':
        return either(left(g[1], k, deep), left(g[2], k, deep))
    if g[0] == 'star':
        return then(left(g[1], k, deep), g)
    if g[0] == 'nt' and deep and g[1] < len(RULES):
        return left(RULES[g[1]], k, deep - 1)
    return NONE


# ---- the states: 0 is the dead one; then those within parentheses, for one rule after the other; then the others, from `policy` on
HOLE = ('nt', len(RULES))  # a rule that is not there
OPEN, CLOSE = SPELT['('], SPELT[')']
# of each state what is left, how the text says it, and the words that lead to it from the first state of its group
states, ways, words_to = [NONE], ['(fresh none)'], [[]]
entry = {}  # for a rule that may stand in parentheses, its first state there, which stands for the group
had, follows = {}, {}  # for a group: the state behind an operand; what follows the last parenthesis


def listed(items):
    return ' ∷ '.join([*items, '[]'])


def behind(s, words):
    return f'(behind {s} ({listed(NAME[k] for k in words)}))'


def add(g, way, words):
    if g not in states:
        states.append(g)
        ways.append(way)
        words_to.append(words)
        if len(states) > 255:
            stop('more states than a byte can tell apart')


def opens(k, rest):
    return k == OPEN and rest[0] == 'seq' and rest[1] in entry


def explore(g, way):
    """adds g and all that is left of it behind words; where a `(` opens an expression, what follows its `)`"""
    s = first = len(states)
    add(g, way, [])
    while s < len(states):
        for k in range(KINDS):
            rest = left(states[s], k)
            if rest == HOLE:
                if had.setdefault(first, s) != s:
                    stop('within parentheses an expression may end in two states')
            elif opens(k, rest) and first in entry.values():
                pass  # as behind an operand
            elif opens(k, rest):
                inner, after = entry[rest[1]], rest[2][2]
                add(after, behind(s, [OPEN, *words_to[had[inner]], CLOSE]), [])
                if follows.setdefault(inner, after) != after:
                    stop('what follows an expression in parentheses is not always the same')
            elif rest != NONE:
                add(rest, behind(s, [k]), words_to[s] + [k])
        s += 1
    return first


for rule in EXPRESSIONS:
    g = read(rule, {})
    entry[g] = len(states)
    explore(('seq', g, ('seq', ('tok', CLOSE), HOLE)), f'(fresh ({rule} · w ")" · hole))')
LAST_INSIDE = len(states) - 1
START = explore(read('policy', {}), '(fresh policy)')
number = {g: s for s, g in enumerate(states)}


def leads(s, k):
    """the state to which a word of kind k leads from s; within parentheses as if no more of them were open"""
    rest = left(states[s], k)
    if rest == HOLE:
        return number[follows[max(first for first in had if first <= s)]]
    return entry[rest[1]] if opens(k, rest) else number[rest]


edges = [[(k, leads(s, k)) for k in range(KINDS) if leads(s, k)] for s in range(len(states))]
ENDS = [number[read(rest, {})] for rest in ('star statement5 · star statement6', 'star statement6')]
if ENDS != [s for s, g in enumerate(states) if nullable(g)]:
    stop('a text may end elsewhere than behind a statement of section 5 or 6')
(_, had_bool), (first_constraint, had_constraint) = had.items()


# ---- the files
def row(s):
    lines = [f'    {"∷ " if s else ""}(state {s} {ways[s]} (']
    for item in [f'({NAME[k]}, {to}) ∷ ' for k, to in edges[s]] + ['[]))']:
        if len(lines[-1] + item) > 132:
            lines[-1] = lines[-1].rstrip()
            lines.append('    ')
        lines[-1] += item
    return '\n'.join(lines).replace('([])', '[]')


rows = '\n'.join(map(row, range(len(states))))
names = ', '.join(name for name, k in KIND.items() if re.search(rf'\b{name}\b', rows))
edge_count = sum(map(len, edges))
entries = [f'0x{s:02x}{k:02x}{to:02x},' for s, to_all in enumerate(edges) for k, to in to_all]
entries = ['    ' + ' '.join(entries[i:i + 9]) for i in range(0, len(entries), 9)]
FILES = {SPECS: f"""\
-- The states of the recogniser, and where words lead. Written by tools/states.py from meaning's grammar.
--
--   {row(START + 1)[6:]}
--       What is left in this state is what is left in state {START} behind a word of kind {NAME[edges[START][0][0]]}.
--       A word of the kind k_name leads from here to state {edges[START + 1][0][1]}, any other to state 0, which is dead.
--   {row(START)[6:]}
--       What is left in this one is the whole grammar.
--
-- In a state within the parentheses of an expression what is left ends in a hole for what follows them, and the closing one leads to
-- where it leads if no more of them are open.
use Rattle.std.specs.Prelude.{{ℕ, Bool, ◌||◌, List, [], ◌∷◌, eqb, ltb, if◌then◌else◌}}
use Rattle.meaning.specs.Grammar.{{G, none, nt, ◌·◌, w, policy, {", ".join(EXPRESSIONS)}}}
use Rattle.meaning.specs.Keywords.{{{names}}}

pub data Way : Type 0 where
  fresh : G → Way
  behind : ℕ → List ℕ → Way

pub data Row : Type 0 where
  state : ℕ → Way → List (ℕ × ℕ) → Row

-- the hole: a rule that is not there
abbrev pub hole_rule : ℕ
hole_rule = {HOLE[1]}

abbrev pub hole : G
hole = nt hole_rule

abbrev pub state_count : ℕ
state_count = {len(states)}

-- kinds of words are below k_end
abbrev pub kind_count : ℕ
kind_count = {KINDS}

abbrev pub edge_count : ℕ
edge_count = {edge_count}

abbrev pub table_size : ℕ
table_size = {len(states) * KINDS}

-- states within parentheses are 1 to this one: those of boolean expressions, then those of constraints
abbrev pub last_inside : ℕ
last_inside = {LAST_INSIDE}

-- of a state within parentheses, the state behind an operand
unfoldable pub had : ℕ → ℕ
had s = if ltb s {first_constraint} then {had_bool} else {had_constraint}

-- the state before the first word
abbrev pub start_state : ℕ
start_state = {START}

-- the states where a text may end: behind a statement of section 5, behind one of section 6
abbrev pub accepting : ℕ → Bool
accepting s = eqb s {ENDS[0]} || eqb s {ENDS[1]}

unfoldable pub rows : List Row
rows =
{rows}
    ∷ []
""", CODE: f"""\
// The states of the recogniser, and where words lead. Written by tools/states.py from meaning's grammar.

// Kinds of words are below it.
pub const KINDS: u8 = {KINDS};

// An entry for each of them.
pub const ROW: usize = {KINDS};

// States from 1 to this one stand within the parentheses of an expression.
pub const LAST_INSIDE: u8 = {LAST_INSIDE};

// The state before the first word.
pub const START: u8 = {START};

// The states where a text may end: behind a statement of section 5, and behind one of section 6.
pub const AFTER_USER: u8 = {ENDS[0]};

pub const AFTER_CONSTRAIN: u8 = {ENDS[1]};

// A row for each state.
pub const TABLE_SIZE: usize = {len(states) * KINDS};

pub type Next = [u8; TABLE_SIZE];

pub const EDGE_COUNT: usize = {edge_count};

pub type Edges = [usize; EDGE_COUNT];

// The entries of the table that are not 0: 0xSSKKTT where a word of kind KK leads from state SS to state TT.
pub const EDGES: Edges = [
{chr(10).join(entries)}
];
"""}
for path, text in FILES.items():
    if '--check' not in sys.argv:
        open(path, 'w').write(text)
    elif open(path).read() != text:
        sys.exit(f'{path} is not what tools/states.py writes')
