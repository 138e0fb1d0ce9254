"""The changes that tools/mutants tries: each of one place, by rule. An integer becomes the next one, and so does a letter; a
comparison, a sum, `and` and `or`, true and false are turned round; two neighbours in a call or a list are swapped, or the
results of two constructors. Promises, types and comments are left alone."""
import collections, re
from pathlib import Path

ROOT = Path(__file__).resolve().parent.parent
RULES = ('rules', 'stream_rules')  # the crates whose definitions have a meaning outside
PRINTING = 'listing replay vectors'.split()  # the programs: they print, and promise nothing
NUMBERS = 'u8 u16 u32 u64 usize i8 i16 i32 i64 isize'.split()
SYMMETRIC = re.compile(r'eqb|max|min|wrapping_add_\w+')  # swapped operands make no difference
CODE_TURNED = {'<': '<=', '<=': '<', '>': '>=', '>=': '>', '==': '!=', '!=': '==', '+': '-', '-': '+', '+=': '-=',
               '-=': '+=', '&&': '||', '||': '&&', '&': '|', '|': '&', '<<': '>>', '>>': '<<', 'true': 'false',
               'false': 'true'}
SPEC_TURNED = {'&&': '||', '||': '&&', '+': '-', '-': '+', '/': '%', '%': '/', '*': '+', 'true': 'false', 'false': 'true',
               'zero': '(suc zero)'}
CODE = re.compile(r'''//[^\n]*|b?"(?:\\.|[^"\\])*"|b'(?:\\x..|\\.|[^\\'])'|'[a-z_]\w*|0x[0-9A-Fa-f_]+|\d[\d_]*|\w+|=>|->'''
                  r'''|::|\.\.=?|<<|>>|<=|>=|==|!=|&&|\|\||[-+*/%&|^]=|\S''')
SPEC = re.compile(r'--[^\n]*|"(?:\\.|[^"\\])*"|[(){};,]|[^\s(){};,"]+')
SPEC_BREAK = re.compile(r'[=:∷≡→λ;,]|\+\+|&&|\|\||[-+*/%^]|let|in|pub|record|.*\.')  # what ends an application
Token = collections.namedtuple('Token', 'text start end')
Change = collections.namedtuple('Change', 'number path name line start old new')

class Text:
    """A file's tokens without comments, and the partner of each bracket."""

    def __init__(self, text, pattern):
        self.text = text
        self.tokens = [Token(m.group(), *m.span()) for m in pattern.finditer(text) if m.group()[:2] not in ('//', '--')]
        self.partner, opened = {}, []
        for i, t in enumerate(self.tokens):
            if t.text in ('(', '[', '{'):
                opened.append(i)
            elif t.text in (')', ']', '}'):
                self.partner[opened.pop()] = i

    def word(self, i):
        return self.tokens[i].text if 0 <= i < len(self.tokens) else ''

    def part(self, lo, hi):
        return self.text[self.tokens[lo].start:self.tokens[hi - 1].end]

    def put(self, lo, hi, new):
        """The tokens from lo to hi replaced: where, the old text and the new."""
        return self.tokens[lo].start, self.part(lo, hi), new

    def split(self, lo, hi, ends):
        """The ranges between lo and hi that tokens outside brackets part, those which `ends` tells."""
        parts, at, i = [], lo, lo
        while i < hi:
            if ends(self.word(i)):
                parts, at = parts + [(at, i)], i + 1
            i = self.partner.get(i, i) + 1
        return parts + [(at, hi)]

    def swaps(self, ranges):
        """Each two neighbours swapped, where that makes a difference."""
        for a, b in zip(ranges, ranges[1:]):
            if a[0] < a[1] and b[0] < b[1] and self.part(*a) != self.part(*b):
                middle = self.text[self.tokens[a[1] - 1].end:self.tokens[b[0]].start]
                yield self.put(a[0], b[1], self.part(*b) + middle + self.part(*a))

def next_number(word):
    digits = word.replace('_', '')
    return '0x%0*X' % (len(digits) - 2, int(digits, 16) + 1) if digits.startswith('0x') else str(int(digits) + 1)

def next_letters(word):
    """A quoted text with each letter in turn the next one."""
    start = re.search('["\']', word).end()
    for m in re.finditer(r'\\x(..)|.', word[start:-1]):
        value = (int(m.group(1), 16) if m.group(1) else ord(m.group())) + 1
        plain = 32 <= value < 127 and chr(value) not in '"\'\\'
        yield word[:start + m.start()] + (chr(value) if plain else '\\x%02X' % value) + word[start + m.end():]

def past(t, i, ends):
    """The first place from i on, outside brackets, with one of these tokens."""
    while t.word(i) not in ends:
        i = t.partner.get(i, i) + 1
    return i

def functions(t):
    """Each public function that promises something: its name, its parameters' types, its result's, and its body's tokens. A
    constant counts as one."""
    for i, token in enumerate(t.tokens):
        if token.text == 'const':
            yield t.word(i + 1), {}, '', past(t, i, '=') + 1, past(t, i, ';')
        if token.text != 'fn' or 'pub' not in (t.word(i - 1), t.word(i - 3) if t.word(i - 2) == 'extern' else ''):
            continue
        opened, j, promises = past(t, i, '('), past(t, i, ('requires', 'ensures', 'ghost', '{', ';')), False
        parts = t.split(opened + 1, t.partner[opened], lambda w: w == ',')
        result = t.word(t.partner[opened] + 2) if t.word(t.partner[opened] + 1) == '->' else ''
        while t.word(j) in ('requires', 'ensures', 'ghost'):
            promises, j = promises or t.word(j) == 'ensures', t.partner[past(t, j + 1, '{')] + 1  # a clause may have a name
        if promises:
            parameters = {t.word(lo): t.part(lo + 2, hi) for lo, hi in parts if lo < hi}
            yield t.word(i + 1), parameters, result, j + 1, t.partner[j]

def is_value(word):
    return re.match(r'[\w)\]]', word) and word not in 'return if while match in else let mut as'.split()

def is_unit(t, i):
    """A variant that holds nothing stands at i."""
    return re.fullmatch(r'[A-Z]\w*::[A-Z]\w*', ''.join(map(t.word, range(i, i + 3)))) and t.word(i + 3) not in ('(', '{')

def code_changes(t, result, lo, hi):
    units = dict.fromkeys(t.part(i, i + 3) for i in range(lo, hi) if is_unit(t, i))
    for i in range(lo, hi):
        word = t.word(i)
        if word[0].isdigit():
            yield t.put(i, i + 1, next_number(word))
        elif word.startswith(('b"', "b'")):
            yield from (t.put(i, i + 1, new) for new in next_letters(word))
        elif word in CODE_TURNED and (word.isalpha() or is_value(t.word(i - 1))):
            yield t.put(i, i + 1, CODE_TURNED[word])
        elif word == '!':
            yield t.put(i, i + 2, t.word(i + 1))
        elif is_unit(t, i) and t.word(i + 3) != '=>':  # no pattern
            others = [u for u in units if u.startswith(word + '::') and u != t.part(i, i + 3)]
            yield from (t.put(i, i + 3, u) for u in others[:1])
        elif word.isidentifier() and is_value(word) and result in NUMBERS + ['bool']:  # a name that is given back
            if (t.word(i - 1), t.word(i + 1)) == ('return', ';') or (i == hi - 1 and t.word(i - 1) in (';', '}', '{')):
                yield t.put(i, i + 1, '!' + word if result == 'bool' else '0')

def operand_changes(t, parameters, lo, hi):
    """Each operand by each other one: for a function that the rules above hardly touch."""
    found = []
    for i in range(lo, hi):
        end = i + 1
        while t.word(end) == '.' and end + 1 < hi:
            end += 2
        before = t.word(i - 1)
        if re.match('[a-z]', t.word(i)) and before in '= : ( , ; { } return'.split() and t.word(end) in ') , ; } as'.split():
            literal = any(a < i < b and t.word(a) == '{' and t.word(a - 1)[:1].isupper() for a, b in t.partner.items())
            short = literal and before in ('{', ',') and end == i + 1  # a field and its value by one name
            found.append((i, end, t.word(i) + ': ' if short else ''))
    for i, end, field in found:
        old = t.part(i, end)
        made = [t.part(a, b) for a, b, _ in found if a < i and t.part(a, b) not in parameters]  # so they stand already
        for new in dict.fromkeys([*parameters, *made, '0']):
            types = {parameters.get(old, 'any'), 'usize' if new == '0' else parameters.get(new, 'any')} - {'any'}
            if new != old and (len(types) < 2 or (new == '0' and types <= set(NUMBERS))):
                yield t.put(i, end, field + new)

def argument_changes(t, lo, hi):
    for i in range(lo, hi):
        name = t.word(i - 1)
        if t.word(i) == '(' and re.match('[A-Za-z_]', name) and is_value(name) and not SYMMETRIC.fullmatch(name):
            yield from t.swaps(t.split(i + 1, t.partner[i], lambda w: w == ','))

def definitions(t):
    """Each clause of a definition, and each record that states a promise: its name and its tokens."""
    starts = [i for i, token in enumerate(t.tokens) if token.start == 0 or t.text[token.start - 1] == '\n']
    for i, end in zip(starts, starts[1:] + [len(t.tokens)]):
        words = [t.word(k) for k in range(i, end)]
        if words[:2] == ['pub', 'record']:
            yield words[2], i + words.index('where') + 1, end
        elif words[0] not in ('use', 'pub', 'abbrev', 'unfoldable') and '=' in words:
            yield words[0], i + words.index('=') + 1, end

def atoms(t, lo, hi):
    """The parts of an application: a name, a bracket; a projection belongs to what stands before it."""
    parts, i = [], lo
    while i < hi:
        end = t.partner.get(i, i) + 1
        while end < hi and t.word(end).startswith('.'):
            end += 1
        parts, i = parts + [(i, end)], end
    return parts

def spec_changes(t, lo, hi):
    for i in range(lo, hi):
        word = t.word(i)
        if re.fullmatch(r'0x[0-9A-Fa-f]+|\d+', word):
            yield t.put(i, i + 1, next_number(word))
        elif word.startswith('"'):
            yield from (t.put(i, i + 1, new) for new in next_letters(word))
        elif word in SPEC_TURNED:
            yield t.put(i, i + 1, SPEC_TURNED[word])
        elif word == 'suc' and t.partner.get(i - 1) == i + 2:
            yield t.put(i - 1, i + 3, t.word(i + 1))
        elif word == '{':  # the values of a record's fields
            fields = t.split(i + 1, t.partner[i], lambda w: w == ';')
            yield from t.swaps([(a + 2, b) for a, b in fields if t.word(a + 1) == '='])
    for a, b in [(lo, hi)] + [(a + 1, b) for a, b in t.partner.items() if lo <= a < hi]:
        parts = t.split(a, b, SPEC_BREAK.fullmatch)
        for pair in zip(parts, parts[1:]):  # neighbours in a written-out list; the last part is its end
            if t.word(pair[0][1]) == t.word(pair[1][1]) == '∷' and pair[1][1] < b:
                yield from t.swaps(pair)
        for part in parts:
            if not SYMMETRIC.fullmatch(t.word(part[0])):  # the test of a `cond` is none of its branches
                yield from t.swaps(atoms(t, *part)[2 if t.word(part[0]) == 'cond' else 1:])

def file_changes(path):
    """The changes of one file by place: the function's or the definition's name, where, the old text and the new."""
    found = []
    if path.suffix == '.rt':
        t = Text(path.read_text(), CODE)
        for name, parameters, result, lo, hi in functions(t):
            own = list(code_changes(t, result, lo, hi))
            own += operand_changes(t, parameters, lo, hi) if len(own) < 2 else []
            found += [(name, *c) for c in own + list(argument_changes(t, lo, hi))]
    else:
        t = Text(path.read_text(), SPEC)
        clauses = list(definitions(t))
        for k, (name, lo, hi) in enumerate(clauses):
            results = [c[1:] for c in clauses[k:k + 2] if c[0] == name]  # of two constructors
            found += [(name, *c) for c in [*spec_changes(t, lo, hi), *t.swaps(results)]]
    return sorted(dict.fromkeys(found), key=lambda c: c[1:])

def all_changes():
    paths = [p for p in sorted(ROOT.glob('crates/*/src/*.rt')) if p.parts[-3] not in PRINTING]
    paths += [p for crate in RULES for p in sorted(ROOT.glob('crates/%s/specs/*.antt' % crate))]
    found = [(path, c) for path in paths for c in file_changes(path)]
    return [Change(n, path.relative_to(ROOT), name, path.read_text().count('\n', 0, start) + 1, start, old, new)
            for n, (path, (name, start, old, new)) in enumerate(found, 1)]
