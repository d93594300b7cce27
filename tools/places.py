"""Writes what the table of places in crates/sql_reader/src/place.rt means in specs/ and proofs/.

Run in crates/sql_reader after an edit of the table, of a keyword or of a sign; then `rt fmt`.
"""
import re

SRC = open('src/place.rt').read()
TOKENS = open('src/token.rt').read()


def variants(text, name):
    return re.findall(r'^    (\w+)(?:\([\w ]+\))?,$', re.search(r'pub enum %s \{(.*?)\n\}' % name, text, re.S).group(1), re.M)


KEYWORDS, SIGNS, PLACES = variants(TOKENS, 'Keyword'), variants(TOKENS, 'Sign'), variants(SRC, 'Place')
BODY = SRC[SRC.index('fn row_of'):SRC.index('fn is_last')]
KIND = r'Kind::Word\(Keyword::\w+\)|Kind::Sign\(Sign::\w+\)|Kind::\w+'
ROWS = {place: re.findall(r'\((%s), Place::(\w+)\)' % KIND, row)
        for place, row in re.findall(r'Place::(\w+) => &\[(.*?)\],?\n(?=        Place|    \})', BODY, re.S)}
LAST = re.findall(r'Place::(\w+)', SRC[SRC.index('fn is_last'):].split('\n}')[0])
assert set(ROWS) == set(PLACES), set(PLACES) ^ set(ROWS)


def kind(text):
    word = re.match(r'Kind::(Word|Sign)\((?:Keyword|Sign)::(\w+)\)', text)
    if word:
        return '%s %s.%s' % (word.group(1), {'Word': 'keyword', 'Sign': 'sign'}[word.group(1)], word.group(2))
    return text.replace('Kind::', '')


def row(place):
    return ' ∷ '.join(['(%s, place.%s)' % (kind(k), to) for k, to in ROWS[place]] + ['[]'])


def endings():
    """A way from each place to an end, nearest first."""
    out, done = [], []
    for p in PLACES:
        if p in LAST:
            out.append('end_%s : Ending place.%s\nend_%s = ([], refl)\n' % (p, p, p))
            done.append(p)
    while len(done) < len(PLACES):
        before = len(done)
        for p in PLACES:
            if p in done:
                continue
            for j, (k, q) in enumerate(ROWS[p]):
                if q in done:
                    at = 'inr (' * j + 'inl (refl, refl)' + ')' * j
                    out.append('end_%s : Ending place.%s\nend_%s = ((%s) ∷ end_%s.0, (place.%s, %s, end_%s.1))\n'
                               % (p, p, p, kind(k), q, q, at, q))
                    done.append(p)
                    break
        assert len(done) > before
    out.append('pub ending : (q : Place) → Ending q\n' + '\n'.join('ending place.%s = end_%s' % (p, p) for p in PLACES))
    return '\n'.join(out) + '\n'


def remainders():
    """What may follow each place, found along the table from the start of a line."""
    starts = {'LineStart': 'line', 'StatementStart': 'statement_line'}
    defs = ['abbrev e_%s : Grammar Kind\ne_%s = %s\n' % (place, place, grammar) for place, grammar in starts.items()]
    done, queue = list(starts), list(starts)
    while queue:
        q = queue.pop(0)
        for j, (_, to) in enumerate(ROWS[q]):
            if to not in done:
                done.append(to)
                queue.append(to)
                at = '(suc ' * j + 'zero' + ')' * j
                defs.append('abbrev e_%s : Grammar Kind\ne_%s = at_head %s (heads e_%s)\n' % (to, to, at, q))
    assert len(done) == len(PLACES), set(PLACES) - set(done)
    return '\n'.join(defs) + '\n'


def replace(path, pairs):
    text = open(path).read()
    for pattern, new in pairs:
        text, count = re.subn(pattern, lambda _: new, text, count=1, flags=re.S | re.M)
        assert count == 1, (path, pattern)
    open(path, 'w').write(text)


def clauses(name, items, module):
    return (r'(^%s %s\.\w+ = refl\n)+' % (name, module), ''.join('%s %s.%s = refl\n' % (name, module, i) for i in items))


replace('specs/Places.antt', [
    (r'(^row place\.\w+ = [^\n]*\n)+', ''.join('row place.%s = %s\n' % (p, row(p)) for p in PLACES)),
    (r'(^ends place\.\w+ = [^\n]*\n)+', ''.join('ends place.%s = %s\n' % (p, str(p in LAST).lower()) for p in PLACES)),
])
replace('proofs/Tokens.antt', [clauses(n, KEYWORDS, 'keyword') for n in ('all_lower', 'word_some', 'all_small')])
replace('proofs/Places.antt', [clauses(n, PLACES, 'place') for n in ('rows_separate', 'rows_follow')] + [
    (r'end_LineStart :.*?(?=-- a comment takes)', endings() + '\n')])
replace('proofs/Table.antt', [
    (r'abbrev e_LineStart.*?(?=abbrev rest :)', remainders()),
    (r'(^rest place\.\w+ = [^\n]*\n)+', ''.join('rest place.%s = e_%s\n' % (p, p) for p in PLACES)),
    clauses('rows', PLACES, 'place'), clauses('lasts', PLACES, 'place')])
