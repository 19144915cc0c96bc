#!/usr/bin/env python3
"""Spells the repository's own definitions, fields, constructors and lemmas in snake case, and its types in camel case.

    tools/port_names.py        once, at the top, behind port.py and before any edit by hand

It turns the names that stand declared in specs/ and in proofs/*.antt, wherever code or a clause has them, and in comments where they stand in
backticks. What a function's own proof folder declares stays, and so does the first name behind a dot there unless a record of the repository has
such a field: these are Rattle's names of goals and steps. Where two names would fall together, MEET has another for the lemma.
"""

import os
import re

ROOT = os.path.dirname(os.path.dirname(os.path.realpath(__file__)))
WORD = re.compile(r'[^\s(){}.;,@"«»`]+')
DECLARED = re.compile(r'^( *)(?:(?:unfoldable|abbrev|private) )*(?:pub )?([^\s(){}.;,@"«»:]+)(?: \{[^{}\n]*\}| \([^()\n]*\))* :(?= |$)', re.M)
MEET = {
    'in-range': 'define_in_range',
    'others-collect': 'collects_beside',
    'four-at': 'four_at_written',
    'holds_at': 'held_is_holding',
    'held-open': 'held_stays_open',
    'content-shown': 'content_is_shown',
    'plans-of': 'plans_are',
    'set-of': 'set_needed',
    'answers-in': 'answers_are_in',
    'after-takes': 'after_takes_it',
    'line-number': 'line_by_number',
    'two_digits': 'two_digits_written',
    'not-now': 'not_now_sound',
    'ends_set': 'ends_the_set',
    'same-value': 'same_value_equal',
    'text_in': 'text_is_in_range',
    'pieces-show': 'pieces_are_shown',
    'name-line': 'name_line_written',
    'content-text': 'content_is_text',
    'content-sound': 'content_is_sound',
    'name_in': 'name_in_sends',
    'more-digits': 'more_digits_quotes',
    'after-set': 'after_set_sound',
    'another-below': 'another_below_beside',
    'with-held': 'held_numbered',
    'or-else': 'either_reads',
    'content-held': 'content_is_held',
    'texts-of': 'texts_are',
    'first-line': 'first_line_ends',
    'decimal-within': 'decimal_is_within',
    'form-at': 'form_at_place',
}
# with-held is an abbreviation in printing and a lemma in tablets.
BY_CRATE = {('printing', 'with-held'): 'holding_held', ('call', 'with-held'): 'holding_held', ('tablets', 'with-held'): 'held_numbered'}

# What the paper's words for bytes passed on of the library's.
PRELUDE = set('ℕ zero suc ◌+◌ ◌-◌ ◌*◌ ◌/◌ ◌%◌ ◌^◌ ◌≤◌ ◌<◌ Bool true false ◌||◌ ◌&&◌ not List [] ◌∷◌ ◌++◌ map length drop replicate take ltb eqb leb ◌≡◌'.split())


def snake(name):
    return re.sub(r"(?<=[a-z0-9'])[A-Z]", lambda m: '_' + m[0].lower(), name).replace('-', '_')


def files():
    for folder, dirs, names in os.walk(os.path.join(ROOT, 'crates')):
        dirs[:] = sorted(d for d in dirs if d != 'out')
        for name in sorted(names):
            if name.endswith(('.antt', '.rt', '.edit')):
                yield os.path.join(folder, name)


def within(path):
    """The steps of a path below crates/, and whether it is a function's own proof file."""
    steps = os.path.relpath(path, os.path.join(ROOT, 'crates')).split(os.sep)
    return steps, steps[1] == 'proofs' and len(steps) > 3


def declared():
    names, fields = set(), set()
    for path in files():
        if path.endswith('.antt') and not within(path)[1]:
            for m in DECLARED.finditer(open(path, encoding='utf8').read()):
                (fields if m[1] else names).add(m[2])
            names |= set(re.findall(r'^(?:pub )?ruleset (\S+) =', open(path, encoding='utf8').read(), re.M))
    turn = {n: snake(n) for n in names | fields if re.match('[a-z]', n)}
    turn |= {n: re.sub('-([a-z])', lambda m: m[1].upper(), n) for n in names if re.match('[A-Z]', n)}
    turn |= MEET
    return {a: b for a, b in turn.items() if a != b}, fields


def turned(text, turn, fields, own, meet):
    """Words of code that are no names behind a dot of a step."""
    def word(m):
        name = m[0]
        new = meet.get(name) or turn.get(name)
        if new is None:
            return name
        if '_' in name and (text[:m.start()].endswith('.') or text[m.end():m.end() + 1] == '.'):
            return name  # a step of a module's path or of a proof, which is named after a function
        before = text[:m.start()]
        if own and before.endswith('.') and name not in fields:
            head = WORD.findall(before[:-1].split('\n')[-1])
            chain = re.search(r'([^\s(){};,@"«»]+)\.$', before.split('\n')[-1])
            first = chain[1].split('.')[0] if chain else (head[-1] if head else '')
            if not re.match('[A-Z]', first):
                return name
        return new
    return WORD.sub(word, text)


def spans(comment, turn):
    return re.sub('`([^`\n]+)`', lambda m: '`' + WORD.sub(lambda w: w[0] if '_' in w[0] else turn.get(w[0], w[0]), m[1]) + '`', comment)


def split(text, mark):
    """Pieces of a text: code and comments in turn."""
    out, at = [], 0
    for m in re.finditer(r'(?<![^\s(){}.;,@"«»])%s[^\n]*' % mark, text):
        out += [text[at:m.start()], m[0]]
        at = m.end()
    return out + [text[at:]]


def main():
    turn, fields = declared()
    for path in files():
        steps, own = within(path)
        meet = {a: b for (crate, a), b in BY_CRATE.items() if crate == steps[0]}
        old = open(path, encoding='utf8').read()
        if path.endswith('.antt'):
            pieces = split(old, '--')
            new = ''.join(spans(p, turn) if i % 2 else turned(p, turn, fields, own, meet) for i, p in enumerate(pieces))
        elif path.endswith('.rt'):
            pieces = split(old, '//')
            new = ''.join(spans(p, turn) if i % 2 else clauses(p, turn, fields, meet) for i, p in enumerate(pieces))
        else:
            new = clauses(old, turn, fields, meet)
        if steps[0] != 'streams':  # it has the library's choice
            new = operators(new, path)
        if new != old:
            open(path, 'w', encoding='utf8').write(new)


def operators(text, path):
    """The choice of the paper is `when a then b else c`, since `if` is the library's; and what is the library's comes from the library."""
    own = path.endswith('.antt')
    pieces = split(text, '--' if own else '//')
    for i in range(0, len(pieces), 2):
        code = pieces[i].replace('if◌then◌else◌', 'when◌then◌else◌')
        if own:
            code = re.sub(r'(?<![^\s(){}.;,@"«»])if(?![^\s(){}.;,@"«»])', 'when', code)
        pieces[i] = re.sub(r'^use Rattle\.paper\.specs\.Byte\.\{([^}]*)\}$', imported, code, flags=re.M)
    text = ''.join(pieces)
    return text.replace('pub use Rattle.std.specs.Prelude.', 'use Rattle.std.specs.Prelude.') if path.endswith('paper/specs/Byte.antt') else text


def imported(m):
    names = m[1].split(', ')
    theirs = [n for n in names if n in PRELUDE]
    ours = [n for n in names if n not in PRELUDE]
    lines = ['use Rattle.std.specs.Prelude.{%s}' % ', '.join(theirs)] if theirs else []
    return '\n'.join(lines + (['use Rattle.paper.specs.Byte.{%s}' % ', '.join(ours)] if ours else []))


def clauses(text, turn, fields, meet):
    """What clauses and ghost items say: Rust has no word with a dash or with a capital behind a small letter, but for type names."""
    keep = {'or_else', 'two_digits', 'name_in', 'text_in', 'holds_at', 'ends_set'}  # words of Rust too, and no clause cites these lemmas
    return turned(text, {a: b for a, b in turn.items() if a not in keep}, fields, False, meet)


if __name__ == '__main__':
    main()
