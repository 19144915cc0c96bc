#!/usr/bin/env python3
"""Makes streams of lines for the label bench.

    streams.py SEED [LINES]          one stream of about LINES lines (200)
    streams.py --class SEED [LINES]  one of a class: many tablets, and takes (400)
    streams.py --load KIND [N]       a load for measuring: reading, answering
                                     or printing, N rounds of it

A stream follows a small picture of the bench (its state, the stored forms and
their sizes), so that most lines suit the state they meet, and leans towards
the edges of document 01: full stores, longest forms, longest lines, counters
that reach their last value, and damage of every kind. The picture may be wrong
after a damaged line; it comes right by itself, and only decides what is sent.

Text is held as str with one character a byte (latin-1).
"""
import random
import sys

FORM_BYTES = 1024
FORM_LINES = 40
STORE_BYTES = 4096
STORE_FORMS = 8
LINE_BYTES = 256
LAST_X = 811
LAST_Y = 8728
TABLETS = 30
ROOM_BYTES = 10291

DROPPED = '\r\x1a'
CONTROL = [chr(b) for b in range(0x20) if chr(b) not in '\n\r\x1a']
LETTERS = 'ABCDEFGHIJKLMNOPQRSTUVWXYZ'
NAME_BYTES = LETTERS + LETTERS.lower() + '0123456789-_'
PLAIN = 'abcdefghij KLMNOP 0123456789 .,:;+-*?'
ODD = '"\\"\\\'N,C0V\x7f\x80\x9f\xa0\xc4\xe9\xff '
NAMES = ['A', 'B', 'SHELF', 'Shelf', 'T-1', 'T_1', '0', '-', 'ABCDEFGHIJKLMNOP', 'x' * 16, 'N', 'FE']


class Line:
    """A line of a form: as sent, and as the form keeps it."""

    def __init__(self, sent, normal, value=None, define=None):
        self.sent = sent
        self.normal = normal
        self.value = value    # what an A names: ('C', number) or ('V', number)
        self.define = define  # what a C or V defines: (kind, number, len, step)

    def size(self):
        return len(self.normal) + 1


class Form:
    """What the picture knows of a form that should now be stored."""

    def __init__(self, name, lines):
        self.name = name
        self.lines = lines
        self.size = sum(line.size() for line in lines)
        self.defines = [line.define for line in lines if line.define]
        self.set_size = 12 + sum(line.size() + 20 for line in lines if not line.define)


# ---- Parts of lines --------------------------------------------------------

class Parts:
    """Numbers, strings and whole lines, most of them in range."""

    def __init__(self, rng):
        self.rng = rng

    def chance(self, probability):
        return self.rng.random() < probability

    def choice(self, options):
        return self.rng.choice(options)

    def between(self, least, most):
        """A value in range, leaning to both ends."""
        if self.chance(0.4):
            return self.choice([least, most, min(least + 1, most), max(most - 1, least)])
        return self.rng.randint(least, most)

    def digits(self, value):
        """A number as sent: now and then with leading zeros."""
        text = str(value)
        if self.chance(0.15):
            text = text.zfill(self.rng.randint(1, 5))
        return text

    def bytes(self, length):
        pool = self.choice([PLAIN, PLAIN, PLAIN + ODD, ODD, '"', '\\', LETTERS])
        return ''.join(self.choice(pool) for _ in range(length))

    def quoted(self, text):
        """A string as sent: what must be escaped is, and now and then more."""
        eager = self.choice([0, 0, 0, 0.1, 1])
        return '"' + ''.join('\\' + c if c in '"\\' or self.chance(eager) else c for c in text) + '"'

    def name(self):
        if self.chance(0.75):
            return self.choice(NAMES)
        return ''.join(self.choice(NAME_BYTES) for _ in range(self.between(1, 16)))

    # Each of the following gives a Line that a form may keep.

    def numbered(self, letters, values):
        return Line(letters + ','.join(self.digits(v) for v in values),
                    letters + ','.join(str(v) for v in values))

    def Q(self):
        return self.numbered('Q', [self.between(0, LAST_Y), self.between(0, LAST_Y)])

    def Z(self):
        line = self.choice(['ZT', 'ZB'])
        return Line(line, line)

    def L(self):
        w, t = self.between(1, LAST_X + 1), self.between(1, LAST_Y + 1)
        x, y = self.between(0, LAST_X + 1 - w), self.between(0, LAST_Y + 1 - t)
        return self.numbered(self.choice(['LO', 'LE', 'LW']), [x, y, w, t])

    def X(self):
        x1, y1 = self.between(0, LAST_X - 1), self.between(0, LAST_Y - 1)
        x2, y2 = self.between(x1 + 1, LAST_X), self.between(y1 + 1, LAST_Y)
        t = self.between(1, min(x2 - x1, y2 - y1))
        return self.numbered('X', [x1, y1, t, x2, y2])

    def prompt(self):
        return self.bytes(self.choice([0, 0, 1, 5, 6, 31, 32]))

    def C(self, number, length=None, step=None):
        length = length or self.between(1, 9)
        if step is None:
            step = self.choice([0, 1, 1, 1, 2, 9, 10, 99, 9998, 9999]) * self.choice([1, -1])
        prompt = self.prompt()
        sign = '-' if step < 0 or (step == 0 and self.chance(0.5)) else '+'
        normal_sign = '-' if step < 0 else '+'
        return Line(f'C{number},{self.digits(length)},N,{sign}{self.digits(abs(step))},{self.quoted(prompt)}',
                    f'C{number},{length},N,{normal_sign}{abs(step)},{escaped(prompt)}',
                    define=('C', number, length, step))

    def V(self, number, length=None):
        length = length or self.choice([1, 2, 3, 8, 20, 98, 99])
        prompt = self.prompt()
        return Line(f'V{number:02},{self.digits(length)},N,{self.quoted(prompt)}',
                    f'V{number:02},{length},N,{escaped(prompt)}',
                    define=('V', number, length, 0))

    def A(self, string=None, value=None):
        """A text line with a string, a value or both."""
        values = [self.between(0, LAST_X), self.between(0, LAST_Y), self.between(0, 3),
                  self.between(1, 5), self.between(1, 24), self.between(1, 24)]
        head = self.numbered('A', values)
        tail = f',{self.choice("NR")},'
        sent = head.sent + tail + (self.quoted(string) if string is not None else '')
        normal = head.normal + tail + (escaped(string) if string is not None else '')
        if value:
            named = value_name(value)
            sent, normal = sent + named, normal + named
        return Line(sent, normal, value=value)

    def padded_A(self, size):
        """A shortest text line whose text and LF take the given bytes, 18 to 118."""
        line = 'A0,0,0,1,1,1,N,"' + 's' * (size - 18) + '"'
        return Line(line, line)


def escaped(text):
    return '"' + text.replace('\\', '\\\\').replace('"', '\\"') + '"'


def other_case(text):
    return ''.join(c.swapcase() if c.isascii() else c for c in text)


def value_name(value):
    kind, number = value
    return f'C{number}' if kind == 'C' else f'V{number:02}'


# ---- Forms -----------------------------------------------------------------

class Forms:
    """Lists of lines that are sound, just full, or broken in a known way."""

    def __init__(self, parts):
        self.parts = parts

    def head(self):
        return [self.parts.Q(), self.parts.Z()]

    def shortest_head(self):
        return [Line('Q0,0', 'Q0,0'), Line('ZT', 'ZT')]

    def body_line(self, defined):
        """One more line that keeps a form sound; it may add to the defined."""
        parts = self.parts
        kind = parts.choice('CVAAAAALX')
        if kind in 'CV':
            free = [n for n in range(10 if kind == 'C' else 16) if (kind, n) not in defined]
            if free:
                number = parts.choice(free)
                line = parts.C(number) if kind == 'C' else parts.V(number)
                defined[kind, number] = line.define[2]
                return line
        if kind == 'A':
            value = parts.choice(list(defined)) if defined and parts.chance(0.7) else None
            if value is None:
                return parts.A(parts.bytes(parts.choice([0, 1, 5, 20, 60, 99, 100])))
            room = 100 - defined[value]
            return parts.A(parts.choice([None, '', parts.bytes(min(5, room)), parts.bytes(room)]), value)
        return parts.L() if kind == 'L' else parts.X()

    def ordinary(self, most=12):
        defined = {}
        lines = self.head()
        size = sum(line.size() for line in lines)
        for _ in range(self.parts.rng.randint(0, most)):
            line = self.body_line(defined)
            size += line.size()
            if size > FORM_BYTES:
                break
            lines.append(line)
        return lines

    def small(self):
        lines = self.shortest_head()
        if self.parts.chance(0.2):
            lines.append(self.parts.C(self.parts.between(0, 9)))
        return lines

    def counting(self):
        """A short form with counters, some of them not shown."""
        lines = self.shortest_head()
        numbers = self.parts.rng.sample(range(10), self.parts.rng.randint(1, 3))
        for number in numbers:
            lines.append(self.parts.C(number))
            if self.parts.chance(0.7):
                lines.append(self.parts.A(self.parts.choice([None, '#']), ('C', number)))
        if self.parts.chance(0.3):
            lines.append(self.parts.V(0))
            lines.append(self.parts.A(None, ('V', 0)))
        return lines

    def of_bytes(self, size):
        """A sound form of exactly this many bytes of text, 8 or from 26."""
        lines = self.shortest_head()
        left = size - 8
        defined = {}
        while left > 118:
            line = self.body_line(defined)
            if left - line.size() < 18 or len(lines) > 25:
                line = self.parts.padded_A(min(118, left - 18))
            left -= line.size()
            lines.append(line)
        if left > 0:
            lines.append(self.parts.padded_A(left))
        return lines

    def of_lines(self, count):
        """A sound form of this many lines, none of them long."""
        lines = self.shortest_head()
        short = self.parts.choice(['LO0,0,1,1', 'X0,0,1,1,1', 'A0,0,0,1,1,1,N,""'])
        defined = 0
        while len(lines) < count:
            if defined < 10 and self.parts.chance(0.1):
                lines.append(Line(f'C{defined},1,N,+0,""', f'C{defined},1,N,+0,""', define=('C', defined, 1, 0)))
                defined += 1
            else:
                lines.append(Line(short, short))
        return lines

    def length_rule(self, total):
        """A string and a value that together come to 100 bytes, or to 101."""
        parts = self.parts
        if parts.chance(0.5):
            definition = parts.C(parts.between(0, 9))
        else:
            definition = parts.V(parts.between(0, 15), parts.choice([1, 20, 21, 99]))
        kind, number, length, _ = definition.define
        lines = self.shortest_head() + [definition]
        lines.append(parts.A(parts.bytes(min(100, total - length)), (kind, number)))
        return lines

    def unsound(self):
        """One of each way to break a rule, in an otherwise sound form."""
        parts = self.parts
        lines = self.ordinary(6)
        more = parts.rng.randint(2, len(lines))
        number, variable = parts.between(0, 9), parts.between(0, 15)
        counter = [parts.C(number), parts.A(None, ('C', number))]
        named = [parts.V(variable, 5), parts.A('x', ('V', variable))]
        free = [line for line in lines if not line.define and not line.value]
        how = parts.rng.randrange(14)
        if how == 0:
            return []
        if how == 1:
            return lines[:1]
        if how == 2:
            return lines[1:]
        if how == 3:
            return lines[:1] + lines[2:]
        if how == 4:
            return [lines[1], lines[0]] + lines[2:]
        if how == 5:
            return lines[:more] + [parts.Q()] + lines[more:]
        if how == 6:
            return lines[:more] + [parts.Z()] + lines[more:]
        if how == 7:
            return lines[:2] + counter + lines[2:] + [parts.C(number)]
        if how == 8:
            return lines[:2] + named + lines[2:] + [parts.V(variable)]
        if how == 9:
            return free + [counter[1], counter[0]]
        if how == 10:
            return free + [named[1], named[0]]
        if how == 11:
            return free + [counter[0], named[1]]
        if how == 12:
            return [counter[0]] + free
        return self.length_rule(101)


# ---- Damage ----------------------------------------------------------------

class Damage:
    """Lines that a bench refuses, nearly always."""

    def __init__(self, parts):
        self.parts = parts

    def edited(self, line):
        """One or two bytes added, lost, changed, doubled or cut off."""
        rng = self.parts.rng
        for _ in range(self.parts.choice([1, 1, 2])):
            at = rng.randint(0, len(line))
            extra = self.parts.choice([' ', ',', '"', '\\', '0', '9', '-', '+', 'A', 'N', 'V', 'C', 'a', '*',
                                       '\x80', '\xff', '\x7f', self.parts.choice(CONTROL)])
            how = rng.randrange(7)
            if how == 0:
                line = line[:at] + extra + line[at:]
            elif how == 1:
                line = line[:at] + line[at + 1:]
            elif how == 2:
                line = line[:at] + extra + line[at + 1:]
            elif how == 3:
                line = line[:at]
            elif how == 4:
                line = line + extra
            elif how == 5:
                line = line[:at] + line[max(0, at - 2):]
            else:
                line = line[:at] + other_case(line[at:])
        return line

    # A slot is a pair of functions for one part of a line: a good one, leaning
    # to the edges of its range, and one just out of range or malformed.

    def number(self, least, most):
        def good():
            return self.parts.digits(self.parts.between(least, most))

        def bad():
            good_one = str(self.parts.between(least, most))
            outside = [str(most + 1)] * 3 + [str(max(0, least - 1))] * 2 + ['99999', '100000']
            malformed = [good_one.zfill(6), '', ' ', '-1', '+1', 'A', good_one + 'A', ' ' + good_one,
                         good_one + ' ', f'"{good_one}"', good_one + ',0']
            return self.parts.choice(outside) if self.parts.chance(0.6) else self.parts.choice(malformed)
        return good, bad

    def one_of(self, good, bad):
        return (lambda: self.parts.choice(good)), (lambda: self.parts.choice(bad))

    def letter(self, good):
        return self.one_of(good, ['A', 'X', 'L', 'n', 't', '1', '', 'NN', ' ', '"N"', '@', '['])

    def string(self, most):
        def good():
            return self.parts.quoted(self.parts.bytes(self.parts.choice([0, 1, most - 1, most, most])))

        def bad():
            if self.parts.chance(0.6):
                return self.parts.quoted(self.parts.bytes(most + 1))
            return self.parts.choice(['', '"', '"\\"', '"a', 'a"', '"a"b"', '"\\', '"" ', ' ""', "''", '"",'])
        return good, bad

    def content(self):
        good_string, bad_string = self.string(100)
        good_value, bad_value = self.one_of(['C0', 'C9', 'V00', 'V15'],
                                            ['V16'] * 4 + ['C00', 'V0', 'V000'] * 2 + ['V99', 'C', 'V', 'c0', 'v00', 'N', ' C0', 'C0 '])

        def good():
            return self.parts.choice([good_string, good_value, lambda: good_string() + good_value()])()

        def bad():
            return self.parts.choice([bad_string, bad_value, lambda: good_string() + bad_value(),
                                      lambda: bad_string() + good_value(), lambda: good_value() + good_string(),
                                      lambda: good_value() + good_value()])()
        return good, bad

    def named(self):
        """A form command with a name out of range. Good names, `*` for FK
        among them, are left to the episodes, which know what comes of them."""
        letters = self.parts.choice(['FS', 'FR', 'FK'])
        names = ['', '**', 'A*', '*A', 'a b', 'x' * 17, 'ABCDEFGHIJKLMNOPQ', '\xc4', '"', '\\', '.', 'A@', '[', '`', '{', ':', '/', ',']
        return letters + self.parts.quoted(self.parts.choice(names if letters == 'FK' else names + ['*']))

    def slots(self, kind):
        """The parts of a line of this kind, with the pattern that joins them."""
        number, letter = self.number, self.letter
        if kind == 'Q':
            return 'Q{},{}', [number(0, LAST_Y), number(0, LAST_Y)]
        if kind == 'Z':
            return 'Z{}', [letter('TB')]
        if kind == 'A':
            font_good, font_bad = number(1, 5)
            font = font_good, lambda: self.parts.choice(['A', 'Z', 'a', 'AA', 'A1', '', font_bad(), font_bad()])
            return 'A{},{},{},{},{},{},{},{}', [number(0, LAST_X), number(0, LAST_Y), number(0, 3), font,
                                                number(1, 24), number(1, 24), letter('NR'), self.content()]
        if kind == 'C':
            return 'C{},{},{},{}{},{}', [self.one_of('0123456789', ['', '00', '10', 'A', ' 0']), number(1, 9), letter('N'),
                                         self.one_of('+-', ['', '+-', ' ', '*', '+ ']), number(0, 9999), self.string(32)]
        if kind == 'V':
            return 'V{},{},{},{}', [self.one_of(['00', '01', '09', '10', '15'], ['16', '16', '99', '', '0', '000', 'AA', ' 0']),
                                    number(1, 99), letter('N'), self.string(32)]
        return self.parts.choice([('P{}', [number(1, 65535)]), ('P{},{}', [number(1, 65535), number(1, 65535)])])

    def any_values(self):
        """A line of some kind with values from both sides of each edge, at most
        two of them bad. In Idle no form is started or opened by it."""
        kind = self.parts.choice('QZAAAALLXXCCVVFPP')
        if kind == 'L':
            return self.any_rectangle()
        if kind == 'X':
            return self.any_box()
        if kind == 'F':
            return self.named()
        pattern, slots = self.slots(kind)
        last = len(slots) - 1  # the string or content, which can be bad in most ways
        bad = [self.parts.choice([*range(last), last, last]) for _ in range(self.parts.choice([0, 1, 1, 1, 1, 2]))]
        return pattern.format(*[slot[1]() if i in bad else slot[0]() for i, slot in enumerate(slots)])

    def any_rectangle(self):
        """Sides that just reach the label's edge, or pass it by one."""
        parts = self.parts
        x, y = parts.between(0, LAST_X), parts.between(0, LAST_Y)
        w = LAST_X + 1 - x + parts.choice([-1, 0, 0, 0, 1])
        t = LAST_Y + 1 - y + parts.choice([-1, 0, 0, 0, 1])
        if parts.chance(0.15):
            w, t = parts.choice([(0, t), (w, 0), (99999, t), (100000, t), (1, 1)])
        return f'{parts.choice(["LO", "LE", "LW"])}{x},{y},{parts.digits(w)},{parts.digits(t)}'

    def any_box(self):
        """Corners and a thickness that just fit, or fail by one."""
        parts = self.parts
        x1, y1 = parts.between(0, LAST_X), parts.between(0, LAST_Y)
        dx, dy = parts.choice([0, 1, 2, 5, LAST_X - x1]), parts.choice([0, 1, 2, 5, LAST_Y - y1])
        x2, y2 = x1 + dx + parts.choice([0, 0, 0, 1]), y1 + dy + parts.choice([0, 0, 0, 1])
        t = max(0, min(dx, dy) + parts.choice([-1, 0, 0, 1]))
        if parts.chance(0.1):
            x2 = max(0, x1 - 1)
        return f'X{x1},{y1},{parts.digits(t)},{x2},{y2}'

    def long_line(self):
        """255, 256 or 257 bytes, with dropped ones that do not count."""
        length = self.parts.choice([255, 256, 256, 257, 257, 258, 300, 1000])
        how = self.parts.rng.randrange(5)
        if how == 0:
            line = 'N' * length
        elif how == 1:
            line = ('A0,0,0,1,1,1,N,"' + 's' * length)[:length - 1] + '"'
        elif how == 2:
            line = 'B' * (length - 1) + self.parts.choice(CONTROL)
        elif how == 3:
            line = self.parts.bytes(length)
        else:
            line = 'P' + '0' * (length - 1)
        for _ in range(self.parts.choice([0, 0, 1, 3])):
            at = self.parts.rng.randint(0, len(line))
            line = line[:at] + self.parts.choice(DROPPED) + line[at:]
        return line

    def with_control(self, line):
        at = self.parts.rng.randint(0, len(line))
        return line[:at] + self.parts.choice(CONTROL) + line[at:]

    def unknown(self):
        return self.parts.choice(['n', 'L', 'F', 'LX', 'FX', ' N', 'L O0,0,1,1', 'F E', 'fe', 'lO0,0,1,1', 'lE', 'fE', 'fI', 'Lo0,0,1,1', 'B1', 'GW', 'U', '0',
                                  '"', '*', ',', ' ', '\x7f', '\x80', '\xff', 'F"X"', 'q0,0', 'S3', 'D8', 'R0,0', 'FF', 'LS'])

    def extra_part(self):
        return self.parts.choice(['NX', 'N ', 'FEX', 'FE ', 'FI1', '?1', '? ', 'FS', 'FR', 'FK', 'FS"A', 'FR"A"B', 'FK "A"',
                                  'P', 'P,', 'P1,', 'P,1', 'P1,1,1', 'PA1', 'P0,', 'P000001', 'Q', 'Z', 'A', 'X', 'C', 'V',
                                  'LO', 'LE', 'LW', 'ZTT', 'Q1', 'Q1,2,3', 'Q 1,2', 'Q1 ,2', 'V16,1,N', 'A812,0,0,1,1,1,N'])

    def any_line(self, line):
        """Some refused line, perhaps made from the given good one."""
        how = self.parts.rng.randrange(9)
        if how < 3:
            return self.edited(line)
        if how < 5:
            return self.any_values()
        if how == 5:
            return self.long_line()
        if how == 6:
            return self.with_control(line)
        return self.unknown() if how == 7 else self.extra_part()


# ---- Streams ---------------------------------------------------------------

class Stream:
    """Episodes that each start in Idle and, but for accidents, end there."""

    def __init__(self, seed):
        self.rng = random.Random(seed)
        self.parts = Parts(self.rng)
        self.forms = Forms(self.parts)
        self.damage = Damage(self.parts)
        self.sent = []
        self.stored = []
        self.damaged = self.parts.choice([0, 0.005, 0.01, 0.03])   # of lines inside a form
        self.sprinkled = self.parts.choice([0, 0, 0.02, 0.1, 0.5])  # lines with CR or 1AH
        self.output_left = 400_000  # a stream's output stays modest
        self.many = False           # but for one large print, rarely

    def chance(self, probability):
        return self.parts.chance(probability)

    def choice(self, options):
        return self.parts.choice(options)

    def send(self, line):
        if self.chance(self.sprinkled):
            for _ in range(self.choice([1, 1, 2, 4])):
                at = self.choice([len(line), self.rng.randint(0, len(line))])
                line = line[:at] + self.choice(DROPPED) + line[at:]
        self.sent.append(line)

    def bytes_left(self):
        return STORE_BYTES - sum(form.size for form in self.stored)

    def find(self, name):
        return next((form for form in self.stored if form.name == name), None)

    def new_name(self):
        while True:
            name = self.parts.name()
            if not self.find(name):
                return name

    # -- sending and deleting forms

    def send_form(self, name, lines, sound=True):
        self.send('FS' + self.parts.quoted(name))
        if self.find(name):  # refused: the lines that follow meet an idle bench
            for line in lines[:self.rng.randint(0, 3)]:
                self.send(line.sent)
            if self.chance(0.3):
                self.send('FE')
            return
        if self.send_lines(lines):
            sound = False
        self.send('FE')
        form = Form(name, lines)
        if sound and len(self.stored) < STORE_FORMS and form.size <= self.bytes_left():
            self.stored.append(form)

    def send_lines(self, lines):
        """Sends the lines of a form; true if that should have spoiled it."""
        spoiled, size, count = False, 0, 0
        for line in lines:
            if self.chance(self.damaged):
                self.send(self.spoiling_line(line.sent))
                spoiled = True
            if self.chance(0.02):
                self.send('')
            self.send(line.sent)
            size, count = size + line.size(), count + 1
            if size > FORM_BYTES or count > FORM_LINES:
                spoiled = True
        if spoiled:
            self.after_spoiling()
        return spoiled

    def spoiling_line(self, line):
        if self.chance(0.4):
            name = self.parts.quoted(self.parts.name())
            return self.choice(['N', '?', 'FI', 'FK"*"', 'FK' + name, 'FR' + name, 'FS' + name, 'P1', 'P2,65535'])
        return self.damage.any_line(line)

    def after_spoiling(self):
        """What a spoiled form still refuses, and what it drops."""
        for _ in range(self.choice([0, 0, 1, 3])):
            self.send(self.choice([self.spoiling_line('FE '), self.parts.L().sent, self.parts.Z().sent, '', 'FEX']))

    def delete(self, name):
        self.send('FK' + self.parts.quoted(name))
        self.stored = [form for form in self.stored if form.name != name and name != '*']

    def make_room(self):
        """Deletes now and then, so that the store is neither always full nor empty."""
        if self.stored and (len(self.stored) == STORE_FORMS or self.bytes_left() < 1100) and self.chance(0.7):
            if self.chance(0.15):
                self.delete('*')
            else:
                self.delete(self.choice(self.stored).name)

    def episode_form(self):
        self.make_room()
        stored_name = self.stored and self.chance(0.12)
        name = self.choice(self.stored).name if stored_name else self.new_name()
        if self.chance(0.15):
            self.delete(name)
        kind = self.choice(['ordinary'] * 5 + ['counting'] * 3 + ['small', 'hundred', 'unsound', 'unsound', 'damaged'])
        if kind == 'unsound':
            self.send_form(name, self.forms.unsound(), sound=False)
        elif kind == 'hundred':
            total = self.choice([100, 101])
            self.send_form(name, self.forms.length_rule(total), sound=total == 100)
        elif kind == 'damaged':
            before, self.damaged = self.damaged, 0.25
            self.send_form(name, self.forms.ordinary(6))
            self.damaged = before
        else:
            self.send_form(name, getattr(self.forms, kind)())

    def episode_full_form(self):
        """A form of 1,024 bytes or 40 lines, or one more, or both at once."""
        if self.bytes_left() < FORM_BYTES:
            self.delete('*')
        name = self.new_name()
        how = self.rng.randrange(4)
        if how == 0:
            self.send_form(name, self.forms.of_bytes(self.choice([1023, 1024, 1024, 1025, 1025])))
        elif how == 1:
            lines = self.forms.of_bytes(self.choice([1024, 1025]))
            self.send_form(name, lines + [self.parts.Z() for _ in range(self.choice([0, 1]))], sound=False)
        elif how == 2:
            self.send_form(name, self.forms.of_lines(self.choice([39, 40, 40, 41, 41, 42])))
        else:
            lines = self.forms.of_lines(39)
            room = FORM_BYTES + self.choice([0, 1]) - sum(line.size() for line in lines)
            if 18 <= room <= 118:
                lines.append(self.parts.padded_A(room))
            self.send_form(name, lines)
        self.send('FI')

    def episode_full_store(self):
        """Forms that fill the store but for a byte, exactly, or by a byte too much."""
        self.delete('*')
        before, self.damaged = self.damaged, 0
        sizes = self.choice([[1024, 1024, 1024], [1024, 700, 1000, 800], [1024, 1024, 1016, 1000], [900, 900, 900, 900, 400]])
        for size in sizes:
            self.send_form(self.new_name(), self.forms.of_bytes(size))
        left = self.bytes_left()
        last = left + self.choice([-1, 0, 0, 1, 1])
        if last == 8 or 26 <= last <= FORM_BYTES:
            self.send_form(self.new_name(), self.forms.of_bytes(last))
        self.send('FI')
        if self.chance(0.7):
            self.send_form(self.new_name(), self.forms.small())
        if self.stored and self.chance(0.7):
            gone = self.choice(self.stored)
            self.delete(gone.name)
            size = gone.size + self.choice([0, 0, 1])
            if size == 8 or 26 <= size <= FORM_BYTES:
                self.send_form(self.new_name(), self.forms.of_bytes(size))
            self.send('FI')
        self.damaged = before

    def episode_eight_forms(self):
        """Eight forms, then more: sound, unsound and spoiled ones."""
        if self.chance(0.5) or self.bytes_left() < 400:
            self.delete('*')
        before, self.damaged = self.damaged, 0
        while len(self.stored) < STORE_FORMS and self.bytes_left() > 100:
            self.send_form(self.new_name(), self.forms.small())
        self.send('FI')
        self.send_form(self.new_name(), self.forms.small())
        if self.chance(0.5):
            self.send_form(self.new_name(), self.forms.unsound(), sound=False)
        if self.chance(0.3):
            self.damaged = 0.5
            self.send_form(self.new_name(), self.forms.small(), sound=False)
            self.damaged = 0
        if self.stored and self.chance(0.7):
            self.delete(self.choice(self.stored).name)
            self.send_form(self.new_name(), self.forms.small())
            self.send('FI')
        self.damaged = before

    def episode_delete(self):
        how = self.rng.randrange(4)
        if how == 0:
            self.delete(self.new_name())
        elif how == 1 and self.stored:
            self.delete(self.choice(self.stored).name)
        elif how == 2 and self.chance(0.2):
            self.delete('*')
        self.send('FI')

    # -- lines that do not suit, or that nobody should send

    def misplaced(self, state):
        """A known command that the state does not take."""
        name = self.parts.quoted(self.parts.name())
        options = ['FE', 'Q0,0', 'ZT', self.parts.A('x').sent, self.parts.L().sent, self.parts.X().sent,
                   self.parts.C(1).sent, self.parts.V(1).sent]
        if state != 'ready':
            options += ['P1', 'P3,65535']
        if state != 'open':
            options += ['?']
        if state != 'idle':
            options += ['FI', 'FS' + name, 'FR' + name, 'FK' + name, 'FK"*"']
        return self.choice(options)

    def idle_line(self, state):
        """A line that leaves the state as it is."""
        how = self.rng.randrange(6)
        if how == 0:
            return ''
        if how < 3:
            return self.misplaced(state)
        if state == 'ready':  # a P that happens to read would print
            return self.choice([self.damage.unknown(), self.damage.long_line(), 'P', 'P0', 'P65536', 'P1,', 'P1,0', '\x01'])
        if how == 3:
            return self.damage.any_values()
        return self.damage.any_line(self.misplaced(state))

    def noise(self, state, probability=0.12):
        """A few lines that leave the state as it is."""
        while self.chance(probability):
            self.send(self.idle_line(state))

    def episode_reading(self):
        """Lines sent to an idle bench, which tell 1 to 6 apart."""
        self.send('N')  # a bench left ready would print as often as a P says
        for _ in range(self.rng.randint(5, 25)):
            how = self.rng.randrange(10)
            if how < 6:
                self.send(self.damage.any_values())
            elif how == 6:
                self.send(self.damage.any_line(self.misplaced('idle')))
            elif how == 7:
                self.send(self.choice(['', 'N', self.damage.extra_part(), self.damage.unknown()]))
            elif how == 8:
                self.send(self.misplaced('idle'))
            else:
                self.send(self.damage.edited(self.damage.any_values()))

    def episode_long_lines(self):
        for _ in range(self.rng.randint(1, 3)):
            self.send(self.damage.long_line())

    # -- answering and printing

    def fitting_answer(self, definition, sets):
        """An answer that fits; a counter's is such that about this many sets are the most."""
        kind, _, length, step = definition
        if kind == 'V':
            answer = self.parts.bytes(self.choice([0, 1, length, length, self.rng.randint(0, length)]))
            return self.choice([answer, answer, 'N', '?', ''])
        most = 10 ** length - 1
        reach = (sets - 1) * step
        how = self.rng.randrange(4)
        if how < 2:  # the last set is at the bound, or one beside it
            start = (most if step >= 0 else 0) - reach + self.choice([0, 0, 0, 1, -1])
        elif how == 2:  # a set on the way needs a digit more, or one less
            start = 10 ** self.rng.randint(0, length) - self.choice([0, 0, 1, abs(step), abs(reach)])
        else:
            start = self.rng.randint(0, most)
        digits = str(min(max(start, 0), most))
        return digits.zfill(self.choice([0, 0, length, self.rng.randint(1, length)]))

    def unfit_answer(self, definition):
        kind, _, length, _ = definition
        options = [self.damage.long_line(), self.damage.with_control('1'), self.damage.with_control('')]
        if kind == 'V':
            options += [self.parts.bytes(length + 1)] * 3
        else:
            options += ['', '', '', 'N', '1' * (length + 1), '0' * (length + 1), '-1', '+1', ' 1', '1 ', '1.', '/', ':', 'FI', '\xb2']
        return self.choice(options)

    def answer(self, form, sets):
        """Answers all questions; None if one was refused, else the counters."""
        counters = []
        for definition in form.defines:
            if self.chance(0.08):
                self.send(self.unfit_answer(definition))
                if self.chance(0.3):
                    self.send('P1')
                return None
            answer = self.fitting_answer(definition, sets)
            self.send(answer)
            if definition[0] == 'C':
                counters.append((int(answer), definition[2], definition[3]))
        return counters

    def leaves(self, counters, sets):
        return any(not 0 <= start + (sets - 1) * step <= 10 ** length - 1 for start, length, step in counters)

    def print_sets(self, form, counters, sets):
        """Prints around the given number of sets, until a P should be accepted."""
        for _ in range(4):
            count = max(1, self.choice([sets, sets, sets + 1, sets + 1, sets - 1, 1, 65535]))
            copies = self.choice([None, None, 1, 2, 65535, self.rng.randint(1, 65535)])
            refused = self.leaves(counters, count)
            cost = count * form.set_size
            if not refused and cost > self.output_left:
                count, cost = 1, form.set_size
                refused = self.leaves(counters, count)
            self.send('P' + self.parts.digits(count) + ('' if copies is None else ',' + self.parts.digits(copies)))
            if not refused:
                self.output_left -= cost
                return
            self.noise('ready', 0.05)
        self.send('N')

    def episode_print(self):
        if not self.stored and self.chance(0.9):
            self.episode_form()
        if not self.stored or self.chance(0.06):
            self.send('FR' + self.parts.quoted(self.new_name()))
            self.send('N')  # should the name be there after all
            return
        form = self.choice(self.stored)
        self.send('FR' + self.parts.quoted(form.name))
        sets = self.choice([1, 1, 2, 2, 3, 5, 9, 10, 11, 100])
        counters = []
        if form.defines:
            self.noise('open')
            if self.chance(0.05):
                self.send('N')
                return
            self.send('?')
            counters = self.answer(form, sets)
            if counters is None:
                return
        self.noise('ready')
        if self.chance(0.05):
            self.send('N')
        else:
            self.print_sets(form, counters, sets)

    def episode_many_sets(self):
        """As many sets as P can ask for, of a small form, with a counter that
        comes to its last value in the last set or one set before it."""
        if self.many:
            return
        self.many = True
        self.make_room()
        name = self.new_name()
        lines = self.forms.shortest_head()
        step = self.choice([None, 1, -1, 9999, -9999])
        if step is not None:
            lines += [self.parts.C(0, 9, step), self.parts.A(None, ('C', 0))]
        self.send_form(name, lines)
        self.send('FR' + self.parts.quoted(name))
        if step is not None:
            reach = 65534 * step
            self.send('?')
            self.send(str(10 ** 9 - 1 - reach + self.choice([0, 1]) if step > 0 else -reach - self.choice([0, 1])))
        self.send('P65535')
        self.send('N')

    def episode_come_right(self):
        """Leads to Idle from any state, should the picture be wrong."""
        self.send('\x01')
        self.send('N')
        self.send('FE')

    def run(self, lines):
        weights = {
            self.episode_form: 8, self.episode_print: 10, self.episode_reading: 4, self.episode_delete: 1.5,
            self.episode_full_form: 1, self.episode_full_store: 0.4, self.episode_eight_forms: 0.4,
            self.episode_long_lines: 1, self.episode_many_sets: 0.05, self.episode_come_right: 0.7,
        }
        favoured = self.choice(list(weights))
        if favoured not in (self.episode_many_sets, self.episode_come_right):
            weights[favoured] += 5
        episodes, shares = list(weights), list(weights.values())
        while len(self.sent) < lines:
            self.rng.choices(episodes, shares)[0]()
        text = '\n'.join(self.sent) + self.choice(['\n', '\n', '\n', '\nFI', '\nP\x00', '\n\r'])
        return text.encode('latin-1')


def stream(seed, lines=200):
    """The stream of a seed; the same one each time."""
    return Stream(seed).run(lines)


# ---- Streams of a class ----------------------------------------------------

class Session:
    """What the picture knows of a tablet. Its script gives the lines that it
    will send, and changes the picture as it gives them; None is a pause."""

    def __init__(self, tablet):
        self.tablet = tablet
        self.script = None
        self.collecting = False
        self.free()

    def free(self):
        self.form = None   # the one held open
        self.answers = {}  # to its definitions
        self.set = 0       # sets taken
        self.left = 0      # and still to be taken
        self.copies = 1

    def shown(self, definition):
        """A value as the next set shows it."""
        kind, number, _, step = definition
        answer = self.answers[kind, number]
        return escaped(answer)[1:-1] if kind == 'V' else str(int(answer) + self.set * step).zfill(len(answer))

    def set_size(self):
        """The bytes of the next set."""
        values = {definition[:2]: len(self.shown(definition)) for definition in self.form.defines}
        size = len(f'N\nP1,{self.copies}\n')
        for line in self.form.lines:
            if line.define:
                continue
            size += line.size()
            if line.value:
                named = value_name(line.value)
                alone = not line.normal.endswith('"' + named)
                size += values[line.value] - len(named) + (2 if alone else 0)
        return size


class ClassStream(Stream):
    """Tablets that each follow a script, a line at a time, with takes between."""

    KINDS = {  # how often each script is begun
        'mixed': {'form': 6, 'print': 10, 'delete': 3, 'full': 0.5, 'read': 2, 'come_right': 1},
        'printing': {'form': 2, 'print': 20, 'delete': 1, 'come_right': 0.5},
        'collecting': {'form': 15, 'print': 3, 'delete': 4, 'come_right': 1},
        'deleting': {'form': 6, 'print': 8, 'delete': 12, 'come_right': 0.5},
        'full': {'full': 8, 'form': 3, 'print': 4, 'delete': 2, 'come_right': 1},
    }

    def __init__(self, seed, kind=None):
        super().__init__(seed)
        drawn = self.choice(list(self.KINDS))
        self.kind = kind or drawn
        self.sessions = {tablet: Session(tablet) for tablet in self.some_tablets()}
        self.last_served = TABLETS - 1
        self.current = self.choice(list(self.sessions))
        self.steady = self.choice([0, 0.5, 0.9])  # the same tablet goes on
        self.short = self.choice([0, 0.05, 0.3])  # takes that name their room
        self.strange = self.choice([0, 0.02, 0.1])  # lines of no tablet

    def some_tablets(self):
        """1 to 30 of them, in many streams next to each other around the end."""
        count = self.choice([1, 2, 2, 3, 3, 5, 8, 15, 29, 30, 30])
        if self.chance(0.5):
            return self.rng.sample(range(TABLETS), count)
        first = self.rng.randint(TABLETS - count, TABLETS)
        return [(first + i) % TABLETS for i in range(count)]

    # -- the picture

    def drafting(self):
        return any(own.collecting for own in self.sessions.values())

    def is_held(self, form):
        return any(own.form is form for own in self.sessions.values())

    def in_turn(self):
        for i in range(1, TABLETS + 1):
            own = self.sessions.get((self.last_served + i) % TABLETS)
            if own and own.left:
                return own
        return None

    # -- scripts: what a tablet sends from Idle to Idle

    def collect(self, own, name, lines, sound=True):
        """A form from FS to FE; the tablet may stop on the way."""
        refused = self.find(name) or self.drafting()
        if not refused:
            own.collecting, self.draft = True, name
        yield 'FS' + self.parts.quoted(name)
        if refused:
            for line in lines[:self.choice([0, 0, 0, 1, 3])]:
                yield line.sent
            return
        stop = self.rng.randint(0, len(lines)) if self.chance(0.06) else None
        size = 0
        for count, line in enumerate(lines, 1):
            if count == stop:
                return
            if self.chance(self.damaged):
                sound = False
                yield self.spoiling_line(line.sent)
            if self.chance(0.02):
                yield self.choice(['', None])
            size += line.size()
            if size > FORM_BYTES or count > FORM_LINES:
                sound = False
            yield line.sent
        own.collecting = False
        form = Form(name, lines)
        if sound and len(self.stored) < STORE_FORMS and form.size <= self.bytes_left():
            self.stored.append(form)
        yield 'FE'

    def kill(self, name):
        """The line that deletes, and what comes of it in the picture."""
        if name != '*':
            self.stored = [form for form in self.stored if form.name != name or self.is_held(form)]
        elif not any(own.form for own in self.sessions.values()):
            self.stored = []
        return 'FK' + self.parts.quoted(name)

    def script_form(self, own):
        if len(self.stored) == STORE_FORMS or self.bytes_left() < 600 or self.chance(0.1):
            free = [form.name for form in self.stored if not self.is_held(form)]
            yield self.kill(self.choice(free + ['*']))
        stored_name = self.stored and self.chance(0.15)
        name = self.choice(self.stored).name if stored_name else self.new_name()
        kind = self.choice(['ordinary'] * 3 + ['counting'] * 4 + ['small', 'hundred', 'unsound', 'unsound'])
        if kind == 'unsound':
            yield from self.collect(own, name, self.forms.unsound(), sound=False)
        elif kind == 'hundred':
            total = self.choice([100, 101])
            yield from self.collect(own, name, self.forms.length_rule(total), sound=total == 100)
        elif kind == 'ordinary':
            yield from self.collect(own, name, self.forms.ordinary(self.choice([3, 6, 12])))
        else:
            yield from self.collect(own, name, getattr(self.forms, kind)())

    def script_full(self, own):
        """Forms that are full or one byte or line too much, or that fill the store."""
        how = self.rng.randrange(3)
        if how == 0:
            lines = self.forms.of_bytes(self.choice([1023, 1024, 1025])) if self.chance(0.5) else \
                self.forms.of_lines(self.choice([39, 40, 41, 42]))
            yield from self.collect(own, self.new_name(), lines)
        while how == 1 and self.bytes_left() >= 26 and len(self.stored) < STORE_FORMS:
            left = self.bytes_left()
            size = 1000 if left > 1100 else min(FORM_BYTES, left + self.choice([-1, 0, 0, 1]))
            yield from self.collect(own, self.new_name(), self.forms.of_bytes(max(26, size)))
            if own.collecting or self.drafting() or self.chance(0.2):
                return
        while how == 2 and len(self.stored) <= STORE_FORMS:
            lines = self.forms.small() if len(self.stored) < STORE_FORMS else self.forms.ordinary()
            yield from self.collect(own, self.new_name(), lines)
            if own.collecting or self.drafting() or self.chance(0.15):
                return
        yield 'FI'

    def script_delete(self, own):
        """A form that is held, one that is not, one that is not there or is being collected, or all."""
        held = [form.name for form in self.stored if self.is_held(form)]
        free = [form.name for form in self.stored if not self.is_held(form)]
        names = [self.choice(held)] * 3 if held else []
        names += [self.choice(free)] * 2 if free else []
        names += [self.new_name(), '*']
        names += [self.draft] * 2 if self.drafting() else []
        name = self.choice(names)
        yield self.kill(name)
        if self.chance(0.5):
            yield 'FI'
        elif name != '*' and not self.find(name) and self.chance(0.3):
            yield 'FR' + self.parts.quoted(name)

    def disturbed(self, state):
        while self.chance(0.08):
            yield self.choice([None, self.idle_line(state)])

    def script_print(self, own):
        if not self.stored and self.drafting() and self.chance(0.95):
            return
        if not self.stored and self.chance(0.9):
            yield from self.script_form(own)
            return
        if not self.stored or self.chance(0.04):
            yield 'FR' + self.parts.quoted(self.new_name())
            return
        own.form = form = self.choice(self.stored)
        sets = self.choice([1, 1, 2, 2, 3, 5, 10, 30])
        yield 'FR' + self.parts.quoted(form.name)
        if form.defines:
            yield from self.disturbed('open')
            if self.chance(0.04):
                own.free()
                yield 'N'
                return
            yield '?'
            for definition in form.defines:
                if self.chance(0.04):
                    own.free()
                    yield self.unfit_answer(definition)
                    return
                answer = self.fitting_answer(definition, sets)
                own.answers[definition[:2]] = answer
                yield answer
        yield from self.disturbed('ready')
        yield from self.print_all(own, sets)

    def print_all(self, own, sets):
        """P until one should be accepted, and then a wait for the printer."""
        counters = [(int(own.answers['C', number]), length, step) for kind, number, length, step in own.form.defines if kind == 'C']
        for _ in range(4):
            count = max(1, self.choice([sets, sets, sets, sets + 1, sets - 1, 1, 65535]))
            copies = self.choice([None, None, 1, 2, 65535])
            accepted = not self.leaves(counters, count)
            if accepted:
                own.left, own.copies = count, copies or 1
            yield 'P' + self.parts.digits(count) + ('' if copies is None else ',' + self.parts.digits(copies))
            if accepted:
                break
        while own.left:
            if self.chance(0.005 if own.left < 50 else 0.1):
                break
            yield self.idle_line('printing') if self.chance(0.05) else None
        if own.form:
            own.free()
            yield 'N'

    def script_read(self, own):
        for _ in range(self.rng.randint(1, 6)):
            yield self.damage.any_values() if self.chance(0.6) else self.idle_line('idle')

    def script_come_right(self, own):
        """Leads to Idle from any state, also where a script has stopped."""
        while own.collecting and self.chance(0.8):
            yield None if self.chance(0.9) else self.parts.L().sent
        yield '\x01'
        own.collecting = False
        yield 'FE'
        own.free()
        yield 'N'

    # -- lines of no tablet, and takes

    def no_tablet(self):
        """A tablet over 29 with a line that would do something, or no call at all."""
        line = self.choice(['N', 'FE', 'FI', 'FK"*"', '?', 'P1', 'FS"A"', 'FR"A"', '', '\x01', self.damage.long_line(), self.damage.any_values()])
        if self.chance(0.5):
            return self.choice(['30', '30', '31', '00030', '39', '60', '99', '100', '256', '65535', '65536', '99999']) + ' ' + line
        tablet = str(self.current)
        return self.choice([line, ' ' + line, tablet, tablet + line, tablet + '\t' + line, tablet + ',' + line, ' ' + tablet + ' ' + line,
                            '-1 ' + line, '+' + tablet + ' ' + line, tablet.zfill(6) + ' ' + line, '100000 ' + line, '0x1 ' + line,
                            tablet + '. ' + line, tablet + '\xa0' + line, '', ' ', 'take ', 'take  1', 'take 1 ', 'take -1', 'take 010291',
                            'take 100000', 'take A', 'take,1', 'take\t1', 'taken', 'Take', 'TAKE', ' take', 'tak', 'take take', '0take', 'take1',
                            'take ' + '0' * 300, '0' * 300])

    def take(self):
        own = self.in_turn()
        size = own.set_size() if own else self.rng.randint(0, 300)
        room = None
        if self.chance(self.short):
            room = self.choice([size, size, size - 1, size - 1, size + 1, 0, 1, 255, 256, ROOM_BYTES - 1, ROOM_BYTES, 65535, 99999])
            room = max(0, room)
        if own and (room is None or room >= size):
            self.last_served = own.tablet
            own.set, own.left = own.set + 1, own.left - 1
            if own.left == 0:
                own.free()
        self.send('take' if room is None else 'take ' + self.parts.digits(room))

    # -- all together

    def next_line(self, own):
        """The next line of a tablet's script; None is a pause."""
        if own.script is None:
            shares = self.KINDS[self.kind]
            name = 'come_right' if own.collecting or own.form else self.rng.choices(list(shares), list(shares.values()))[0]
            if name in ('form', 'full') and self.drafting() and self.chance(0.8):
                if len(self.stored) < STORE_FORMS or self.chance(0.8):
                    return None  # mostly a tablet waits until it may collect
                name = 'delete'  # and now and then makes room for the one who does
            own.script = getattr(self, 'script_' + name)(own)
        for line in own.script:
            return line
        own.script = None
        return None

    def step(self, takes):
        if not self.in_turn():
            takes *= 0.05
        if self.chance(takes):
            self.take()
        elif self.chance(self.strange):
            self.send(self.no_tablet())
        else:
            if not self.chance(self.steady):
                self.current = self.choice(list(self.sessions))
            own = self.sessions[self.current]
            line = self.next_line(own)
            if line is not None:
                self.send(self.parts.digits(own.tablet) + ' ' + line)
            elif self.chance(takes):
                self.take()

    def run(self, lines):
        while len(self.sent) < lines:
            takes = self.choice([0, 0.02, 0.02, 0.1, 0.3, 0.9])
            for _ in range(self.rng.randint(10, 60 + 6 * len(self.sessions))):
                self.step(takes)
        text = '\n'.join(self.sent) + self.choice(['\n', '\n', '\n', '\n0 FI', '\ntake', '\n\r'])
        return text.encode('latin-1')


def class_stream(seed, lines=400, kind=None):
    """The stream of a class that a seed gives; its kind may be set."""
    return ClassStream(seed, kind).run(lines)


# ---- Loads -----------------------------------------------------------------

def load_form(name, lines):
    return f'FS"{name}"\n' + '\n'.join(lines) + '\nFE\n'


def load_reading(rounds):
    """Forms sent and deleted again, with all kinds of lines."""
    lines = ['Q160,24', 'ZT', 'V00,20,N,"Pupil:"', 'V01,30,N,"Class:"', 'C0,3,N,+1,"First:"', 'C1,6,N,-10,"Last:"']
    for i in range(6):
        lines += [f'A50,{30 + 20 * i},0,3,1,1,N,"Name: "V00', f'A050,{40 + 20 * i},0,3,1,1,N,C0',
                  f'LO50,{110 + i},400,3', f'X10,{10 + i},2,800,{150 + i}', f'A0,{i},1,2,2,2,R,"say \\"{i}\\""V01']
    round_ = load_form('ONE', lines) + load_form('TWO', lines[:20]) + 'FI\nFK"ONE"\nFK"TWO"\n'
    return round_ * rounds


def load_answering(rounds):
    """A form opened, answered and printed as a single set each time."""
    lines = ['Q160,24', 'ZT', 'V00,20,N,"Pupil:"', 'V01,30,N,"Class:"', 'C0,3,N,+1,"First:"', 'A50,30,0,3,1,1,N,"Name: "V00',
             'A50,50,0,3,1,1,N,"Class: "V01', 'A50,70,0,3,1,1,N,C0', 'LO50,110,400,3', 'X10,10,2,800,150']
    round_ = 'FR"SHELF"\n?\nMia "M"\n4b, room 12\n09\nP1\n'
    return load_form('SHELF', lines) + round_ * rounds


def load_printing(rounds):
    """5,000 sets of a form of 20 lines each time."""
    lines = ['Q160,24', 'ZT', 'V00,20,N,"Pupil:"', 'C0,5,N,+1,"First:"']
    for i in range(5):
        lines += [f'A50,{30 + 20 * i},0,3,1,1,N,"Name: "V00', f'A50,{40 + 20 * i},0,3,1,1,N,"No. "C0', f'LO50,{110 + i},400,3']
    lines.append('X10,10,2,800,150')
    return load_form('SHELF', lines) + 'FR"SHELF"\n?\nMia "M"\n00001\nP5000\n' * rounds


LOADS = {'reading': (load_reading, 60000), 'answering': (load_answering, 1500000), 'printing': (load_printing, 400)}


def main(arguments):
    if len(arguments) >= 2 and arguments[0] == '--load' and arguments[1] in LOADS:
        make, rounds = LOADS[arguments[1]]
        text = make(int(arguments[2]) if len(arguments) > 2 else rounds).encode('latin-1')
    elif len(arguments) >= 2 and arguments[0] == '--class' and arguments[1].isdigit():
        text = class_stream(*[int(number) for number in arguments[1:3]])
    elif arguments and arguments[0].isdigit():
        text = stream(int(arguments[0]), *[int(lines) for lines in arguments[1:2]])
    else:
        sys.exit(__doc__.split('\n\n')[1])
    sys.stdout.buffer.write(text)


if __name__ == '__main__':
    main(sys.argv[1:])
