#!/usr/bin/env python3
"""Draws docs/states.svg from the rows of the theorem `arrows`.

    docs/states.py            writes docs/states.svg
    docs/states.py --check    fails if docs/states.svg is not what would be written

The rows stand in crates/paper/proofs/Home.antt, where each of them is proved by
computation: an arrow that is drawn is one that the definitions take, with the
line that is written at it.
"""
import math
import os
import re
import sys
from xml.sax.saxutils import escape

HERE = os.path.dirname(os.path.abspath(__file__))
ROWS = os.path.join(HERE, '..', 'crates', 'paper', 'proofs', 'Home.antt')
PICTURE = os.path.join(HERE, 'states.svg')

WIDTH, HEIGHT = 164, 44
SPOILED = 'Collecting, spoiled'
PLACES = {SPOILED: (130, 100), 'Collecting': (520, 100), 'Idle': (320, 320), 'Open': (600, 320), 'Answering': (900, 320),
          'Ready': (900, 540), 'Printing': (520, 540)}
BENDS = {('Answering', 'Idle'): -170, ('Idle', 'Ready'): 50, ('Ready', 'Idle'): 40, ('Printing', 'Idle'): 60, (SPOILED, 'Idle'): -30,
         ('Idle', 'Collecting'): 80, ('Collecting', 'Idle'): 50, ('Idle', 'Open'): 40, ('Open', 'Idle'): 40}
# what leads along each arrow
WORDS = {
    ('Idle', 'Collecting'): 'a form begins', ('Collecting', 'Collecting'): 'a line is kept', ('Collecting', SPOILED): 'a line is refused',
    ('Collecting', 'Idle'): 'stored or refused', (SPOILED, SPOILED): 'any other line', (SPOILED, 'Idle'): 'refused: spoiled',
    ('Idle', 'Open'): 'a form that asks', ('Idle', 'Ready'): 'a form that asks for nothing', ('Open', 'Answering'): 'begin to ask',
    ('Open', 'Idle'): 'give up', ('Answering', 'Answering'): 'an answer that fits', ('Answering', 'Ready'): 'the last answer fits',
    ('Answering', 'Idle'): 'an answer that does not fit', ('Ready', 'Printing'): 'sets are due', ('Ready', 'Idle'): 'give up',
    ('Printing', 'Printing'): 'a set of several', ('Printing', 'Idle'): 'the rest is dropped, or the last set',
}
LEGEND = ('At each arrow stands what leads along it and, below, a line that does (or a take of a set), as the theorem arrows has it.',
          'In Answering every line is an answer, N too: here the form asks for a digit, so that 7 fits and x does not.')
TEXT = r'"((?:[^"\\]|\\.)*)"'


def arrows():
    """Each arrow once: from, to, and the lines that lead along it."""
    found = {}
    with open(ROWS, encoding='utf-8') as source:
        for row in source:
            kind = re.match(r'\s+(?:× )?(Arrow|Taken) ', row)
            if not kind:
                continue
            *_, said, here, there = ['a take', *(text.replace('\\"', '"') for text in re.findall(TEXT, row))]
            found.setdefault((here, there), []).append('a take' if kind[1] == 'Taken' else said)
    if found.keys() != WORDS.keys():
        sys.exit(f'words and rows differ: {sorted(found.keys() ^ WORDS.keys())}')
    return found


def edge_point(centre, toward):
    """Where the way from a box's centre toward a point leaves the box."""
    dx, dy = toward[0] - centre[0], toward[1] - centre[1]
    scale = min(WIDTH / 2 / abs(dx) if dx else math.inf, HEIGHT / 2 / abs(dy) if dy else math.inf)
    return centre[0] + dx * scale, centre[1] + dy * scale


def label(x, y, words, lines):
    return [f'<text x="{x:.0f}" y="{y - 8:.0f}" class="why">{escape(words)}</text>',
            f'<text x="{x:.0f}" y="{y + 7:.0f}" class="say">{escape(", ".join(lines))}</text>']


def loop(place, words, lines):
    x, y = place
    top = y - HEIGHT / 2
    return [f'<path d="M{x - 20} {top} C{x - 34} {top - 34} {x + 34} {top - 34} {x + 20} {top}" class="way"/>',
            *label(x, top - 39, words, lines)]


def arrow(here, there, words, lines, bend):
    middle = ((here[0] + there[0]) / 2, (here[1] + there[1]) / 2)
    dx, dy = there[0] - here[0], there[1] - here[1]
    length = math.hypot(dx, dy)
    control = (middle[0] + dy / length * bend, middle[1] - dx / length * bend)
    start, end = edge_point(here, control), edge_point(there, control)
    on_curve = ((start[0] + 2 * control[0] + end[0]) / 4, (start[1] + 2 * control[1] + end[1]) / 4)
    return [f'<path d="M{start[0]:.0f} {start[1]:.0f} Q{control[0]:.0f} {control[1]:.0f} {end[0]:.0f} {end[1]:.0f}" class="way"/>',
            *label(*on_curve, words, lines)]


def start():
    """The mark of the state that a bench begins in."""
    x, y = PLACES['Idle']
    left = x - WIDTH / 2
    return [f'<circle cx="{left - 70}" cy="{y}" r="7"/>', f'<path d="M{left - 62} {y} L{left} {y}" class="way"/>',
            f'<text x="{left - 70}" y="{y + 24}" class="why">start</text>']


def picture():
    ways, labels = start(), []
    for (here, there), lines in sorted(arrows().items()):
        words = WORDS[here, there]
        if here == there:
            way, *said = loop(PLACES[here], words, lines)
        else:
            way, *said = arrow(PLACES[here], PLACES[there], words, lines, BENDS.get((here, there), 0))
        ways.append(way)
        labels += said
    boxes = []
    for name, (x, y) in sorted(PLACES.items()):
        boxes.append(f'<rect x="{x - WIDTH / 2:.0f}" y="{y - HEIGHT / 2:.0f}" width="{WIDTH}" height="{HEIGHT}" rx="8" class="state"/>')
        boxes.append(f'<text x="{x}" y="{y + 5}" class="name">{name}</text>')
    boxes += [f'<text x="20" y="{620 + 18 * i}" class="legend">{line}</text>' for i, line in enumerate(LEGEND)]
    body = '\n'.join(ways + labels + boxes)
    return f'''<svg xmlns="http://www.w3.org/2000/svg" viewBox="0 0 1020 650" width="1020" height="650">
<style>
.state {{ fill: #eef4ee; stroke: #335533; stroke-width: 1.5 }}
.name {{ font: bold 15px sans-serif; text-anchor: middle }}
.why {{ font: 12px sans-serif; text-anchor: middle; paint-order: stroke; stroke: #ffffff; stroke-width: 4px }}
.say {{ font: 13px monospace; text-anchor: middle; paint-order: stroke; stroke: #ffffff; stroke-width: 4px }}
.legend {{ font: 13px sans-serif }}
.way {{ fill: none; stroke: #555555; stroke-width: 1.3; marker-end: url(#tip) }}
</style>
<defs><marker id="tip" viewBox="0 0 8 8" refX="8" refY="4" markerWidth="8" markerHeight="8" orient="auto"><path d="M0 0L8 4L0 8z" fill="#555555"/></marker></defs>
<rect width="1020" height="650" fill="#ffffff"/>
{body}
</svg>
'''


def main(arguments):
    drawn = picture()
    if arguments == ['--check']:
        with open(PICTURE, encoding='utf-8') as kept:
            if kept.read() != drawn:
                sys.exit('docs/states.svg is not what docs/states.py draws')
    elif not arguments:
        with open(PICTURE, 'w', encoding='utf-8') as kept:
            kept.write(drawn)
    else:
        sys.exit(__doc__.split('\n\n')[1])


if __name__ == '__main__':
    main(sys.argv[1:])
