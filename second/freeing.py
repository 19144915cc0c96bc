"""Streams for L12: in every state a tablet leaves half a line behind and sends the three lines that free it, and then an order of its own.

What they must lead to is put together here by the rule, and not recorded from a run: the first of the three is 1 or 2, the second 3 or 8, the third
is accepted, and the order that follows is answered as on a bench that is Idle with the same store.
"""
FORM = ['FS"F"', 'Q160,24', 'ZT', 'V00,5,N,"Name:"', 'A10,10,0,3,1,1,N,V00', 'FE']
NONE = b'Form Information:\nNo Form Stored\n'
NAMES = b'Form Information:\nF\n'
WAITING = (0, 1, 255, 256, 400)  # bytes of the line that was not finished
LIMIT = 255  # behind more of them the first line is too long

# how a state is reached where F is stored, and the refusals on the way
STATES = {
    'Idle': ([], {}),
    'Collecting': (['FS"G"', 'Q160,24'], {}),
    'Collecting a spoiled form': (['FS"G"', 'B'], {'B': 4}),
    'Open': (['FR"F"'], {}),
    'Answering': (['FR"F"', '?'], {}),
    'Ready': (['FR"F"', '?', 'Mia'], {}),
}
PRINTING = {'Printing': (['FR"F"', '?', 'Mia', 'P2'], {})}  # one tablet's sets are taken at once, so only a class waits there


def label(name):
    """A print set of the form."""
    return f'N\nQ160,24\nZT\nA10,10,0,3,1,1,N,"{name}"\nP1,1\n'.encode()


def three_lines(state, waiting):
    """The three lines behind some bytes that wait, and how they are answered: a refusal, or None."""
    kept = waiting.replace('\r', '').replace('\x1a', '')
    return [waiting + '\x01', 'FE', 'N'], [1 if len(kept) > LIMIT else 2, 8 if state.startswith('Collecting') else 3, None]


def halves():
    """Half a line of each length, and one of bytes that are dropped."""
    for size in WAITING:
        yield f'{size} bytes waiting', 'N' + 'x' * (size - 1) if size else ''
    yield '300 CRs waiting', '\r' * 300


def cases():
    """Each case for one tablet: its name, its input and what it must lead to. The listing at its start is said before half a line comes."""
    for state, (way, refusals) in STATES.items():
        for name, waiting in halves():
            before = ['FI'] + FORM + way
            sent, answers = three_lines(state, waiting)
            answers = [refusals.get(line) for line in before] + answers
            said = ''.join(f'{number} {answer}\n' for number, answer in enumerate(answers, 1) if answer)
            text = '\n'.join(before + sent + ['FI', 'FR"F"', '?', 'Ben', 'P1', ''])
            yield f'{state}, {name}', text.encode(), (0, NONE + NAMES + label('Ben'), said.encode())


def ok(tablet, left=0, said=b''):
    """The record of an accepted line or take."""
    return f'ok {tablet} {left} {len(said)}\n'.encode() + said


def no(refusal):
    """The record of a refused one."""
    return f'no {refusal}\n'.encode()


def class_case(name, steps):
    """A case of lines with their records, each from a tablet, or a take."""
    text = ''.join(line + '\n' if tablet is None else f'{tablet} {line}\n' for tablet, line, _ in steps)
    return name, text.encode(), (0, b''.join(record for *_, record in steps), b'')


def class_cases():
    """Each case for a class: tablet 17 is freed while 16, which was served last, has a set left and 18 is asked for an answer. Then all three print, and the turn
    goes on from 16: to 17, 18 and 16."""
    begin = [(16, 'FI', ok(16, 0, NONE))] + [(16, line, ok(16)) for line in FORM + ['FR"F"', '?', 'Eva']]
    begin += [(16, 'P2', ok(16, 2)), (None, 'take', ok(16, 1, label('Eva')))] + [(18, line, ok(18)) for line in ('FR"F"', '?')]
    end = [(17, 'FI', ok(17, 0, NAMES)), (18, 'Ida', ok(18)), (18, 'P1', ok(18, 1))]
    end += [(17, line, ok(17)) for line in ('FR"F"', '?', 'Ben')] + [(17, 'P1', ok(17, 1))]
    end += [(None, 'take', ok(17, 0, label('Ben'))), (None, 'take', ok(18, 0, label('Ida'))), (None, 'take', ok(16, 0, label('Eva'))), (None, 'take', no(16))]
    for state, (way, refusals) in {**STATES, **PRINTING}.items():
        reached = [(17, line, no(refusals[line]) if line in refusals else ok(17, 2 if line == 'P2' else 0)) for line in way]
        for name, waiting in halves():
            freed = [(17, line, no(refusal) if refusal else ok(17)) for line, refusal in zip(*three_lines(state, waiting))]
            yield class_case(f'{state}, {name}', begin + reached + freed + end)
    # half an input line is ended by 01H too, before the three lines: here it names no tablet, and then one that is asked for an answer, which is over by that
    freed = [(17, '\x01', no(2)), (17, 'FE', no(3)), (17, 'N', ok(17))]
    yield class_case('half an input line', [(None, '1\x01', no(18))] + freed + [(17, 'FI', ok(17, 0, NONE))])
    asked = [(18, line, ok(18)) for line in FORM + ['FR"F"', '?']]
    yield class_case('half an input line of another', asked + [(18, 'Ida\x01', no(2))] + freed + [(18, 'FI', ok(18, 0, NAMES))])
    # a take between the three lines is the tablet's own while it prints, and there is no more to be taken behind them
    yield class_case('a take between', [(17, line, ok(17)) for line in FORM + ['FR"F"', '?', 'Mia']] + [
        (17, 'P2', ok(17, 2)), (17, '\x01', no(2)), (None, 'take', ok(17, 1, label('Mia'))), (17, 'FE', no(3)), (17, 'N', ok(17)), (None, 'take', no(16))])
