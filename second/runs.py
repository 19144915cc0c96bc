"""Runs of a program on a stream, and what they give."""
import concurrent.futures
import os
import resource
import subprocess
import tempfile

HERE = os.path.dirname(os.path.abspath(__file__))
QUICK = os.path.join(HERE, '..', 'target', 'second', 'bench')
CHECKED = QUICK + '-checked'
SECONDS = float(os.environ.get('SECONDS_TO_WAIT', 60))
OUTPUT_BYTES = 1 << 26  # a program that writes more than any stream asks for is stopped
os.environ['ASAN_OPTIONS'] = 'detect_leaks=0'  # nothing is allocated, and looking for leaks takes seconds at each end


def limit_output():
    resource.setrlimit(resource.RLIMIT_FSIZE, (OUTPUT_BYTES, OUTPUT_BYTES))


def outcome(command, text):
    """Status, standard output and standard error of one run."""
    with tempfile.TemporaryFile() as given, tempfile.TemporaryFile() as out, tempfile.TemporaryFile() as err:
        given.write(text)
        given.seek(0)
        try:
            status = subprocess.run(command, stdin=given, stdout=out, stderr=err, timeout=SECONDS,
                                    preexec_fn=limit_output, check=False).returncode
        except subprocess.TimeoutExpired:
            status = f'no end in {SECONDS:g} s'
        out.seek(0)
        err.seek(0)
        return status, out.read(), err.read()


def on_both_cores(what, jobs, at_once=1):
    """What each job gives, in their order. Who asks for no more waits for those that run: nothing is killed in the middle of a message."""
    with concurrent.futures.ProcessPoolExecutor(2) as pool:
        try:
            yield from pool.map(what, jobs, chunksize=at_once)
        finally:
            pool.shutdown(cancel_futures=True)


def first_difference(one, other):
    ours, theirs = one.split(b'\n'), other.split(b'\n')
    for number, (a, b) in enumerate(zip(ours, theirs), 1):
        if a != b:
            return f'line {number}: {a!r} and {b!r}'
    return f'{len(ours) - 1} and {len(theirs) - 1} lines'


def records(said):
    """The records of a class, one for each line sent: the words of its first line, and the bytes behind it."""
    place, found = 0, []
    while place < len(said):
        end = said.find(b'\n', place) + 1 or len(said)
        words = said[place:end].split()
        place = end + (int(words[3]) if len(words) == 4 and words[0] == b'ok' and words[3].isdigit() else 0)
        found.append((words, said[end:place]))
    return found


def first_record(one, other):
    """The first line sent that led to two different records."""
    ours, theirs = records(one), records(other)
    for number, (a, b) in enumerate(zip(ours, theirs), 1):
        if a != b:
            return f'for line {number}: ' + ' and '.join(f'{b" ".join(words)!r} {said[:300]!r}' for words, said in (a, b))
    return f'{len(ours)} and {len(theirs)} records'


def complaint(expected, found, difference=first_difference):
    """What is wrong with a run's outcome, or None; both are a status, standard output and standard error."""
    if found[0] != expected[0]:
        return f'ended with {found[0]}, {expected[0]} expected: {found[2].decode(errors="replace")[-500:]}'
    for name, place, told in (('standard error', 2, first_difference), ('standard output', 1, difference)):
        if found[place] != expected[place]:
            return f'{name} differs, expected and found, {told(expected[place], found[place])}'
    return None


def against_second(command, text, is_class=False):
    """What differs between a program and the second one on a stream, or None, and the refusals of the second program."""
    second = outcome([CHECKED, 'class'] if is_class else [CHECKED], text)
    if second[0] != 0:
        return f'the second program fails: {second[0]}\n{second[2].decode(errors="replace")}', []
    if is_class:
        refusals = [int(words[1]) for words, _ in records(second[1]) if words[0] == b'no']
        return complaint(second, outcome(command, text), first_record), refusals
    return complaint(second, outcome(command, text)), [int(line.split()[1]) for line in second[2].splitlines()]
