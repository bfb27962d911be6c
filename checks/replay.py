"""What the program makes of records, by `replay` and by `image`: those of the examples, rows, and records that are cut or changed at each byte."""
import os
import pathlib
import re
import resource
import subprocess
import sys
import tempfile
from concurrent.futures import ThreadPoolExecutor

TOP = pathlib.Path(__file__).resolve().parent.parent
PROGRAM = os.path.abspath(sys.argv[1])
EARLIER = b'of an earlier run\n'

# Small records: one that prints, one of a fork that makes another, and one with lines that are refused.
SMALL = ['first', 'lesson_forks', 'refusals']

failures = []
cases = 0


def fail(name, what):
    failures.append(name)
    print(f'replay.py: FAILED: {name}: {what}', file=sys.stderr)


def run(words, record=b'', **streams):
    """The exit status of the program and what it writes to its standard streams, in a folder with an earlier record, which it has to leave."""
    with tempfile.TemporaryDirectory() as folder:
        earlier = pathlib.Path(folder, 'tenex.record')
        earlier.write_bytes(EARLIER)
        given = {'input': record} if 'stdin' not in streams else {}
        given |= {'stdout': subprocess.PIPE, 'stderr': subprocess.PIPE} | streams
        done = subprocess.run([PROGRAM, *words], cwd=folder, check=False, **given)
        if sorted(os.listdir(folder)) != ['tenex.record'] or earlier.read_bytes() != EARLIER:
            fail(words, 'a file was made or changed')
    return done.returncode, done.stdout, done.stderr


def ends(name, wanted, words, record=b'', said=b'', **streams):
    """The program ends with this status and this standard output, and standard error begins so, or is empty."""
    global cases
    cases += 1
    status, out, err = run(words, record, **streams)
    if (status, out or b'') != wanted:
        fail(name, f'{(status, out)}, wanted {wanted}')
    if not err.startswith(said) or (not said and err):
        fail(name, f'standard error is {err}, wanted {said}')


def text_of(path):
    return path.read_bytes()


def options(script):
    """How many pages of the drum the words of an example ask for, as options of a replay."""
    words = script.with_suffix('.words')
    found = re.search(r'--drum[ =](\d+)', words.read_text()) if words.exists() else None
    return ['--drum', found[1]] if found else []


def number(out, at, size):
    """A number of an image, its highest byte first. Of bytes that aren't there it is none."""
    if at + size > len(out):
        raise ValueError(f'it ends within the number at byte {at}')
    return int.from_bytes(out[at:at + size], 'big')


def page_at(out, at, before):
    """The number of the page at this place of an image, which has to be above the one before, and whose words have 36 bits."""
    page = number(out, at, 2)
    if not before < page < 512:
        raise ValueError(f'a page {page} is behind page {before}')
    for word in range(512):
        if number(out, at + 2 + 8 * word, 8) >> 36:
            raise ValueError(f'word {word} of page {page} has more than 36 bits')
    return page


def files_of(out):
    """The names of an image's files. It has to be well formed: files in the order of their names, pages in that of their numbers, no byte left."""
    names, at = [], 12
    if out[:8] != b'TENEXIM1' or number(out, 8, 4) > 512:
        raise ValueError('the header')
    for _ in range(number(out, 8, 4)):
        size = number(out, at, 1)
        name = out[at + 1:at + 1 + size]
        at += 1 + size
        bits, length, pages = number(out, at, 1), number(out, at + 1, 8), number(out, at + 9, 2)
        at += 11
        if not re.fullmatch(rb'<[A-Z0-9-]{1,12}>[A-Z0-9-]+\.[A-Z0-9-]*', name) or size > 39 or (names and name <= names[-1]):
            raise ValueError(f'the name {name} behind {names[-1:]}')
        if not 1 <= bits <= 36 or length > 36 // bits << 18 or pages > 512:
            raise ValueError(f'the head of {name}: {bits} bits, {length} bytes, {pages} pages')
        page = -1
        for _ in range(pages):
            page = page_at(out, at, page)
            at += 4098
        names.append(name)
    if at != len(out):
        raise ValueError(f'{len(out) - at} bytes are left')
    return names


def files_in(name, out):
    """The names of the files of what has to be an image. Where it is none, it fails."""
    try:
        return files_of(out)
    except ValueError as why:
        fail(name, f'no image of files: {why}')
        return []


def image_of(name, words, record):
    """What the image of a record is, which has to end well."""
    global cases
    cases += 1
    status, out, err = run(words, record)
    if status or err:
        fail(f'the image of {name}', f'{(status, err)}')
    else:
        files_in(f'the image of {name}', out)
    return out


def image_rows():
    """Records whose image is known, byte by byte."""
    header = b'TENEXIM1' + bytes(3)
    word = bytes(7) + b'\1'
    head = b'\6<A>B.C' + b'\x24' + word + b'\0\1'
    one = header + b'\1' + head + bytes(2) + word + bytes(511 * 8)
    refused = b'LOGIN 0 A\nWORDS <A>B.C 0 0 1\nU 0 1 1\n'
    forked = b'tenex: that entry of the record is a unit of a fork that can'
    rows = [
        (b'', (0, header + b'\0'), b''),
        (b'E 0 0\n', (0, header + b'\0'), b''),
        (b'FILE <A>B.C\nWORDS <A>B.C 0 0 1\nE 0 0\n', (0, one), b''),
        (b'V 2 256\nFILE <A>B.C\nWORDS <A>B.C 0 0 1\n', (0, one), b''),
        (b'FILE <A>B.C\n', (0, header + b'\1' + b'\6<A>B.C' + b'\x24' + bytes(10)), b''),
        (b'LOGIN 0 A\nU 0 1 1\n', (8, b'?ILLEGAL 2\n'), forked),
        (refused, (8, b'?ILLEGAL 3\n'), forked),
        (b'FILE <A>B.C\nWORDS <A>B.C 0 0 1\nRUN 1\n', (2, b'?LINE 3\n'), b'tenex: docs/MACHINE.md has the lines of a record'),
    ]
    if len(one) != 4128:
        fail('the row of one page', f'it has {len(one)} bytes')
    for record, wanted, said in rows:
        ends(f'the image of {record}', wanted, ['image'], record, said)


def replay_examples():
    scripts = sorted(TOP.glob('examples/*.script')) + sorted(TOP.glob('examples/*/*.script'))
    if len(scripts) < 100:
        fail('the examples', f'there are only {len(scripts)}')

    def one(script):
        record = text_of(script.with_suffix('.record'))
        transcript = text_of(script.with_suffix('.transcript'))
        name = str(script.relative_to(TOP))
        ends(name, (0, transcript), ['replay', *options(script)], record)
        # A record of the second version tells the drum, and the option has no effect.
        pages = (options(script) or ['', '2048'])[1]
        second = f'V 2 {pages}\n'.encode() + record
        ends(f'{name}, as version 2', (0, transcript), ['replay', '--drum=256'], second)
        image = image_of(name, ['image', *options(script)], record)
        ends(f'the image of {name}, as version 2', (0, image), ['image', '--drum=256'], second)
        return len(image) > 12

    with ThreadPoolExecutor(4) as workers:
        with_files = sum(workers.map(one, scripts))
    if with_files < 10:
        fail('the examples', f'only {with_files} leave a file')


def replay_big():
    """The record of a generated run replays to its transcript, without the line of counts."""
    with tempfile.TemporaryDirectory() as folder:
        done = subprocess.run([PROGRAM, 'big', '7'], cwd=folder, check=True, capture_output=True)
        record = pathlib.Path(folder, 'tenex.record').read_bytes()
    transcript = done.stdout[:done.stdout.rindex(b'S ')]
    ends('big 7', (0, transcript), ['replay'], record)


def replay_rows():
    first = text_of(TOP / 'examples/first.record')
    help_of = b'tenex: docs/MACHINE.md has the lines of a record'
    forked = b'tenex: that entry of the record is a unit of a fork that can'
    rows = [
        (b'', (0, b''), b''),
        (b'E 0 0\n', (0, b''), b''),
        (b'V 2 2048\nLOGIN 0 A\nU 0 1 1\n', (8, b'T0 @\n?ILLEGAL 2\n'), forked),
        (b'V 2 2048\nLOGIN 0 A\nI 7\nU 0 1 1\n', (8, b'T0 @\n?ILLEGAL 9\n'), forked),
        (b'U 0 1 1\n', (8, b'?ILLEGAL 1\n'), forked),
        # The fork halts in its third unit, so the fourth is the ninth entry.
        (first.replace(b'U 0 1 3\n', b'U 0 1 4\n'), (8, b'T0 @A\\015\\012\nT0 @\n?ILLEGAL 9\n'), forked),
        (first.replace(b'U 0 1 3\n', b'U 0 2 3\n'), (8, b'T0 @\n?ILLEGAL 6\n'), forked),
        (first.replace(b'U 0 1 3\n', b'I 5\nU 0 1 3\n'), (0, b'T0 @A\\015\\012\nT0 @\n'), b''),
        (b'LOGIN 0 A\nRUN 1\n', (2, b'T0 @\n?LINE 2\n'), help_of),
        (b'LOGIN 0 A\nU 0 1 1\nU 0 1 1\n', (8, b'T0 @\n?ILLEGAL 2\n'), forked),
        (b'LOGIN 0 A\nTICK', (2, b'T0 @\n?LINE 2\n'), help_of),
        (b'LOGIN 0 A\n\n', (2, b'T0 @\n?LINE 2\n'), help_of),
        (b'V 2 255\n', (2, b'?LINE 1\n'), help_of),
        (b'V 2 16385\n', (2, b'?LINE 1\n'), help_of),
        (b'E 0 0\nTICK\n', (2, b'?LINE 2\n'), help_of),
    ]
    for record, wanted, said in rows:
        ends(f'the record {record}', wanted, ['replay'], record, said)


def replay_lesson():
    """What the lesson says of the record that one edits."""
    record = text_of(TOP / 'examples/lesson_forks.record')
    transcript = text_of(TOP / 'examples/lesson_forks.transcript')
    shown = transcript[:transcript.index(b'T0 C\n')]
    forked = b'tenex: that entry of the record is a unit of a fork that can'
    turn = b'U 0 3 6\n'
    ends('a waiting fork', (8, shown + b'?ILLEGAL 33\n'), ['replay'], record.replace(turn, b'U 0 1 1\n' + turn), forked)
    ends('a fork that has halted', (8, shown + b'T0 C\n?ILLEGAL 39\n'), ['replay'], record.replace(turn, b'U 0 3 7\n'), forked)
    ends('an idle entry', (0, transcript), ['replay'], record.replace(turn, b'I 1000\n' + turn))
    saved = record.replace(b'U 0 1 1\nU 0 2 1\nFORKS 0\nU 0 2 3\nU 0 1 4\n', b'U 0 2 4\nU 0 1 4\n')
    fewer = transcript.replace(b'F 0 1 0 FORK PC 000103\nF 0 2 1 RUN PC 000204\nF 0 3 2 HALT PC 000305\n', b'')
    ends('a better scheduler', (0, fewer), ['replay'], saved)


def replay_words():
    usage = b'usage: tenex run [--frames N] [--drum N]'
    for words in [[''], ['7'], ['0'], ['--frames', '160'], ['--frames=160'], ['--drum'], ['--drum', '255'], ['--drum=16385'],
                  ['--drum', '256', '--drum', '256'], ['--'], ['--help'], ['help'], ['replay'], ['image'], ['-d', '256'], ['--drum', '0000000256']]:
        for command in ['replay', 'image']:
            ends(f'the words {words} of {command}', (1, b'?USAGE\n'), [command, *words], b'E 0 0\n', usage)
    for words in [['--drum', '256'], ['--drum=256'], ['--drum', '16384'], ['--drum=000000256']]:
        ends(f'the words {words}', (0, b''), ['replay', *words], b'E 0 0\n')
        ends(f'the words {words} of image', (0, b'TENEXIM1' + bytes(4)), ['image', *words], b'E 0 0\n')


def replay_streams():
    first = text_of(TOP / 'examples/first.record')
    few = (40_000 * 1024, 40_000 * 1024)
    for command in ['replay', 'image']:
        folder = os.open('/', os.O_RDONLY)
        ends(f'{command}: a record that cannot be read', (5, b'?READ\n'), [command], said=b'tenex: standard input: ', stdin=folder)
        os.close(folder)
        with open('/dev/full', 'wb') as full:
            ends(f'{command}: a text that cannot be written', (6, b''), [command], first, said=b'tenex: standard output: ', stdout=full)
            ends(f'{command}: a usage that cannot be written', (6, b''), [command, '7'], first, said=b'tenex: standard output: ', stdout=full)
            ends(f'{command}: a reason that cannot be written', (6, b''), [command], b'TICK', said=b'tenex: standard output: ', stdout=full)
        ends(f'{command}: no memory', (4, b'?MEMORY\n'), [command, '--drum', '16384'], first, said=b'tenex: there is no memory',
             preexec_fn=lambda: resource.setrlimit(resource.RLIMIT_AS, few))


def is_front(out, transcript):
    """What was written is a front of the transcript, and where a line of characters was open there it is closed."""
    return transcript.startswith(out) or (out.endswith(b'\n') and transcript.startswith(out[:-1]))


def same_end(name, words, record, status, line):
    """The image of a record ends as its replay does: with the same status, and the image alone or this line alone."""
    global cases
    cases += 1
    ended, out, _ = run(['image', *words], record)
    if ended != status or (status and out != line):
        fail(f'the image of {name}', f'{(ended, out)}, wanted {(status, line)}')
    elif not status:
        files_in(f'the image of {name}', out)


def cut(name, record, transcript, length):
    """A record that is cut is whole where a line ends there, and else its last line is bad. The text of what was played is handed back."""
    global cases
    cases += 1
    words = options(TOP / f'examples/{name}.script')
    status, out, _ = run(['replay', *words], record[:length])
    line = b''
    if length and record[length - 1] != 10:
        line = b'?LINE %d\n' % (record[:length].count(b'\n') + 1)
    shown = out[:len(out) - len(line)]
    if status != (2 if line else 0) or not out.endswith(line) or not is_front(shown, transcript):
        fail(f'{name} cut after {length} bytes', f'{(status, out)}, wanted a front of the transcript and then {line}')
    same_end(f'{name} cut after {length} bytes', words, record[:length], status, line)
    return shown


def change(name, record, shown, at, byte):
    """A record in which one byte is another has a named end. What is shown begins with what the lines before that one show."""
    global cases
    cases += 1
    changed = record[:at] + bytes([byte]) + record[at + 1:]
    words = options(TOP / f'examples/{name}.script')
    status, out, _ = run(['replay', *words], changed)
    ends_so = {0: rb'', 2: rb'\?LINE (\d+)\n', 8: rb'\?ILLEGAL (\d+)\n'}.get(status)
    found = re.search(ends_so + rb'\Z', out) if ends_so is not None else None
    number = record[:at].count(b'\n') + 1
    before = shown[number - 1]
    if not found or not (out.startswith(before) or out.startswith(before[:-1])):
        fail(f'{name} with byte {at} changed to {byte}', f'{(status, out)}, wanted a named end behind {before}')
    elif status == 2 and int(found[1]) < number:
        fail(f'{name} with byte {at} changed to {byte}', f'a line before is bad: {out}')
    elif status == 2 and int(found[1]) == number and out != before + found[0]:
        fail(f'{name} with byte {at} changed to {byte}', f'{out}, wanted {before + found[0]}')
    same_end(f'{name} with byte {at} changed to {byte}', words, changed, status, found[0] if found else b'')


def cut_and_change():
    with ThreadPoolExecutor(4) as workers:
        for name in SMALL:
            record = text_of(TOP / f'examples/{name}.record')
            transcript = text_of(TOP / f'examples/{name}.transcript')
            fronts = list(workers.map(lambda n: cut(name, record, transcript, n), range(len(record) + 1)))
            shown = [fronts[n] for n in range(len(record)) if n == 0 or record[n - 1] == 10]
            others = [(at, record[at] ^ bit) for at in range(len(record)) for bit in (1, 0x10, 0x80)]
            list(workers.map(lambda other: change(name, record, shown, *other), others))


replay_examples()
replay_big()
replay_rows()
image_rows()
replay_lesson()
replay_words()
replay_streams()
cut_and_change()
if failures:
    sys.exit(f'replay.py: {len(failures)} failures in {cases} cases')
print(f'replay.py: {cases} cases passed')
