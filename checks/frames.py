"""Frames, drum and scheduler a second time, as docs/MACHINE.md has them ("Who runs next", "Core and drum"), for programs of a few
instructions: which forks run, unit by unit, and how often the drum is read and written. The program's records are compared with it, byte
by byte, for generated scripts and for examples. It shares nothing with the program but that document.

frames.py PROGRAM: compares. Status 1: something differs, and each difference was printed.
"""
import heapq
import os
import subprocess
import sys
import tempfile

QUANTUM, UNHELD, PER_MEMBER, FOR_CONSOLE, CONSOLE = 200, 32, 128, 16, 'console'
FRAME = 'frame'  # what who waits for any frame waits for; who waits for a page waits for its home


class Need(Exception):
    pass


class Core:
    """Which page, by its home, is in which frame; what is queued, oldest first; what is held for whom."""

    def __init__(self, frames):
        self.frames = frames
        self.free = list(range(frames))
        self.home, self.age, self.moving = {}, {}, {}  # by frame
        self.at = {}  # by home
        self.queue, self.held, self.pins = [], {}, {}
        self.uses = self.reads = self.writes = 0
        self.rescued = 0

    def is_there(self, home):
        return home in self.at and self.moving.get(self.at[home]) != 'read'

    def take(self, home):
        frame = heapq.heappop(self.free)
        self.home[frame], self.at[home] = home, frame
        return frame

    def use(self, home):
        frame = self.at[home]
        self.age[frame] = self.uses
        self.uses += 1
        if self.moving.get(frame) == 'write':
            del self.moving[frame]
            self.queue.remove(frame)
            self.rescued += 1

    def make(self, home):
        self.take(home)
        self.use(home)

    def evict(self, frame):
        home = self.home.get(frame)
        if home is not None and not self.pins.get(home) and frame not in self.moving:
            self.moving[frame] = 'write'
            self.queue.append(frame)

    def send_off(self):
        oldest = [(self.age[f], f) for f, home in self.home.items() if not self.pins.get(home) and f not in self.moving]
        if oldest:
            self.evict(min(oldest)[1])

    def fetch(self, need):
        if need == FRAME or need not in self.at and not self.free:
            self.send_off()
            return FRAME
        if need not in self.at:
            frame = self.take(need)
            self.moving[frame] = 'read'
            self.queue.append(frame)
        return need

    def complete(self):
        """Ends the oldest transfer, and tells what it was for. None: nothing is queued."""
        if not self.queue:
            return None
        frame = self.queue.pop(0)
        home = self.home[frame]
        if self.moving.pop(frame) == 'read':
            self.reads += 1
            self.use(home)
            return home
        self.writes += 1
        del self.home[frame], self.at[home], self.age[frame]
        heapq.heappush(self.free, frame)
        return FRAME

    def keep(self, holder, home):
        most = FOR_CONSOLE if holder == CONSOLE else PER_MEMBER
        if len(self.held.get(holder, [])) == most:
            self.let_go(holder)
        mine = self.held.setdefault(holder, [])
        if home not in mine:
            mine.append(home)
            self.pins[home] = self.pins.get(home, 0) + 1

    def let_go(self, holder):
        for home in self.held.pop(holder, []):
            self.pins[home] -= 1


class Fork:
    def __init__(self, home):
        self.map, self.pages, self.ac, self.pc = home, {}, [0] * 16, 0


class Machine:
    def __init__(self, frames):
        self.core, self.set = Core(frames), (frames - UNHELD) // PER_MEMBER
        self.forks, self.words, self.homes, self.files = {}, {}, 0, {}
        self.ready, self.outside, self.members, self.waiting = [], [], [], []
        self.run_since, self.auto, self.steps = 0, True, []

    # The lists.

    def admit(self):
        while self.outside and len(self.members) < self.set:
            fork = self.outside.pop(0)
            self.members.append(fork)
            self.ready.append(fork)

    def wake(self, done):
        self.ready += [fork for fork, need in self.waiting if need in (FRAME, done)]
        self.waiting = [(fork, need) for fork, need in self.waiting if need not in (FRAME, done)]

    def tell(self):
        while self.core.rescued:
            self.core.rescued -= 1
            self.wake(FRAME)

    def complete(self, console=None):
        done = self.core.complete()
        if done is not None and done != FRAME:
            for fork, need in self.waiting:
                if need == done:
                    self.core.keep(fork, done)
            if console == done:
                self.core.keep(CONSOLE, done)
        if done is not None:
            self.wake(done)
        return done

    def leave(self, fork):
        self.ready.remove(fork)
        self.members.remove(fork)
        self.core.let_go(fork)
        self.run_since = 0

    # Pages.

    def new_home(self):
        self.homes += 1
        self.words[self.homes] = {}
        return self.homes

    def find(self, fork, page):
        """Whether a page is there, and in a frame. Raises what is needed first to say so."""
        if not self.core.is_there(fork.map):
            raise Need(fork.map)
        if page in fork.pages and not self.core.is_there(fork.pages[page]):
            raise Need(fork.pages[page])
        return page in fork.pages

    def touch(self, fork, address):
        if address >= 16 and not self.find(fork, address // 512) and not self.core.free:
            raise Need(FRAME)

    def settle(self, fork, address):
        page = address // 512
        if address < 16:
            return
        if page in fork.pages:
            self.core.use(fork.pages[page])
        else:
            fork.pages[page] = self.new_home()
            self.core.make(fork.pages[page])
            self.core.use(fork.map)

    def word(self, fork, address):
        if address < 16:
            return fork.ac[address]
        return self.words[fork.pages[address // 512]].get(address % 512, 0) if address // 512 in fork.pages else 0

    def put(self, fork, address, word):
        if address < 16:
            fork.ac[address] = word % 2**36
        else:
            self.core.use(fork.pages[address // 512])
            self.words[fork.pages[address // 512]][address % 512] = word % 2**36

    # Units.

    def unit(self, fork):
        """Does one unit, all of it or nothing. Whether the fork halts by it."""
        self.touch(fork, fork.pc)
        word = self.word(fork, fork.pc)
        op, ac, x, y = word >> 27, word >> 23 & 15, word >> 18 & 15, word & 0o777777
        assert not word >> 22 & 1
        e = (y + (fork.ac[x] if x else 0)) & 0o777777
        a, pc, referred, stored, accumulator = fork.ac[ac], fork.pc + 1, [fork.pc], None, None
        if op in (0o200, 0o202, 0o270, 0o350):
            referred.append(e)
            self.touch(fork, e)
        m = self.word(fork, e)
        if op == 0o200:  # MOVE
            accumulator = m
        elif op == 0o201:  # MOVEI
            accumulator = e
        elif op == 0o202:  # MOVEM
            stored = (e, a)
        elif op == 0o251:  # BLT
            source, at = a >> 18, a & 0o777777
            referred += [source, at]
            self.touch(fork, source)
            self.touch(fork, at)
            stored = (at, self.word(fork, source))
            accumulator = (source + 1 & 0o777777) << 18 | at + 1 & 0o777777
            pc = fork.pc if at < e else pc
        elif op == 0o254:  # JRST
            pc = e
        elif op == 0o270:  # ADD
            accumulator = a + m
        elif op in (0o271, 0o275):  # ADDI, SUBI
            accumulator = a + e if op == 0o271 else a - e
        elif op == 0o302:  # CAIE
            pc += a == e
        elif op == 0o344:  # AOJA
            accumulator, pc = a + 1, e
        elif op == 0o350 and ac == 0:  # AOS
            stored = (e, m + 1)
        elif op == 0o367:  # SOJG
            accumulator = a - 1
            pc = e if 1 < a < 2**35 else pc
        elif op == 0o400:  # SETZ
            accumulator = 0
        else:
            assert word in (0o104000000074, 0o104000000170), f'{word:o}'  # PBOUT, HALTF
        for address in referred:
            self.settle(fork, address)
        if accumulator is not None:
            fork.ac[ac] = accumulator % 2**36
        if stored:
            self.put(fork, *stored)
        fork.pc = pc
        return word == 0o104000000170

    def did(self, step):
        if self.steps and self.steps[-1][0] == step:
            self.steps[-1][1] += 1
        else:
            self.steps.append([step, 1])

    def count(self, fork):
        """The unit is counted against the quantum of the head, which may end."""
        self.run_since += 1
        if self.run_since < QUANTUM:
            return
        self.run_since = 0
        self.ready.remove(fork)
        if self.outside:
            self.members.remove(fork)
            self.outside.append(fork)
            self.admit()
        else:
            self.ready.append(fork)
        if self.auto:
            self.complete()

    def turn(self):
        while True:
            while self.ready:
                fork = self.ready[0]
                try:
                    halts = self.unit(self.forks[fork])
                except Need as need:
                    self.waiting.append((fork, self.core.fetch(need.args[0])))
                    self.ready.remove(fork)
                    self.run_since = 0
                    continue
                self.did(f'U {fork} 1')
                self.core.let_go(fork)
                if halts:
                    self.leave(fork)
                    self.admit()
                    self.tell()
                else:
                    self.tell()
                    self.count(fork)
                return
            if not self.auto or self.complete() is None:
                self.did('I')
                return

    # Lines.

    def bring(self, deed):
        """Does a deed of the console, once what it needs is in frames."""
        while True:
            try:
                deed()
                break
            except Need as need:
                wanted = self.core.fetch(need.args[0])
                while self.complete(wanted) != wanted and wanted != FRAME:
                    pass
        self.core.let_go(CONSOLE)
        self.tell()

    def want_frame(self):
        if not self.core.free:
            raise Need(FRAME)

    def log_in(self, t):
        self.want_frame()
        self.forks[t] = Fork(self.new_home())
        self.core.make(self.forks[t].map)

    def poke(self, fork, address, word):
        self.touch(fork, address)
        self.settle(fork, address)
        self.put(fork, address, word)

    def put_words(self, page):
        if page not in self.files:
            self.want_frame()
            self.files[page] = self.new_home()
            self.core.make(self.files[page])
        elif not self.core.is_there(self.files[page]):
            raise Need(self.files[page])
        self.core.use(self.files[page])

    def start(self, t, address):
        self.forks[t].pc = address
        if t not in self.members + self.outside:
            self.outside.append(t)
            self.admit()

    def line(self, line):
        word, *fields = line.split()
        if word == 'RUN':
            for _ in range(int(fields[0])):
                self.turn()
        elif word == 'EVICT':
            self.core.evict(int(fields[0]))
        elif word == 'DRUM':
            for _ in range(int(fields[0])):
                if self.complete() is None:
                    break
        elif word == 'AUTO':
            self.auto = fields[0] == 'ON'
        else:
            if word == 'LOGIN':
                self.bring(lambda: self.log_in(fields[0]))
            elif word == 'POKE':
                self.bring(lambda: self.poke(self.forks[fields[0]], int(fields[1], 8), int(fields[2], 8)))
            elif word == 'EXAMINE' and int(fields[2], 8) >= 16:
                self.bring(lambda: self.find(self.forks[fields[0]], int(fields[2], 8) // 512))
            elif word == 'WORDS':
                self.bring(lambda: self.put_words((fields[0], fields[1])))
            elif word == 'START':
                self.start(fields[0], int(fields[1], 8))
            else:
                assert word in ('EXAMINE', 'FILE', 'FORKS', 'TICK'), line
            self.steps.append([line, 0])

    def record(self):
        lines = [f'{step} {count}' if count else step for step, count in self.steps]
        return '\n'.join([*lines, f'E {self.core.reads} {self.core.writes}', ''])


def generated(seed):
    """The events of a generated script, as docs/MACHINE.md has them."""
    x = seed

    def draw(k):
        nonlocal x
        x = (1103515245 * x + 12345) % 2**31
        return x // 65536 % k

    yield from (f'LOGIN {t} U' for t in range(8))
    yield 'FILE <BIG>OUT.BIN'
    yield from (f'WORDS <BIG>OUT.BIN {p:o} 0 {p + 1:o}' for p in range(64))
    for t in range(8):
        program = (0o350002000000, 0o270100000004, 0o367140000100, 0o201040000102, 0o104000000074, 0o104000000170)
        yield from (f'POKE {t} {0o100 + k:o} {word:o}' for k, word in enumerate(program))
        yield f'POKE {t} 2 20'
        yield f'POKE {t} 3 {300 + draw(100):o}'
        yield f'POKE {t} 4 {2048 * (2 * draw(32) + 1):o}'
        yield f'START {t} 100'
    for _ in range(40):
        yield f'EVICT {draw(160)}'
        yield 'RUN 500'
    yield 'TICK'
    yield from (f'FORKS {t}' for t in range(8))


def canonical(line):
    word, *fields = line.split(' ')
    if word != 'POKE':
        return line
    t, address, value = fields
    return f'POKE {t} {int(address, 8):o} {int(value, 8):o}'


def main():
    program, top = os.path.abspath(sys.argv[1]), os.path.dirname(os.path.dirname(os.path.abspath(__file__)))
    cases = [(f'big {seed}', frames, list(generated(seed)), ['big', str(seed)])
             for seed, sizes in ((7, (160, 161, 256, 287, 288, 416, 1024, 8192)), (8, (160, 8192)), (1972, (160, 544)))
             for frames in sizes]
    for name in ('auto_off', 'evicted_block', 'lesson_core', 'lesson_waits', 'rescued_page'):
        lines = [canonical(line) for line in open(f'{top}/examples/{name}.script').read().split('\n') if line and line[0] != ';']
        cases += [(name, frames, lines, ['run']) for frames in (160, 203, 288, 416, 8192)]
    failures = 0
    with tempfile.TemporaryDirectory() as work:
        for name, frames, lines, words in cases:
            machine = Machine(frames)
            for line in lines:
                machine.line(line)
            script = ''.join(line + '\n' for line in lines)
            ran = subprocess.run([program, *words, '--frames', str(frames)], input=script, text=True, cwd=work, capture_output=True)
            found = open(f'{work}/tenex.record').read()
            if ran.returncode or found != machine.record():
                failures += 1
                both = zip(machine.record().split('\n'), found.split('\n'))
                first = next(((n, *pair) for n, pair in enumerate(both, 1) if pair[0] != pair[1]), 'length')
                print(f'frames.py: FAILED: {name} with {frames} frames: status {ran.returncode}, first difference {first}', file=sys.stderr)
    if failures:
        sys.exit(1)
    print(f'frames.py: {len(cases)} records are as worked out')


main()
