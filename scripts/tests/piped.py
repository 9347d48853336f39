#!/usr/bin/env python3
"""Links what is made by chance with rvld_piped, which reads its inputs while it loads them, and with rvld, and compares how they end.

Usage: scripts/tests/piped.py [RVLD] [RVLD_PIPED] [--count 5000] [--seed 1] [--workers 3] [--limit 60] [--only K]
       scripts/tests/piped.py [RVLD] [RVLD_PIPED] --times [--runs 5] [--small]

Link K is made from the seed and K alone (scripts/fuzz/chance_links.py); every third has files that were altered, and every tenth a name that is no
file. rvld links the files. rvld_piped gets them in three ways in turn: as files; as FIFOs; and as slow FIFOs, into which a few bytes come at a time,
with pauses. It has one, three or 64 parsers in turn, and at each seventh link a limit on the threads that can be made, at each eleventh one on its
memory. It has to end by itself within the limit of time, with rvld's status, line, words, executable and map. Where memory is limited it may also end with
4, without a line or a file.

--times measures both programs, in turns, over many small files, few large ones, and few large ones that come slowly: the median time by the clock, and
the time of processors. --small takes a hundredth of each size, to try it.

RVLD is $RVLD where it is not named, else crates/rvld/out/rvld; RVLD_PIPED is $RVLD_PIPED, else crates/rvld_piped/out/rvld_piped. A limit on threads counts those
of one user, so it needs root, who makes up a user for each run; else it is left out.
"""
import argparse
import collections
import errno
import os
import random
import resource
import shutil
import statistics
import subprocess
import sys
import tempfile
import threading
import time

TOP = os.path.dirname(os.path.dirname(os.path.dirname(os.path.realpath(__file__))))
sys.path.insert(0, os.path.join(TOP, 'scripts'))
import speed
from fuzz.chance_links import chance_link
from fuzz.inputs import several_defects

WAYS = ('files', 'pipes', 'slow pipes')
THREADS = (1, 3, 64)
FEW_THREADS = (1, 2, 3, 5, 20)                  # a process may have
MORE_KILOBYTES = (0, 50, 100, 200, 400, 800, 2000, 20000, 100000, 600000)  # of addresses, past those that the program needs to start; a thread's stack has 8,000
FREE_USER = 61000
MADE = ('out', 'map')

End = collections.namedtuple('End', 'status line said made')


class Inputs:
    """Gives a run its inputs: as files, or by FIFOs from threads of their own."""

    def __init__(self, folder, inputs, way, chance):
        self.over = threading.Event()
        self.feeders = []
        names = [name for name, _ in inputs]
        for name, contents in inputs:
            path = os.path.join(folder, name)
            if way == 'files' or names.count(name) > 1:
                speed.write(path, contents)
                continue
            os.mkfifo(path)
            pieces, pause = [contents], 0
            if way == 'slow pipes':
                cuts = sorted(chance.randrange(len(contents) + 1) for _ in range(chance.randrange(1, 6)))
                pieces = [contents[a:b] for a, b in zip([0] + cuts, cuts + [len(contents)])]
                pause = chance.choice([0.0005, 0.002, 0.005])
            self.feeders.append(threading.Thread(target=self.feed, args=(path, pieces, pause)))
        for feeder in self.feeders:
            feeder.start()

    def feed(self, path, pieces, pause):
        while True:
            try:
                pipe = os.open(path, os.O_WRONLY | os.O_NONBLOCK)
                break
            except OSError as error:            # until it is opened to be read, as it may never be
                if error.errno != errno.ENXIO or self.over.wait(0.0005):
                    return
        os.set_blocking(pipe, True)
        try:
            for piece in pieces:
                for at in range(0, len(piece), 65536):
                    os.write(pipe, piece[at:at + 65536])
                time.sleep(pause)
        except BrokenPipeError:                 # a run that ended early
            pass
        finally:
            os.close(pipe)

    def end(self):
        self.over.set()
        for feeder in self.feeders:
            feeder.join()


def limited(user, threads, kilobytes):
    """What a child does before it runs the program."""
    def limit():
        if kilobytes:
            resource.setrlimit(resource.RLIMIT_AS, (kilobytes << 10, kilobytes << 10))
        if threads:
            os.setgroups([])
            os.setgid(user)
            os.setuid(user)
            resource.setrlimit(resource.RLIMIT_NPROC, (threads, threads))
    return limit if threads or kilobytes else None


def linked(program, words, inputs, folder, limit, way='files', chance=None, user=None, threads=None, kilobytes=None):
    """How a run of the program over these inputs ends, in a folder of its own; a status of None is one that did not come in time."""
    os.makedirs(folder)
    if threads:
        os.chown(folder, user, user)
    given = Inputs(folder, inputs, way, chance)
    try:
        run = subprocess.run([program] + words, cwd=folder, stdin=subprocess.DEVNULL, stdout=subprocess.PIPE, stderr=subprocess.PIPE, timeout=limit,
                             preexec_fn=limited(user, threads, kilobytes))
        status, line, said = run.returncode, run.stderr.decode('latin-1'), run.stdout.decode('latin-1')
    except subprocess.TimeoutExpired:
        status, line, said = None, '', ''
    finally:
        given.end()
    made = {}
    for name in MADE:
        path = os.path.join(folder, name)
        if os.path.exists(path):
            with open(path, 'rb') as file:
                made[name] = file.read()
    shutil.rmtree(folder)
    return End(status, line, said, made)


def made_by_chance(seed, k):
    """Link K: its words but for the parsers, its names, and the inputs that are there."""
    chance = random.Random('%d piped %d' % (seed, k))
    words, inputs = several_defects(chance) if k % 3 == 2 else chance_link(chance)
    at = words.index('--threads')
    words = words[:at] + words[at + 2:] + (['-s'] if k % 2 else []) + (['--Map', 'map'] if k % 5 == 0 else []) + ['-o', 'out']
    names = [name for name, _ in inputs]
    if k % 10 == 7:
        gone = chance.randrange(len(inputs))
        inputs = [one for one in inputs if one[0] != names[gone]]
    return words, names, inputs, chance


def tried(k, words, folder, user):
    """Why rvld_piped does not end link K as rvld does, or None; and what the link was, to be counted."""
    options, names, inputs, chance = made_by_chance(words.seed, k)
    way, parsers = WAYS[k % 3], THREADS[k // 3 % 3]
    threads = chance.choice(FEW_THREADS) if k % 7 == 3 and words.users else None
    kilobytes = words.least + chance.choice(MORE_KILOBYTES) if k % 11 == 5 else None
    line = options + ['--threads', str(parsers)] + names
    plain = linked(words.rvld, line, inputs, os.path.join(folder, 'plain'), words.limit)
    piped = linked(words.rvld_piped, line, inputs, os.path.join(folder, 'piped'), words.limit, way, chance, user, threads, kilobytes)
    what = [way, '%d parsers' % parsers, 'status %s' % piped.status] + ['few threads'] * bool(threads) + ['little memory'] * bool(kilobytes)
    if piped == plain and piped.status in (0, 1, 3):
        return None, what
    if kilobytes and piped == End(4, '', '', {}):
        return None, what
    limits = ' of %s threads' % threads * bool(threads) + ' of %s KB' % kilobytes * bool(kilobytes)
    return '%d: %s, %d parsers%s: status %s, %r; by rvld %s, %r%s' % (
        k, way, parsers, limits, piped.status, piped.line[:120], plain.status, plain.line[:120], '' if piped.made == plain.made else ', and other files'), what


def worker(number, words, folder, report):
    """Every link K that falls to this worker; its counts and complaints go to the file `report`."""
    os.makedirs(folder)
    counts, wrong = collections.Counter(), []
    for k in range(number, words.count, words.workers):
        why, what = tried(k, words, folder, FREE_USER + number)
        counts.update(what)
        wrong += [why] * bool(why)
    speed.write(report, repr((dict(counts), wrong)).encode())


def compared(words, work):
    """All links, by several workers; the status."""
    children = []
    for number in range(words.workers):
        child = os.fork()
        if child == 0:
            code = 1
            try:
                worker(number, words, os.path.join(work, str(number)), os.path.join(work, 'report-%d' % number))
                code = 0
            finally:
                os._exit(code)
        children.append(child)
    counts, failed = collections.Counter(), 0
    for number, child in enumerate(children):
        if os.waitstatus_to_exitcode(os.waitpid(child, 0)[1]) != 0:
            failed += 1
            print('piped: worker %d failed' % number)
            continue
        with open(os.path.join(work, 'report-%d' % number)) as file:
            own, wrong = eval(file.read())
        counts.update(own)
        failed += len(wrong)
        for complaint in wrong[:20]:
            print('piped: ' + complaint)
    print(', '.join('%s %d' % (what, n) for what, n in sorted(counts.items())))
    print('%d passed, %d failed' % (sum(counts[way] for way in WAYS) - failed, failed))
    return 1 if failed else 0


# ------------------------------------------------------------------------------------------------------------------ times

def large(folder, count):
    """Eight objects of so many functions each, in a section each."""
    place = os.path.join(folder, 'large-%d' % count)
    os.makedirs(place, exist_ok=True)
    total = 8 * count
    return [speed.write(os.path.join(place, 'l%d.o' % n), speed.led_object(n * count, (n + 1) * count, lambda k: (k + 1) % total)) for n in range(8)]


def by_pipes(paths, folder, speed_of, over):
    """The same files by FIFOs, each of which gives so many bytes a second once it is read: their names, and the threads that fill them."""
    def feed(pipe, path):
        with open(path, 'rb') as file:
            contents = file.read()
        while True:
            try:
                out = os.open(pipe, os.O_WRONLY | os.O_NONBLOCK)
                break
            except OSError:
                if over.wait(0.0005):
                    return
        os.set_blocking(out, True)
        begun = time.perf_counter()
        try:
            for at in range(0, len(contents), 65536):
                time.sleep(max(0, begun + at / speed_of - time.perf_counter()))
                os.write(out, contents[at:at + 65536])
        except BrokenPipeError:
            pass
        finally:
            os.close(out)

    pipes, feeders = [], []
    for n, path in enumerate(paths):
        pipes.append(os.path.join(folder, 'pipe%d.o' % n))
        os.mkfifo(pipes[-1])
        feeders.append(threading.Thread(target=feed, args=(pipes[-1], path)))
        feeders[-1].start()
    return pipes, feeders


def timed(program, threads, paths, folder, speed_of):
    """Seconds by the clock and of processors of one link; None where it failed."""
    over, feeders = threading.Event(), []
    if speed_of:
        paths, feeders = by_pipes(paths, folder, speed_of, over)
    out = os.path.join(folder, 'timed.out')
    begun = time.perf_counter()
    child = subprocess.Popen([program, '--threads', str(threads), '-s', '-o', out] + paths, stdin=subprocess.DEVNULL)
    _, status, usage = os.wait4(child.pid, 0)
    seconds = time.perf_counter() - begun
    child.returncode = os.waitstatus_to_exitcode(status)
    over.set()
    for feeder in feeders:
        feeder.join()
    for path in paths if speed_of else []:
        os.remove(path)
    return (seconds, usage.ru_utime + usage.ru_stime) if child.returncode == 0 else None


def measured(words, work):
    """A table of both programs."""
    part = 100 if words.small else 1
    small, few = speed.tree(work, 4000 // part), large(work, 12000 // part)
    megabytes = [sum(map(os.path.getsize, paths)) / 1e6 for paths in (small, few)]
    rows = [('%d files of %.0f KB in all %.0f MB' % (len(small), 1000 * megabytes[0] / len(small), megabytes[0]), small, None),
            ('8 files of %.1f MB' % (megabytes[1] / 8), few, None),
            ('the same by pipes, 100 MB/s', few, 100e6),
            ('the same by pipes, 20 MB/s', few, 20e6)]
    print('%-40s %7s  %-22s %-22s' % ('ms, of processors', 'threads', 'rvld', 'rvld_piped'))
    failed = 0
    for what, paths, speed_of in rows:
        for threads in (1, 4):
            times = {}
            for turn in range(words.runs + 1):  # the first only warms the files
                for name, program in (('rvld', words.rvld), ('rvld_piped', words.rvld_piped)):
                    one = timed(program, threads, paths, work, speed_of)
                    if one is None:
                        failed += 1
                    elif turn:
                        times.setdefault(name, []).append(one)
            shown = ['%.0f, %.0f' % tuple(1000 * statistics.median(column) for column in zip(*times[name])) if name in times else 'failed' for name in ('rvld', 'rvld_piped')]
            print('%-40s %7d  %-22s %-22s' % (what, threads, *shown))
    return 1 if failed else 0


def least_memory(program):
    """The kilobytes of addresses without which the program does not start, to the next hundred."""
    low, high = 0, 1 << 20
    while high - low > 100:
        middle = (low + high) // 2
        run = subprocess.run([program], stdin=subprocess.DEVNULL, stderr=subprocess.DEVNULL, preexec_fn=limited(None, None, middle))
        low, high = (low, middle) if run.returncode == 2 else (middle, high)
    return high


def can_be_another(words):
    """Whether a run may have a user of its own."""
    if os.geteuid() != 0:
        return False
    try:
        run = subprocess.run([words.rvld_piped], stdin=subprocess.DEVNULL, stderr=subprocess.DEVNULL, preexec_fn=limited(FREE_USER, 8, None))
        return run.returncode == 2
    except (OSError, subprocess.SubprocessError):
        return False


def main():
    reader = argparse.ArgumentParser(usage=__doc__)
    reader.add_argument('rvld', nargs='?', default=os.environ.get('RVLD') or os.path.join(TOP, 'crates/rvld/out/rvld'))
    reader.add_argument('rvld_piped', nargs='?', default=os.environ.get('RVLD_PIPED') or os.path.join(TOP, 'crates/rvld_piped/out/rvld_piped'))
    reader.add_argument('--count', type=int, default=5000)
    reader.add_argument('--seed', type=int, default=1)
    reader.add_argument('--workers', type=int, default=3)
    reader.add_argument('--limit', type=float, default=60, help='seconds for one run')
    reader.add_argument('--only', type=int)
    reader.add_argument('--times', action='store_true')
    reader.add_argument('--runs', type=int, default=5)
    reader.add_argument('--small', action='store_true')
    words = reader.parse_args()
    for name in ('rvld', 'rvld_piped'):
        program = getattr(words, name)
        if not os.access(program, os.X_OK):
            sys.exit('piped: no program at %s: `rt run` in crates/%s builds it' % (program, name))
        setattr(words, name, os.path.abspath(program))
    work = tempfile.mkdtemp()
    os.chmod(work, 0o755)
    try:
        if words.times:
            return measured(words, work)
        words.least, words.users = least_memory(words.rvld_piped), can_be_another(words)
        if not words.users:
            print('piped: skipped the limits on threads (they need root, and a program that others can run)')
        if words.only is not None:
            os.makedirs(os.path.join(work, 'only'))
            why, what = tried(words.only, words, os.path.join(work, 'only'), FREE_USER)
            print('%s; %s' % (', '.join(what), why or 'as by rvld'))
            return 1 if why else 0
        return compared(words, work)
    finally:
        shutil.rmtree(work)


if __name__ == '__main__':
    sys.exit(main())
