#!/usr/bin/env python3
"""Proves crates of a checkout in order, those with the longest chain above them first, several at a time, and keeps what it proves in each crate's out/.
`rt check` locks a crate and all below it, so that several checks in one checkout wait for each other, and `rt all check` has threads wait in the place of
others. This calls what `rt lib` and `rt check` call, and locks the crates alone that it proves: other commands of rt wait for these.
With rattle-kit-13f it takes what another checkout on the machine proved of the same text, and offers what is proved here. With rattle-kit-13b it does not: there
--take is for that, and no other command may work in the checkout meanwhile.

  scripts/prove.py [--lanes 4] [--large 2] [--jobs 1] [--test] [--again] [--logs FOLDER] [--skip NAME,..] [NAME ..]     these crates and all below them; without a name all
  scripts/prove.py --take FROM [NAME ..]     takes over what another checkout has proved: the libraries whose text may be the same here, and of the
                                             crates that are named what their proofs kept, so that a changed crate proves what changed alone

A crate that is proved has the line `ok` and its seconds, and FOLDER/NAME.log what the check said. With --test the test functions of each crate are checked too,
as a task of its own (NAME's log is NAME-test.log); none is run. With --again a crate that is refused is tried again as soon as its text or that of a crate below it changes,
and what was proved before a change as well; it ends when all is proved. crates.txt is read once. The status is 0 if all is proved."""
import argparse, copy, importlib.machinery, importlib.util, os, shutil, subprocess, sys, threading, time

HERE = os.path.dirname(os.path.abspath(__file__))
TOP = os.path.dirname(HERE)
# seconds of a processor, where more than a minute: docs/proving.md, "Times"
COST = dict(lk_real=170, lk_tables=180, elf_read=170, output_sections=80, layout=130, relax=200, name_numbers=250, link_sections=130, sec_graph=170, sec_gc=150, str_merge=220, icf_part=220,
            symbol_addresses=120, symbol_table=150, reloc_apply=270, elf_out=250, map_file=130, link_gen=100, link_command=120, sym_resolve=160, link_passes=400, link_driver=800, rvld=300, eh_frame=300,
            why_chain=100, link_examples=190, link_runs=100, tests_image=490, tests_link_outputs=690, tests_link_inputs=600, tests_passes=400)
# checks of 4 GB and more
LARGE = {'link_driver', 'rvld', 'rvld_piped', 'tests_image', 'tests_link_inputs', 'tests_link_outputs', 'tests_passes'}


def kit():
    """The module of `rt`, with the crates' files read as `rt` reads them."""
    folder = os.path.join(os.path.dirname(subprocess.run(['rt', 'doc'], capture_output=True, text=True, check=True).stdout.strip()), 'bin')
    sys.path.insert(0, folder)
    sys.argv = ['rt']
    loader = importlib.machinery.SourceFileLoader('rt_main', os.path.join(folder, 'rt'))
    rt = importlib.util.module_from_spec(importlib.util.spec_from_loader('rt_main', loader))
    loader.exec_module(rt)
    made = rt.rtlib.Crate.__init__

    def make(self, *given, **named):
        made(self, *given, **named)
        rt.read_files(self)
    rt.rtlib.Crate.__init__ = make
    # (rattle-kit-13b has nothing to share)
    offer = getattr(rt, 'offer', None)
    if offer:
        rt.share_work(True)
    return rt.rtlib, offer


def take(other, names):
    """What another checkout proved. A library counts only where its checksum fits, which each check looks at."""
    for name in sorted(os.listdir(os.path.join(other, 'crates'))):
        theirs, ours = (os.path.join(top, 'crates', name, 'out') for top in (other, TOP))
        parts = ['rlib'] * os.path.isfile(os.path.join(theirs, 'rlib/stamp')) + ['incremental'] * (name in names)
        for part in parts:
            if os.path.isdir(os.path.join(theirs, part)) and os.path.isdir(os.path.dirname(ours)):
                shutil.rmtree(os.path.join(ours, part), ignore_errors=True)
                shutil.copytree(os.path.join(theirs, part), os.path.join(ours, part), symlinks=True)


def main():
    reader = argparse.ArgumentParser(description=__doc__, formatter_class=argparse.RawDescriptionHelpFormatter)
    reader.add_argument('names', nargs='*')
    reader.add_argument('--lanes', type=int, default=os.cpu_count())
    reader.add_argument('--jobs', type=int, default=1, help='the most jobs of one check, where lanes are free as it starts')
    reader.add_argument('--large', type=int, default=2, help='how many checks of 4 GB and more run at a time')
    reader.add_argument('--test', action='store_true')
    reader.add_argument('--again', action='store_true')
    reader.add_argument('--logs', default=os.path.join(TOP, 'out/prove'))
    reader.add_argument('--skip', default='')
    reader.add_argument('--take')
    words = reader.parse_args()
    if words.take:
        return take(os.path.abspath(words.take), words.names)
    rtlib, offer = kit()
    os.chdir(TOP)
    os.makedirs(words.logs, exist_ok=True)
    crates = {it.name: it for it in rtlib.crates_below(TOP)}
    deps = {name: [it.name for it in crate.deps if it.name in crates] for name, crate in crates.items()}
    used = {it for each in deps.values() for it in each}
    skip = set(filter(None, words.skip.split(',')))
    strange = (set(words.names) | skip) - set(crates)
    if strange:
        sys.exit('prove: no crate ' + ', '.join(sorted(strange)))
    wanted, todo = set(), list(words.names or deps)
    while todo:
        name = todo.pop()
        if name not in wanted and name not in skip:
            wanted.add(name)
            todo += deps[name]
    # A task is a crate, or a crate's tests.
    tests = {(name, True) for name in wanted if words.test and crates[name].has_tests()}
    tasks = {(name, False) for name in wanted} | tests
    tails = {}

    def tail(name):
        if name not in tails:
            tails[name] = COST.get(name, 60) + max([tail(it) for it in wanted if name in deps[it]], default=0)
        return tails[name]

    def needs(task):
        name, is_test = task
        return {(it, False) for it in deps[name] if it in wanted} | ({(name, False)} if is_test else set())

    def text(name):
        """What changes with the text of a crate or of one below."""
        found, todo, seen = [], [name], set()
        while todo:
            it = todo.pop()
            if it in seen:
                continue
            seen.add(it)
            todo += deps[it]
            for part in ('src', 'specs', 'proofs'):
                for at, _, files in os.walk(os.path.join(crates[it].folder, part)):
                    for file in files:
                        try:
                            stat = os.stat(os.path.join(at, file))
                            found.append((at, file, stat.st_mtime_ns, stat.st_size))
                        except OSError:
                            found.append((at, file))
        return hash(tuple(sorted(found)))
    texts = {}
    # By task, the text over which it ended: whether it is proved stands in `done`.
    ended, done, running, turn = {}, set(), set(), threading.Condition()
    for name in wanted & used:
        if crates[name].is_built() and not rtlib.fmt(crates[name].folder, '--check', sys.stdout, subprocess.DEVNULL):
            done.add((name, False))
            ended[name, False] = text(name)
            if offer:
                offer(crates[name], crates[name].stamp())
    print('kept:', *sorted(name for name, _ in done), flush=True)

    def look():
        """Forgets what ended over another text."""
        if words.again and time.time() - texts.get('at', 0) > 5:
            texts['at'] = time.time()
            for task, was in list(ended.items()):
                if text(task[0]) != was:
                    del ended[task]
                    done.discard(task)

    def ready():
        """Those that can start: the longest chain first, and tests last."""
        free = [it for it in tasks - set(ended) - running if needs(it) <= done]
        large = sum(it[0] in LARGE for it in running)
        return sorted((it for it in free if it[0] not in LARGE or large < words.large), key=lambda it: (it[1], -tail(it[0])))

    def prove(crate, is_test, jobs):
        held = rtlib.lock([crate])
        try:
            os.makedirs(os.path.join(crate.folder, 'out'), exist_ok=True)
            if is_test:
                return crate.check(['--test', '--jobs', jobs])
            # (`rt check` takes a file that `rt fmt` would change, and `rt ci` does not)
            if rtlib.fmt(crate.folder, '--check', crate.out, subprocess.DEVNULL):
                return 'a file that rt fmt would change'
            return crate.build_rlib(['--jobs', jobs], False) if crate.name in used else crate.check(['--jobs', jobs])
        except SystemExit as why:
            return str(why) or 'stopped'
        except Exception as why:
            return repr(why)
        finally:
            for it in held:
                os.close(it)

    def work():
        while True:
            with turn:
                look()
                while not ready():
                    if not running and (not words.again or tasks <= done):
                        turn.notify_all()
                        return
                    turn.wait(5)
                    look()
                task = ready()[0]
                running.add(task)
                jobs = str(max(1, min(words.jobs, words.lanes // len(running))))
                was = text(task[0])
            began, crate = time.time(), copy.copy(crates[task[0]])
            label = task[0] + ' tests' * task[1]
            with open(os.path.join(words.logs, task[0] + '-test' * task[1] + '.log'), 'w') as crate.out:
                status = prove(crate, task[1], jobs)
            with turn:
                running.discard(task)
                if words.again and text(task[0]) != was:
                    # (it starts anew over the text of now)
                    status = 'its text changed meanwhile'
                else:
                    ended[task] = was
                    if not status:
                        done.add(task)
                print(time.strftime('%H:%M:%S'), label, 'FAILED %s' % status if status else 'ok', int(time.time() - began), 's', flush=True)
                turn.notify_all()
    # (its signal handler can only be set here)
    rtlib.guarded()
    lanes = [threading.Thread(target=work) for _ in range(words.lanes)]
    for each in lanes:
        each.start()
    for each in lanes:
        each.join()
    left = tasks - done
    print('%d passed, %d failed' % (len(done), len(left & set(ended))), *sorted(name + ' tests' * is_test for name, is_test in left & set(ended)), flush=True)
    if left - set(ended):
        print('not tried, for what they stand on:', *sorted({name for name, _ in left - set(ended)}))
    return 1 if left else 0


if __name__ == '__main__':
    sys.exit(main())
