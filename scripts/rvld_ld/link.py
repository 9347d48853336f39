"""Runs rvld on what a command asks for, as often as equal inputs help, and says how that ended."""
import _signal as signal    # see rvld-ld
import errno
import os
import sys
import time

from . import objects
from .inputs import Inputs
from .words import QUESTIONS, TOLD, Link, Refused, expand, refuse, table_of

VERSION = 'rvld-ld 1.0.0 (compatible with GNU ld 2.40)\n'
ROOM = 32 << 20    # of the stack: the kernel gives a program's words a quarter of it, and 6 MB at most

def say(text, to=1):
    """Writes to the standard output, or the standard error; where that one can't be written, the status says enough."""
    try:
        with open(to, 'wb', closefd=False) as file:
            file.write(text.encode('utf-8', 'surrogateescape'))
    except OSError as fault:
        if to == 1:
            raise Refused('cannot write to the standard output: %s' % fault.strerror, 3)

def program():
    """Where rvld is: what RVLD names; beside rvld-ld or the link to it; where the repository has it; on the path."""
    called, real = (os.path.dirname(path(sys.argv[0])) for path in (os.path.abspath, os.path.realpath))
    folders = [called, real, os.path.join(os.path.dirname(real), 'crates', 'rvld', 'out')] + os.environ.get('PATH', os.defpath).split(os.pathsep)
    found = (path for path in (os.path.join(folder, 'rvld') for folder in folders) if os.path.isfile(path) and os.access(path, os.X_OK))
    place = os.environ.get('RVLD') or next((path for path in found if os.path.realpath(path) != os.path.realpath(sys.argv[0])), None)
    if place is None:
        raise Refused('cannot find rvld: set RVLD to the program, or put it on the path')
    return place

def start(words, **more):
    """Starts a program with as many words as the system takes, and returns its number."""
    size = sum(map(len, words))
    if size + 9 * len(words) > 1 << 20:
        import resource    # here, as all that few links need: a twentieth of a link of hello would go into loading it
        soft, hard = resource.getrlimit(resource.RLIMIT_STACK)    # -1 where there is none
        if soft % 2**64 < min(ROOM, hard % 2**64):
            resource.setrlimit(resource.RLIMIT_STACK, (min(ROOM, hard % 2**64), hard))
    try:    # Python ignores SIGXFSZ
        return os.posix_spawnp(words[0], words, os.environ, setsigdef=[signal.SIGXFSZ], **more)
    except OSError as fault:
        if fault.errno == errno.E2BIG:
            raise Refused('%d words of %d bytes: more than the system hands to a program, some 6 MB, and 128 KB a word; put objects into archives'
                          % (len(words) - 1, size - len(words[0])))
        refuse(words[0], 'cannot be run: %s' % fault.strerror)

def run(words):
    """Runs rvld: its status, below 0 for a signal, and what it wrote to the standard error. What would end rvld-ld meanwhile ends rvld first."""
    reader, writer = os.pipe()
    ending = {it: signal.getsignal(it) for it in (signal.SIGHUP, signal.SIGINT, signal.SIGTERM) if signal.getsignal(it) != signal.SIG_IGN}
    mask = signal.pthread_sigmask(signal.SIG_BLOCK, ending)
    try:
        child = start(words, file_actions=[(os.POSIX_SPAWN_DUP2, writer, 2)], setsigmask=mask)
        for it in ending:
            signal.signal(it, lambda number, _: os.kill(child, number))
    finally:
        os.close(writer)
        signal.pthread_sigmask(signal.SIG_SETMASK, mask)
    with os.fdopen(reader, 'rb') as said:
        text = said.read().decode('utf-8', 'surrogateescape')
    os.waitid(os.P_PID, child, os.WEXITED | os.WNOWAIT)    # as long as it is not reaped, no other process has its number
    for it, handler in ending.items():
        signal.signal(it, handler)
    return os.waitstatus_to_exitcode(os.waitpid(child, 0)[1]), text

def made_objects(link):
    """What stands for --defsym and --require-defined: by the word, the symbols of an object, and the flags of a section that refers to the last."""
    made = {'--defsym=' + name: ([(os.fsencode(name), objects.GLOBAL, objects.ABS, value)], 0) for name, value in link.defined.items()}
    for name in link.lists['require-defined']:    # the first takes a member, the second keeps its section under --gc-sections
        made['--require-defined=' + name] = ([(os.fsencode(name), objects.GLOBAL, objects.UNDEF, 0)] * 2, objects.ALLOC | objects.RETAIN)
    return made

def linked(link):
    """Links, and returns the status."""
    given, words = link.words()
    rvld, inputs, runs, started, again = program(), Inputs(words, made_objects(link)), 0, time.monotonic(), True
    while again:
        # the map is read here, or has names of made files
        if link.on.keys() & TOLD or link.lists['trace-symbol'] or 'Map' in link.values and inputs.names:
            inputs.map = inputs.map or inputs.make(link.values.get('Map', 'map'), [])
            given = ['--Map=' + inputs.map] + [word for word in given if not word.startswith('--Map=')]
        words = [rvld] + given + [file.path for file in inputs.files]
        status, said = run(words)
        runs, said, defect = runs + 1, inputs.original(said), None
        if status == 1:
            from . import messages
            defect = messages.defect_of(said)
        if 'verbose' in link.on:
            say(''.join('rvld-ld: %s\n' % note for note in inputs.notes + ['ran ' + ' '.join(words)]), 2)
        inputs.notes = []
        again = defect is not None and inputs.mend(defect)
    say(said, 2)
    if status != 0 or inputs.map:
        from . import messages
        if status == 0:
            messages.report(link, inputs, say)
        elif not os.environ.get('RVLD_PLAIN'):
            say(messages.after(inputs, said, defect), 2)
    if 'stats' in link.on:
        import resource
        used = resource.getrusage(resource.RUSAGE_CHILDREN)
        say('rvld-ld: %d inputs, %d files made here; rvld ran %d times; %.3f s, %.3f s of processors, %d KB at most\n' % (
            len(inputs.files), len(inputs.names), runs, time.monotonic() - started, used.ru_utime + used.ru_stime, used.ru_maxrss), 2)
    return status

def main(words):
    """Does what the words ask for, and returns the status, below 0 for the signal that ended rvld."""
    try:
        link = Link(expand(words))
        asked = link.on.keys() & QUESTIONS
        if asked:
            say(''.join(line + '\n' for _, line in table_of('help.txt')) if 'help' in asked else VERSION)
        return 0 if asked & {'help', 'version'} or asked and not link.inputs else linked(link)
    except Refused as why:
        say('rvld-ld: %s\n' % why.args[0], 2)
        return why.args[1] if len(why.args) > 1 else 2
    except (MemoryError, OSError) as fault:
        say('rvld-ld: %s\n' % (getattr(fault, 'strerror', None) or 'out of memory'), 2)
        return 4
