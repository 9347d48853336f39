"""The inputs of a link: files of the command, and what is handed to rvld in their place, in memory."""
import os

from . import equal, objects
from .words import shown

class Input:
    """An input as the command names it; what rvld is handed for it; and whether it was looked at whole."""

    def __init__(self, name, path=None):
        self.name, self.path, self.tried = name, path or name, path is not None

class Inputs:
    """The inputs in the order in which rvld gets them, and what was made for them."""

    def __init__(self, words, made):
        self.files = [Input(word) for word in words]
        self.names = {}       # of made files: path, and the name that lines and the map have for it
        self.notes = []       # what was done, for --verbose
        self.faults = {}      # names of thin archives, and why they can't be made ordinary
        self.begun = set()    # names of members that have stand-ins
        self.map = None       # the file of the map, where it is read here
        flags = self.flags() if made else 0
        self.files[:0] = [Input(word, self.make(word, [objects.object_of(flags, names, own=own)])) for word, (names, own) in made.items()]
        for file in [it for it in self.files if os.path.basename(it.path) == 'libc.a']:    # what almost each program on glibc has, of 2.36 and of 2.41
            data = equal.mapped(file.path)
            self.mend_file(file, data, objects.holders(data, b'__libc_setup_tls') or [])
            self.stand_in(file, data, objects.holders(data, b'memcpy') or [])

    def make(self, name, parts):
        """A new file of these bytes, in memory, and its path; lines have `name` for it."""
        if len(self.names) > 8:    # each holds a file open, here and in rvld
            import resource
            resource.setrlimit(resource.RLIMIT_NOFILE, 2 * resource.getrlimit(resource.RLIMIT_NOFILE)[1:])
        fd = os.memfd_create('rvld-ld', 0)
        path = '/proc/self/fd/%d' % fd
        self.names[path] = shown(name)
        with open(fd, 'wb', closefd=False) as file:
            file.writelines(parts)
        return path

    def original(self, text):
        """What rvld wrote, with the names of the command in place of those of made files."""
        if '/proc/self/fd/' not in text:
            return text
        import re
        return re.sub(r'(?<![^ =\n])/proc/self/fd/[0-9]+(?![^ (\n])', lambda made: self.names.get(made[0], made[0]), text)

    def found(self, name):
        """The input that a line names, and its member, where it is one."""
        for file in self.files:
            own = shown(file.name)
            if name == own or name.startswith(own + '(') and name.endswith(')'):
                return file, None if name == own else name[len(own) + 1:-1]
        return None, None

    def data(self, name):
        """The bytes of what a line names: more than one where members of an archive have one name."""
        file, member = self.found(name)
        data = equal.mapped(file.path) if file else b''
        parts = objects.contents(data) if member is not None else [(None, 0, len(data))]
        return [data[at:at + size] for own, at, size in parts if size and member in (None, shown(own or b''))]

    def flags(self):
        """The `e_flags` of the first object, which made ones have too: the first file's float ABI is the program's."""
        heads = (data[at:at + 52] for data in (equal.mapped(file.path) for file in self.files) for _, at, _ in objects.contents(data))
        return next((int.from_bytes(head[48:], 'little') for head in heads if head[:4] == objects.ELF), 5)

    def mend(self, defect):
        """Puts equal files in the place of inputs that rvld refuses; whether there is anything new to hand to it."""
        file, member = self.found(defect.file)
        if defect.code == 'F17' and member is not None and defect.file not in self.begun:
            self.begun.add(defect.file)
            data = equal.mapped(file.path)
            return self.stand_in(file, data, [it for it in objects.contents(data) if shown(it[0] or b'') == member][:1])
        if file is None or file.tried or defect.code not in ('F05', 'F07', 'F09'):
            return False
        changed = self.mend_file(file, equal.mapped(file.path))
        for other in self.files if changed else ():    # where one object is refused others will be
            if not other.tried and not other.path.endswith('.a'):
                self.mend_file(other, equal.mapped(other.path))
        return changed

    def mend_file(self, file, data, parts=None):
        """Hands on an equal file, where this one needs it, or these members of it do."""
        file.tried, done = parts is None, []
        if data[:8] == objects.THIN:
            try:
                pieces = list(equal.thin_members(data, file.name))
            except objects.FAULTS as fault:
                self.faults[shown(file.name)] = str(fault)
                return False
            file.path = self.make(file.name, objects.archive_of(pieces))
            data, done = equal.mapped(file.path), ['%s: a thin archive, handed on as an ordinary one of %d members' % (file.name, len(pieces))]
        patches, notes = equal.mend(data, file.name, parts)
        if patches and file.path not in self.names:
            file.path = self.make(file.name, [data])
        for at, new in patches:
            os.pwrite(int(file.path.rpartition('/')[2]), new, at)
        self.notes += done + notes
        return bool(patches or done)

    def stand_in(self, file, data, parts):
        """Puts an archive of stand-ins before the one whose members have functions that are chosen when the program starts."""
        try:
            pieces = [piece for member in parts for piece in equal.stand_ins(data, member, file.name)]
        except objects.FAULTS:
            pieces = []
        if pieces:
            self.files.insert(self.files.index(file), Input('rvld-ld', self.make('rvld-ld', objects.archive_of([piece[:2] for piece in pieces]))))
        self.notes += [piece[2] for piece in pieces]
        return bool(pieces)
