"""Runs the program in folders of its own, and counts what was checked of how it ended and of the files that are then there."""
import contextlib
import os
import resource
import shutil
import signal
import stat
import subprocess
import threading

from certificates import answer
from plain_link import plain as plain_of
from size_report import left_by_zc
from zcld_tools import files, programs
from zcld_tools.programs import limit

from checks.made_files import OLD, THREE, THREE_LEFT

LINK = ('zc', '--out', 'out', '--cert', 'cert')


class Skipped(Exception):
    """What this machine can't do."""


@contextlib.contextmanager
def broken_pipe():
    """A pipe that nothing reads."""
    broken, written = os.pipe()
    os.close(broken)
    yield written
    os.close(written)


class Folder:
    """A folder with files, in which the program is run."""

    def __init__(self, program, place):
        self.program, self.place = program, place

    def path(self, name):
        return os.path.join(self.place, name)

    def remove(self):
        shutil.rmtree(self.place)

    # files

    def write(self, name, data):
        files.write(self.path(name), data)

    def write_list(self, objects):
        """Writes the files of a list, and gives their names."""
        return [os.path.basename(path) for path in files.write_list(self.place, objects)]

    def read(self, name):
        """The bytes under a name, or none."""
        try:
            return files.read(self.path(name))
        except FileNotFoundError:
            return None

    def permissions(self, name):
        return oct(stat.S_IMODE(os.stat(self.path(name)).st_mode))

    def is_link(self, name):
        return os.path.islink(self.path(name))

    def hidden(self):
        """The names of the program's hidden files."""
        return [it for it in os.listdir(self.place) if it.startswith('.zcld')]

    def pipes(self, **given):
        """Named pipes that give these files. Each is opened once the one before it was read."""
        for name in given:
            os.mkfifo(self.path(name))
        threading.Thread(target=lambda: [self.write(*it) for it in given.items()], daemon=True).start()

    def device(self, name, number):
        """A device that a wrong program may replace: a node of its own for root, whom nothing stops, and else the system's."""
        path = os.path.join('/dev', name)
        if os.geteuid() == 0:
            path = self.path(name)
            os.mknod(path, stat.S_IFCHR | 0o666, os.makedev(1, number))
            try:
                os.close(os.open(path, os.O_RDWR))
            except OSError:
                raise Skipped('this is root, and a device of its own may not be used here') from None
        return path

    def stream(self):
        """A link to the link that the system has for standard output."""
        os.symlink('/proc/self/fd/1', self.path('stream'))
        return 'stream'

    # runs

    def run(self, words, given=subprocess.DEVNULL, first=None, before=(), **how):
        """Runs the program on words. `given` is its input, `first` is called in the new process, and `before` are words before
        the program's."""
        return programs.run([*before, self.program, *words], given, first, cwd=self.place, **how)

    def run_with_limit(self, words, size, **how):
        """As `run`, with files of at most this many bytes: a longer write is refused, and no signal comes."""
        def first():
            signal.signal(signal.SIGXFSZ, signal.SIG_IGN)
            limit(resource.RLIMIT_FSIZE, size)
        return self.run(words, first=first, restore_signals=False, **how)

    def link(self, *objects, out='out', cert='cert', **how):
        return self.run(('zc', '--out', out, '--cert', cert, *(objects or ('object',))), **how)

    def plain(self, *objects, out='out', **how):
        return self.run(('plain', '--out', out, *(objects or ('object',))), **how)

    def begin_link(self, name, **how):
        return subprocess.Popen([self.program, *LINK, name], cwd=self.place, stdin=subprocess.DEVNULL, **how)


class Group:
    """A group of checks, in folders of its own."""

    def __init__(self, program, room):
        self.program, self.room, self.count, self.folders, self.failed, self.skipped = program, room, 0, 0, [], []

    def folder(self, **given):
        """A new folder, with the object and files that were there."""
        self.folders += 1
        folder = Folder(self.program, os.path.join(self.room, str(self.folders)))
        os.mkdir(folder.place)
        for name, data in {'object': THREE, **given}.items():
            folder.write(name, data)
        return folder

    # checks

    def same(self, what, found, wanted):
        self.count += 1
        if found != wanted:
            found, wanted = (it[:80] if isinstance(it, bytes) else it for it in (found, wanted))
            self.failed.append(f'{what}: {found!r} in place of {wanted!r}')

    def one_of(self, what, found, wanted):
        self.count += 1
        if found not in wanted:
            self.failed.append(f'{what}: {found[:80] if isinstance(found, bytes) else found!r} is none of those allowed')

    def alone(self, what, folder):
        self.same(f'{what}: leftovers', folder.hidden(), [])

    def ends(self, what, ended, status, line):
        """The status, and a line on standard error and nothing else."""
        self.same(what, ended, (status, b'', line.encode() + b'\n' if line else b''))

    def exits(self, what, ended, status, out=b''):
        """A program that was run wrote this, and exited with this status."""
        self.same(what, ended, (status, out, b'exited %d\n' % status))

    def both_exit(self, what, folder, names, status, out=b'', given=subprocess.DEVNULL):
        """The image under OUT and the objects that it was made of exit alike."""
        for words in (('run', 'out'), ('trace', *names)):
            self.exits(f'{what}, {words[0]}', folder.run(words, given), status, out)

    def reports(self, what, ended, report=THREE_LEFT.report):
        """A link has printed its report."""
        self.same(what, ended, (0, report, b''))

    def done(self, what, ended, folder, out='out', cert='cert', left=THREE_LEFT):
        """The same, and the files that are then under OUT and CERT."""
        self.reports(what, ended, left.report)
        self.same(f'{what}: OUT', folder.read(out), left.image)
        self.same(f'{what}: CERT', folder.read(cert), left.certificate)

    def plain_done(self, what, ended, folder, objects, out='out'):
        """A plain link: the image under OUT, and the text's length."""
        image, length = plain_of(objects)
        self.same(what, ended, (0, b'plain text %d\n' % length, b''))
        self.same(f'{what}: OUT', folder.read(out), image)

    def refused(self, what, ended, folder, status=123, line='write fault', out=OLD, cert=OLD):
        """A refusal, and the files that are then under OUT and CERT."""
        self.ends(what, ended, status, line)
        self.same(f'{what}: OUT', folder.read('out'), out)
        self.same(f'{what}: CERT', folder.read('cert'), cert)
        self.alone(what, folder)

    def refused_by_all(self, what, folder, names, status, line):
        """What both links and `trace` say of these files, in a folder where OUT and CERT exist."""
        for command, ended in (('plain', folder.plain(*names)), ('zc', folder.link(*names)),
                               ('trace', folder.run(('trace', *names)))):
            self.refused(f'{what}: {command}', ended, folder, status, line)

    # links of lists

    def linked_plainly(self, what, objects):
        """A folder with the plain image of a list under OUT, and the names of its files."""
        folder = self.folder()
        names = folder.write_list(objects)
        self.plain_done(what, folder.plain(*names), folder, objects)
        return folder, names

    def linked_small(self, what, objects):
        """A folder with the image that `zc` makes of a list under OUT, and its certificate under CERT, which `check` accepts."""
        folder, left = self.folder(), left_by_zc(objects)
        self.done(what, folder.link(*folder.write_list(objects)), folder, left=left)
        self.same(f'{what}: check', folder.run(('check', 'cert')), (0, answer(left.certificate).encode() + b'\n', b''))
        return folder


def runs_of(plainly, small, names):
    """What the image of each link does, and the objects."""
    return (('plain', plainly.run(('run', 'out'))), ('zc', small.run(('run', 'out'))),
            ('trace', plainly.run(('trace', *names))))
