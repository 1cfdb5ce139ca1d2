"""The files under OUT and CERT, and what their names, links, permissions and folders do to that."""
import os
import resource
import signal
import stat
import subprocess
import threading
import time

from plain_link import plain as plain_of
from zcld_tools.programs import CERTIFICATE, TIME_OUT, limit

from checks.harness import Folder, Skipped, broken_pipe
from checks.made_files import LARGE, LARGE_LEFT, OLD, THREE, THREE_IMAGE, THREE_LEFT

NOBODY = 65534
# Names under which no file can be put.
BAD_NAMES = ('.', 'none/out', 'fil/out', '', 'n' * 256, 'x/')


def devices(group):
    """devices, which are written in place"""
    folder = group.folder(out=OLD, cert=OLD)
    null, full = folder.device('null', 3), folder.device('full', 7)
    group.refused('OUT is full', folder.link(out=full), folder)
    group.refused('CERT is full', folder.link(cert=full), folder, out=THREE_IMAGE)
    group.reports('a device by two names', folder.link(out=null, cert=os.path.join(os.path.dirname(null), '.', 'null')))
    group.ends('a name below a device', folder.link(out=null, cert=null + '/x'), 123, 'write fault')
    os.symlink(null, folder.path('link'))
    group.reports('OUT is a link to a device', folder.link(out='link'))
    group.same('the link stays', folder.is_link('link'), True)
    group.same('the device stays', stat.S_ISCHR(os.stat(null).st_mode), True)
    with open(full, 'wb') as err:
        group.same('the line is refused', folder.run(('frob',), stderr=err).status, 120)
        group.same('the line is refused', folder.run(('trace', 'object'), stderr=err).status, 3)


def outputs(group):
    """where OUT and CERT can't be, or are no files"""
    folder = group.folder(out=OLD, cert=OLD, fil=OLD)
    for name in BAD_NAMES:
        group.refused(f'OUT {name[:20]!r}', folder.link(out=name), folder)
        group.refused(f'CERT {name[:20]!r}', folder.link(cert=name), folder, out=THREE_IMAGE)
        folder.write('out', OLD)
    group.done('a long name', folder.link(out='n' * 255), folder, out='n' * 255)
    os.mkfifo(folder.path('fifo'))
    found = []
    reader = threading.Thread(target=lambda: found.append(folder.read('fifo')), daemon=True)
    reader.start()
    group.reports('a named pipe', folder.link(out='fifo'))
    if not found:
        reader.join(TIME_OUT)
    group.same('what the pipe gave', found, [THREE_IMAGE])
    stream = folder.stream()
    group.same('a pipe by the name of a stream', folder.link(out=stream), (0, THREE_IMAGE + THREE_LEFT.report, b''))
    with open(folder.path('gone'), 'w+b') as gone:
        os.remove(folder.path('gone'))
        gone.write(b'x' * 1000)
        gone.flush()
        group.ends('an open file without a name', folder.link(out=stream, stdout=gone), 0, '')
        gone.seek(0)
        # the file was emptied, and standard output goes on where it was
        group.same('what stands in it', gone.read(), THREE_IMAGE.ljust(1000, b'\0') + THREE_LEFT.report)
    deep = './' * 2045 + 'out'
    group.refused('a name that leaves the hidden name no room', folder.link(out=deep), folder, cert=CERTIFICATE)


def plain_outputs(group):
    """where OUT of a plain link can't be, and standard output that refuses the text's length"""
    folder = group.folder(out=OLD, cert=OLD, fil=OLD)
    image, line = plain_of([THREE])[0], b'plain text 12\n'
    for name in BAD_NAMES:
        group.refused(f'OUT {name[:20]!r}', folder.plain(out=name), folder)
    group.refused('OUT is full', folder.plain(out=folder.device('full', 7)), folder)
    group.plain_done('OUT is a file', folder.plain(), folder, [THREE])
    group.alone('a plain link', folder)
    os.symlink('out', folder.path('link'))
    folder.write('out', OLD)
    group.plain_done('OUT is a link', folder.plain(out='link'), folder, [THREE])
    group.same('the link stays', folder.is_link('link'), True)
    group.plain_done('OUT is the object', folder.plain(out='./object'), folder, [THREE], out='object')
    folder.write('object', THREE)
    with open('/dev/full', 'wb') as file:
        refused_line(group, 'standard output is full', folder, image, file)
    with broken_pipe() as written:
        refused_line(group, 'a broken pipe', folder, image, written)
    ended = folder.plain(first=lambda: os.close(2))
    group.same('standard error is closed', (ended.status, ended.out), (0, line))
    group.same('OUT is standard output', folder.plain(out=folder.stream()), (0, image + line, b''))


def refused_line(group, what, folder, image, stdout):
    """Standard output refuses the text's length: OUT is written by then."""
    folder.write('out', OLD)
    group.ends(what, folder.plain(stdout=stdout), 123, 'write fault')
    group.same(f'{what}: OUT', folder.read('out'), image)
    group.alone(what, folder)


def folders(group):
    """folders that can't be written, or can't be read"""
    first = become_nobody if os.geteuid() == 0 else None
    if first and not starts_as_nobody(group.program):
        raise Skipped('this is root, and nobody may not run the program')
    for mode, status in ((0o555, 123), (0o333, 0), (0o755, 0)):
        folder = group.folder(out=OLD, cert=OLD)
        for name in ('out', 'cert', 'object', '.'):
            if first:
                os.chown(folder.path(name), NOBODY, NOBODY)
            os.chmod(folder.path(name), 0o644 if name != '.' else mode)
        ended = folder.link(first=first)
        os.chmod(folder.place, 0o755)
        if status:
            group.refused(f'a folder with mode {mode:o}', ended, folder)
        else:
            group.done(f'a folder with mode {mode:o}', ended, folder)
            group.alone('the folder', folder)
    folder = group.folder(image=THREE_IMAGE)
    os.chmod(folder.path('image'), 0)
    group.ends('a file that may not be read', folder.run(('run', 'image'), first=first), 122, 'read fault')


def become_nobody():
    os.setgroups([])
    os.setgid(NOBODY)
    os.setuid(NOBODY)


def starts_as_nobody(program):
    try:
        return Folder(program, '/').run(('frob',), first=become_nobody).status == 120
    except (OSError, subprocess.SubprocessError):
        return False


def permissions(group):
    """the new file has the old one's permissions, from its first byte on"""
    for mode in (0o600, 0o640, 0o644, 0o444, 0o755, 0o4755, 0o6711):
        folder = group.folder(out=OLD)
        os.chmod(folder.path('out'), mode)
        group.done(f'mode {mode:o}', folder.link(first=lambda: os.umask(0o077)), folder)
        group.same(f'mode {mode:o}', folder.permissions('out'), oct(mode & 0o777))
        group.same('a new file under a mask', folder.permissions('cert'), oct(0o600))
    # a process that is killed within the write leaves its new file
    folder = group.folder(out=OLD)
    os.chmod(folder.path('out'), 0o600)
    ended = folder.link(first=lambda: (os.umask(0), limit(resource.RLIMIT_FSIZE, 100)))
    left = folder.hidden()
    group.same('killed within the write', (ended.status, len(left)), (-signal.SIGXFSZ, 1))
    for name in left:
        group.same('the new file, half written', folder.permissions(name), oct(0o600))


def links(group):
    """a link stays, and the file that it names is replaced"""
    folder = group.folder(real=OLD)
    os.mkdir(folder.path('deep'))
    folder.write('deep/file', OLD)
    for name, target in (('near', 'real'), ('far', 'near'), ('down', 'deep/file'), ('deep/up', '../real'),
                         ('new', 'not_yet'), ('whole', folder.path('real')), ('loop', 'loop'),
                         ('folder', 'deep'), ('lost', 'none/file')):
        os.symlink(target, folder.path(name))
    rows = (('near', 'real'), ('far', 'real'), ('down', 'deep/file'), ('deep/up', 'real'), ('folder/up', 'real'),
            ('whole', 'real'), ('new', 'not_yet'))
    for name, target in rows:
        if os.path.exists(folder.path(target)):
            folder.write(target, OLD)
        number = os.stat(folder.path(target)).st_ino if target != 'not_yet' else 0
        group.done(f'OUT is the link {name}', folder.link(out=name), folder, out=target)
        group.same(f'{name} is a link', folder.is_link(name), True)
        group.same(f'{name}: a new file', os.stat(folder.path(target)).st_ino != number, True)
        group.alone(name, folder)
        group.alone(name, Folder(group.program, folder.path('deep')))
    for name in ('loop', 'folder', 'lost'):
        group.ends(f'OUT is the link {name}', folder.link(out=name), 123, 'write fault')
    group.same('all are links', [folder.is_link(name) for name in ('loop', 'folder', 'lost')], [True] * 3)


def one_file(group):
    """OUT and CERT are one file by two names"""
    rows = (('a', './a', ()), ('a', 'b', (('b', 'a'),)), ('b', 'a', (('b', 'a'),)), ('b', 'c', (('b', 'a'), ('c', 'a'))),
            ('a', 'd/../a', ()), ('a', 'd/a', (('d/a', '../a'),)))
    for old in (True, False):
        for out, cert, made in rows:
            folder = group.folder(**({'a': OLD} if old else {}))
            os.mkdir(folder.path('d'))
            for name, target in made:
                os.symlink(target, folder.path(name))
            what = f'OUT {out}, CERT {cert}'
            group.ends(what, folder.link(out=out, cert=cert), 123, 'write fault')
            group.same(f'{what}: the image stands', folder.read('a'), THREE_IMAGE)
            group.alone(what, folder)
    folder = group.folder(a=OLD)
    os.link(folder.path('a'), folder.path('b'))
    os.link(folder.path('a'), folder.path('c'))
    group.done('two hard links', folder.link(out='a', cert='b'), folder, out='a', cert='b')
    group.same('a third hard link', folder.read('c'), OLD)
    folder = group.folder()
    group.done('the object by another name', folder.link(out='./object'), folder, out='object')


def stale_files(group):
    """hidden files that earlier runs left"""
    folder = group.folder(out=OLD)

    def leave():
        for number in range(3):
            name = f'.zcld-{os.getpid()}-{number}.new'
            folder.write(name, OLD)
            os.chmod(folder.path(name), 0o600)
        for other in range(1, 40):
            folder.write(f'.zcld-{other}-0.new', OLD)
        folder.write('.zcld-0.new', OLD)
    group.done('stale files', folder.link(first=leave), folder)
    left = folder.hidden()
    group.same('they stay', {folder.read(name) for name in left}, {OLD})
    group.same('and none is added', len(left) in (42, 43), True)


def kills(group):
    """a kill at any time: OUT and CERT are the old or the new, and whole"""
    killed = 0
    for turn in range(80):
        folder = group.folder(object=LARGE, out=OLD)
        begun = folder.begin_link('object', stdout=subprocess.DEVNULL, stderr=subprocess.DEVNULL)
        time.sleep(0.0001 * turn)
        begun.kill()
        killed += begun.wait(TIME_OUT) == -signal.SIGKILL
        group.one_of('killed: OUT', folder.read('out'), (OLD, LARGE_LEFT.image))
        group.one_of('killed: CERT', folder.read('cert'), (None, CERTIFICATE))
        folder.remove()
    group.same('some were killed', killed > 0, True)


def two_runs(group):
    """two runs at once"""
    for turn in range(20):
        folder = group.folder(large=LARGE)
        begun = [folder.begin_link(name, stdout=subprocess.PIPE, stderr=subprocess.PIPE) for name in ('object', 'large')]
        ended = [(*it.communicate(timeout=TIME_OUT), it.returncode) for it in begun]
        group.same(f'turn {turn}', ended, [(left.report, b'', 0) for left in (THREE_LEFT, LARGE_LEFT)])
        group.one_of(f'turn {turn}: OUT', folder.read('out'), (THREE_IMAGE, LARGE_LEFT.image))
        group.same(f'turn {turn}: CERT', folder.read('cert'), CERTIFICATE)
        group.alone(f'turn {turn}', folder)
