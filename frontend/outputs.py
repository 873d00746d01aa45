"""Writing files whole and last: each is made beside its target, and all are renamed once all are made.

On any failure, and if the job is stopped, the old files stay as they were and no temporary file is left.
"""

import contextlib
import os
import shutil
import signal
import stat
import sys
import tempfile

from frontend.failures import CannotDo, reason_of
from frontend.names import readable

closed_output = False  # whether the caller has closed standard output
STOPPING = (signal.SIGINT, signal.SIGTERM, signal.SIGHUP)


def target_of(path):
    """The file that would be replaced: a symbolic link is followed, so that the link stays."""
    return os.path.realpath(path)


def demand_writable(paths):
    """Tells before the work, and not after it, what would keep a file from being written."""
    targets = [target_of(p) for p in paths]
    for path, target in zip(paths, targets):
        folder = os.path.dirname(target)
        if not os.path.isdir(folder):
            raise CannotDo(f"{readable(path)} cannot be written: there is no folder {readable(folder)}")
        if os.path.lexists(target) and not stat.S_ISREG(os.lstat(target).st_mode):
            raise CannotDo(f"{readable(path)} cannot be written: something that is not a file has this name")
        if not os.access(folder, os.W_OK | os.X_OK):
            raise CannotDo(f"{readable(path)} cannot be written: no permission in the folder {readable(folder)}")
    if len(set(targets)) < len(targets):
        raise CannotDo("two outputs have the same name")


def demand_apart(paths, inputs, what):
    """None of the inputs is overwritten."""
    others = {target_of(path) for path in inputs}
    for path in paths:
        if target_of(path) in others:
            raise CannotDo(f"{readable(path)} cannot be written: it is {what} that is read")


def demand_outside(paths, tray):
    """No file of ours among the bundles: the next time it would be one of them. A build's folder may be a link to one elsewhere."""
    root = os.path.realpath(os.fsencode(tray))
    with os.scandir(root) as items:
        linked = [item.path for item in items if item.is_symlink()] if paths else []
    for path in paths:
        folder = os.path.dirname(os.fsencode(target_of(path)))
        inside = [root] if folder != root else []
        if any((folder + b"/").startswith(outer.rstrip(b"/") + b"/") for outer in inside + [os.path.realpath(f) for f in linked]):
            raise CannotDo(f"{readable(path)} cannot be written: it would be in a build's folder, among its bundles")


@contextlib.contextmanager
def undisturbed():
    """Holds back what would stop the job, for a moment."""
    before = signal.pthread_sigmask(signal.SIG_BLOCK, STOPPING)
    try:
        yield
    finally:
        signal.pthread_sigmask(signal.SIG_SETMASK, before)


def write_all(files, still=lambda: True):
    """Writes [(path, bytes)]; the last of them is the last to be renamed. From then on the job is done and cannot be stopped. A path
    that is - is standard output. Nothing is written, and the answer is False, if still() says at the last moment that it must not."""
    with contextlib.ExitStack() as leftovers:
        made = []
        for path, data in files:
            if path != "-":
                target = target_of(path)
                made.append((path, target, make_beside(path, target, data, leftovers)))
        if not still():
            return False
        for path, data in files:
            if path == "-":
                write_out(data)
        with undisturbed():
            rename_all(made, leftovers)
            for number in STOPPING:
                signal.signal(number, signal.SIG_IGN)
    return True


def write_out(data):
    """To standard output, whole, or CannotDo."""
    if closed_output:
        raise CannotDo("standard output cannot be written: it is closed")
    try:
        sys.stdout.buffer.write(data)
        sys.stdout.buffer.flush()
    except OSError as error:
        raise CannotDo(f"standard output cannot be written: {reason_of(error)}") from error


def make_beside(path, target, data, leftovers):
    """A finished file in the folder of the target; it is removed if it has not been renamed."""
    try:
        with undisturbed():
            handle, temporary = tempfile.mkstemp(prefix=".dezhakom-", suffix=".tmp", dir=os.path.dirname(target))
            leftovers.callback(remove, temporary)
        with os.fdopen(handle, "wb") as file:
            os.fchmod(handle, mode_for(target))
            file.write(data)
            file.flush()
            os.fsync(handle)
    except OSError as error:
        raise CannotDo(f"{readable(path)} cannot be written: {reason_of(error)}") from error
    return temporary


def mode_for(target):
    """The rights of the old file, or those of any new file."""
    try:
        return stat.S_IMODE(os.stat(target).st_mode)
    except OSError:
        mask = os.umask(0)
        os.umask(mask)
        return 0o666 & ~mask


def rename_all(made, leftovers):
    """All renames or none: what is replaced is kept by a second name until the last is done."""
    with contextlib.ExitStack() as undo:
        for k, (path, target, temporary) in enumerate(made):
            try:
                old = second_name(target, leftovers) if k + 1 < len(made) else None
                os.rename(temporary, target)
            except OSError as error:
                raise CannotDo(f"{readable(path)} cannot be written: {reason_of(error)}") from error
            undo.callback(restore, target, old)
        undo.pop_all()
    for folder in {os.path.dirname(target) for _, target, _ in made}:
        keep_names(folder)


def second_name(target, leftovers):
    """Another name for the old file, or a copy if the file system has no such names; None if there is no file."""
    if not os.path.exists(target):
        return None
    name = tempfile.mktemp(prefix=".dezhakom-", suffix=".old", dir=os.path.dirname(target))
    leftovers.callback(remove, name)
    try:
        os.link(target, name)
    except OSError:
        shutil.copy2(target, name)
    return name


def restore(target, old):
    with contextlib.suppress(OSError):
        if old is None:
            os.unlink(target)
        else:
            os.rename(old, target)


def remove(path):
    with contextlib.suppress(OSError):
        os.unlink(path)


def keep_names(folder):
    """Asks that the renames outlast a power failure; some file systems cannot."""
    with contextlib.suppress(OSError):
        handle = os.open(folder, os.O_RDONLY)
        try:
            os.fsync(handle)
        finally:
            os.close(handle)
