"""Walking a tray: a folder for each build, in it one file for each bundle.

A listing says what was seen of every entry: its name, size, times and inode. Two listings that are equal, with a while between them
in which nothing was judged, mean that the files in between were the same (see `quiet_seconds`).
"""

import errno
import os
import stat
import time
from collections import namedtuple

from frontend.failures import CannotDo, reason_of
from frontend.names import named, readable, to_bytes, to_text

MANIFEST = b"MANIFEST"  # in a build's folder: what it should hold; no bundle itself

SPECIAL = {
    stat.S_IFDIR: "it is a folder; folders inside a build's folder are not searched",
    stat.S_IFIFO: "it is a pipe, not a file",
    stat.S_IFSOCK: "it is a socket, not a file",
    stat.S_IFCHR: "it is a device, not a file",
    stat.S_IFBLK: "it is a device, not a file",
}
HIDDEN = "its name begins with a dot, as that of an unfinished transfer does; --ignore leaves such a name out"
LEADS_OUT = "it is a link that leads out of the tray; --follow-links takes such links"

GRAIN = 0.012  # seconds in which two writes may leave one and the same time on a file: a tick of the kernel's clock, at most 0.01
COARSE_GRAIN = 2.1  # the same if a file system keeps whole seconds
NEAR = {"ext2", "ext3", "ext4", "xfs", "btrfs", "f2fs", "zfs", "tmpfs", "overlay", "ramfs"}  # file systems of one machine
LONG_AGO = 3600  # seconds after which such a file is taken for finished

# Names (bytes) that are left out; whether links may lead out of the tray; whether all other names that begin with a dot are bundles.
Rules = namedtuple("Rules", "ignore follow strict")
Entry = namedtuple("Entry", "name link file")  # link: what it is itself; file: what it leads to, or why that is not known
Seen = namedtuple("Seen", "folder entries problem")  # of a build's folder; problem: why it cannot be listed, or None
# Of a tray: when its listing began (time) and ended (by the monotonic clock); {name: Seen}; entries that are no folders; dot names.
Listed = namedtuple("Listed", "time ended folders others hidden")


class Bundle:
    """An entry of a build's folder; its path is bytes. The reason is why it cannot be read, or None; the line is what was found.
    One that is not present is something else that keeps the build from being judged whole, such as a log that was announced."""

    def __init__(self, name: str, path: bytes, reason: str | None, present: bool = True):
        self.name = name
        self.path = path
        self.reason = reason
        self.present = present
        self.line = None
        self.races = []
        self.races_failure = None
        self.cut = None  # (cut chunks, chunks) of an accepted bundle, if some are cut

    def given_name(self) -> bytes:
        """The name as judge_build gets it."""
        return b"" if self.reason else to_bytes(self.name)

    def shown_name(self) -> str:
        return self.name or "(the folder)"

    def is_racy(self) -> bool:
        return self.line is not None and self.line.word == "race"

    def is_free(self) -> bool:
        return self.line is not None and self.line.word == "race-free"


class Build:
    """A build: its folder (bytes), if there is one, and what was found. The word is the proved program's."""

    def __init__(self, name: str, path: bytes | None = None, seen: Seen | None = None):
        self.name = name
        self.path = path
        self.seen = seen
        self.bundles = []
        self.manifest = None  # the path of its MANIFEST, if it has one
        self.announced = None  # how many bundles there should be, or None if nobody said so
        self.wrong_number = None  # how that differs from what is there, in few words
        self.left_out = []  # names that --ignore leaves out
        self.word = None
        self.reason = None  # why the build as a whole has no other word, or None
        self.has_row = False

    def there(self) -> list[Bundle]:
        return [b for b in self.bundles if b.present]

    def not_free(self) -> list[Bundle]:
        return [b for b in self.bundles if not b.is_free()]


# ------------------------------------------------------------------- listing


def signature(found: os.stat_result) -> tuple:
    """What changes when a file is written or replaced. A folder, a pipe or a device is never judged: its kind is enough."""
    if stat.S_ISREG(found.st_mode) or stat.S_ISLNK(found.st_mode):
        return (found.st_mode, found.st_ino, found.st_size, found.st_mtime_ns, found.st_ctime_ns)
    return (stat.S_IFMT(found.st_mode), found.st_ino)


def entry_of(item: os.DirEntry, ask: bool) -> Entry:
    link = item.stat(follow_symlinks=False)
    if stat.S_ISREG(link.st_mode):
        return Entry(item.name, signature(asked_again(item.path, link) if ask else link), None)
    if not stat.S_ISLNK(link.st_mode):
        return Entry(item.name, signature(link), None)
    try:
        return Entry(item.name, signature(link), signature(os.stat(item.path)))
    except OSError as error:
        return Entry(item.name, signature(link), reason_of(error))


def asked_again(path: bytes, found: os.stat_result) -> os.stat_result:
    """The same of an opened file: a network file system may answer stat from memory, and asks its server when a file is opened."""
    try:
        handle = os.open(path, os.O_RDONLY | os.O_NONBLOCK | os.O_NOCTTY)
    except OSError:
        return found
    try:
        return os.fstat(handle)
    finally:
        os.close(handle)


def list_build(path: bytes, near: set[int] = frozenset()) -> Seen:
    """What a folder holds. Files on a device that is not near are opened to ask for their size and times."""
    try:
        real = os.stat(path)
        folder = (os.lstat(path).st_ino, real.st_ino)
        with os.scandir(path) as items:
            entries = tuple(sorted(entry_of(item, real.st_dev not in near) for item in items))
    except OSError as error:
        return Seen(None, (), reason_of(error))
    return Seen(folder, entries, None)


def list_tray(path: str, choose=lambda names: names) -> Listed:
    """Everything in a tray. choose is given the names of all folders, and only those that it answers are listed."""
    root, near = os.fsencode(path), near_devices()
    now = time.time()
    try:
        names = sorted(os.listdir(root))
    except OSError as error:
        raise CannotDo(f"the tray {readable(path)} cannot be read: {reason_of(error)}") from error
    hidden = [name for name in names if name.startswith(b".")]
    shown = [name for name in names if not name.startswith(b".")]
    inside = [name for name in shown if os.path.isdir(os.path.join(root, name))]
    others = sorted(set(shown) - set(inside))
    chosen = choose([to_text(name) for name in inside])
    folders = {name: list_build(os.path.join(root, to_bytes(name)), near) for name in chosen}
    return Listed(now, time.monotonic(), folders, [to_text(n) for n in others], [to_text(n) for n in hidden])


def near_devices() -> set[int]:
    """The numbers of the devices whose file systems are on this machine alone, so that stat is never answered from an old memory."""
    near = set()
    try:
        with open("/proc/self/mountinfo", encoding="utf-8", errors="replace") as file:
            for line in file:
                first, _, last = line.partition(" - ")
                major, minor = first.split()[2].split(":")
                if last.split()[0] in NEAR:
                    near.add(os.makedev(int(major), int(minor)))
    except (OSError, ValueError, IndexError):
        return set()
    return near


def quiet_seconds(listed: Listed) -> float:
    """How long to wait after a listing before a file is read. A write that comes so soon after an earlier one that both leave the same
    time on the file is not seen by the next listing; what is read after this while is read after any such write."""
    coarse = any(
        whole_seconds(part) and listed.time - part[3] / 1e9 < LONG_AGO
        for seen in listed.folders.values() for entry in seen.entries for part in (entry.link, entry.file)
    )
    return COARSE_GRAIN if coarse else GRAIN


def whole_seconds(part) -> bool:
    return isinstance(part, tuple) and len(part) == 5 and part[3] % 10**9 == 0 and part[4] % 10**9 == 0


# -------------------------------------------------------------------- builds


def build_of(name: str, tray: str, seen: Seen | None, rules: Rules) -> Build:
    """A build that is not judged yet; seen is None if it has no folder."""
    if seen is None:
        return Build(name)
    root = os.fsencode(tray)
    path = os.path.join(root, to_bytes(name))
    build = Build(name, path, seen)
    if seen.problem:
        build.bundles = [Bundle("", path, f"the folder cannot be read: {seen.problem}", False)]
    elif rules.strict and not rules.follow and leads_out(path, root):
        build.bundles = [Bundle("", path, LEADS_OUT, False)]
    else:
        for entry in seen.entries:
            take_entry(build, entry, root, rules)
    return build


def take_entry(build: Build, entry: Entry, root: bytes, rules: Rules) -> None:
    name, path = to_text(entry.name), build.path + b"/" + entry.name
    if entry.name in rules.ignore:
        build.left_out.append(name)
        return
    if entry.name.startswith(b".") and not rules.strict:
        return
    reason = why_unreadable(entry)
    if entry.name.startswith(b"."):
        reason = HIDDEN
    elif entry.file is not None and rules.strict and not rules.follow and leads_out(path, root):
        reason = LEADS_OUT
    if entry.name != MANIFEST:
        build.bundles.append(Bundle(name, path, reason))
    elif reason:
        build.bundles.append(Bundle(name, path, reason, False))
    else:
        build.manifest = path


def why_unreadable(entry: Entry) -> str | None:
    """Why an entry is no file that can be read, or None. Opening it is left to the program, which is asked afterwards."""
    found = entry.link if entry.file is None else entry.file
    if isinstance(found, str):
        return found
    kind = stat.S_IFMT(found[0])
    return None if kind == stat.S_IFREG else SPECIAL.get(kind, "it is not a file")


def leads_out(path: bytes, root: bytes) -> bool:
    inside = os.path.realpath(root)
    real = os.path.realpath(path)
    return real != inside and not real.startswith(inside.rstrip(b"/") + b"/")


def tray_notes(listed: Listed, strict: bool) -> list[str]:
    """What of the tray itself was not judged."""
    notes = [f"{readable(name)} in the tray is not a folder and was not judged" for name in listed.others]
    if strict and listed.hidden:
        notes.append(f"not judged, since its name begins with a dot: {named(listed.hidden)} in the tray")
    return notes


# --------------------------------------------------------------------- files


def open_file(path: bytes):
    """A file opened for reading; OSError for what is not a file, and never a wait for the other end of a pipe."""
    handle = os.open(path, os.O_RDONLY | os.O_NONBLOCK | os.O_NOCTTY)
    file = os.fdopen(handle, "rb")
    if not stat.S_ISREG(os.fstat(handle).st_mode):
        file.close()
        raise OSError(errno.EINVAL, "it is not a file")
    return file


def why_not_opened(path: bytes) -> str:
    """The operating system's reason for a file that the program could not read."""
    try:
        with open_file(path) as file:
            file.read(1)
    except OSError as error:
        return reason_of(error)
    return "the program could not read it"
