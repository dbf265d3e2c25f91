"""Writing files: each as a whole, and none where one of them cannot be written."""

import contextlib
import errno
import os
import stat
import sys
import tempfile
from typing import Dict, Iterator, List, Optional, Tuple

OUTPUT = 1  # the descriptor of standard output


def write(path: str, content: bytes) -> None:
    """Writes a file; a hyphen is standard output."""
    write_all({path: content})


def write_all(contents: Dict[str, bytes]) -> None:
    """Writes files, each as a whole; where one cannot be written, the others stay as they were.

    A new file is written beside each old one. Then come standard output, devices and pipes,
    from which nothing can be taken back, and last the new files are put in their places.
    """
    made: List[Replacement] = []
    direct: List[Tuple[str, bytes]] = []
    try:
        for path, content in contents.items():
            old = None if path == "-" else found(path)
            if path == "-" or is_output(old):
                direct.append(("-", content))
            elif old and not stat.S_ISREG(old.st_mode):
                direct.append((path, content))
            else:
                made.append(Replacement(path, old))
                made[-1].prepare(content)
        for each in made[:-1]:
            each.keep()
        for path, content in direct:
            write_directly(path, content)
        put_all(made)
    finally:
        for each in made:
            each.clean()


def are_same(one: str, other: str) -> bool:
    """Whether two paths lead to one file."""
    try:
        return "-" not in (one, other) and os.path.samefile(one, other)
    except OSError:
        return False  # one of them is not there


@contextlib.contextmanager
def naming(path: str) -> Iterator[None]:
    """Lets an error of the system name this file, and no temporary one."""
    try:
        yield
    except OSError as error:
        error.filename, error.filename2 = path, None
        raise


def found(path: str) -> Optional[os.stat_result]:
    """What stands at a path, and is no folder; None where nothing does."""
    try:
        old = os.stat(path)
    except FileNotFoundError:
        if path == "":
            raise
        old = None
    if path.endswith(os.sep) or (old and stat.S_ISDIR(old.st_mode)):
        raise IsADirectoryError(errno.EISDIR, os.strerror(errno.EISDIR), path)
    return old


def is_output(old: Optional[os.stat_result]) -> bool:
    """Whether this is the file that standard output goes to, as /dev/stdout can be."""
    if old is None or not stat.S_ISREG(old.st_mode):
        return False
    return os.path.samestat(old, os.fstat(OUTPUT))


def write_directly(path: str, content: bytes) -> None:
    """Writes to standard output, a device or a pipe."""
    if path == "-":
        sys.stdout.flush()
        sys.stdout.buffer.write(content)
        sys.stdout.flush()
        return
    with naming(path), open(path, "wb") as target:
        target.write(content)


class Replacement:
    """A new file that is to take the place of another, or of none."""

    def __init__(self, path: str, old: Optional[os.stat_result]) -> None:
        self.path, self.old = path, old
        self.real = os.path.realpath(path)  # a symbolic link stays
        self.new: Optional[str] = None
        self.kept: Optional[str] = None  # a copy of the old file

    def prepare(self, content: bytes) -> None:
        """Writes the new file beside the old one."""
        with naming(self.path):
            if self.old and not os.access(self.real, os.W_OK):
                raise PermissionError(errno.EACCES, os.strerror(errno.EACCES))
            self.new = self.beside(content)

    def keep(self) -> None:
        """Keeps a copy of the old file, to be put back."""
        if self.old:
            with naming(self.path), open(self.real, "rb") as source:
                self.kept = self.beside(source.read())

    def beside(self, content: bytes) -> str:
        """A file in the same folder, with the rights and, where permitted, the owner of the old."""
        handle, path = tempfile.mkstemp(prefix=".metzurgo-", dir=os.path.dirname(self.real))
        try:
            with os.fdopen(handle, "wb") as target:
                target.write(content)
                target.flush()
                os.fsync(handle)
            if self.old:
                with contextlib.suppress(OSError):
                    os.chown(path, self.old.st_uid, self.old.st_gid)
            os.chmod(path, self.old.st_mode & 0o777 if self.old else 0o666 & ~umask())
        except BaseException:
            os.remove(path)
            raise
        return path

    def put(self) -> None:
        with naming(self.path):
            assert self.new is not None
            os.replace(self.new, self.real)
        self.new = None

    def put_back(self) -> None:
        if self.kept:
            os.replace(self.kept, self.real)
            self.kept = None
        elif not self.old:
            os.remove(self.real)

    def clean(self) -> None:
        """Removes the temporary files that are left."""
        for path in filter(None, (self.new, self.kept)):
            with contextlib.suppress(FileNotFoundError):
                os.remove(path)


def put_all(made: List[Replacement]) -> None:
    """Puts the new files in their places; where one cannot be put, the old ones stand again."""
    done: List[Replacement] = []
    try:
        for each in made:
            each.put()
            done.append(each)
    except BaseException:
        for each in done:
            each.put_back()
        raise


def umask() -> int:
    """The rights that new files do not get."""
    mask = os.umask(0)
    os.umask(mask)
    return mask
