"""The spool folder of a feed, into which others may write: what is read are regular files of the folder itself, and nothing is read or written
through a link, which could lead to any file that the feed's user may read."""

import collections.abc
import contextlib
import errno
import itertools
import os
import pathlib
import stat
import typing

Mark = tuple[int, int, int]
GROUP = 0o070  # the rights of a group


def entries_of(folder: pathlib.Path) -> list["os.DirEntry[str]"]:
    """The entries *.csv of a spool folder, in the order of their names. One that begins with a dot is still being written."""
    with os.scandir(folder) as found:
        return sorted((it for it in found if it.name.endswith(".csv") and not it.name.startswith(".")), key=lambda it: it.name)


def names_in(folder: pathlib.Path) -> list[str]:
    """The regular files of a spool folder."""
    return [it.name for it in entries_of(folder) if it.is_file(follow_symlinks=False)]


def strangers_in(folder: pathlib.Path) -> list[str]:
    """What has the name of a file of events, and is a link, a pipe, a device or a folder."""
    return [it.name for it in entries_of(folder) if not it.is_file(follow_symlinks=False)]


def mark_of(path: pathlib.Path) -> Mark | None:
    """What changes with a file; None if there is none."""
    try:
        found = path.lstat()
    except FileNotFoundError:
        return None
    return found.st_ino, found.st_size, found.st_mtime_ns


def open_regular(path: str, flags: int, mode: int = 0o666, folder: int | None = None) -> int:
    """Opens a regular file, as an opener of `open` does. A link is not followed, and a pipe is not waited for."""
    number = os.open(path, flags | os.O_NOFOLLOW | os.O_NONBLOCK, mode, dir_fd=folder)
    if not stat.S_ISREG(os.fstat(number).st_mode):
        os.close(number)
        raise OSError(errno.EINVAL, "not a regular file", path)
    return number


class Folder:
    """An open folder within a spool folder, as `done` and `bad`."""

    def __init__(self, path: pathlib.Path, number: int, mode: int) -> None:
        self.path, self.number, self.mode = path, number, mode

    def open(self, name: str, how: str) -> typing.BinaryIO:
        """A file of this folder. One that is new has the folder's rights."""

        def opener(found: str, flags: int) -> int:
            with umask_of(self.mode):
                return open_regular(found, flags, folder=self.number)

        return typing.cast(typing.BinaryIO, open(name, how, opener=opener))

    def has(self, name: str) -> bool:
        try:
            os.stat(name, dir_fd=self.number, follow_symlinks=False)
        except FileNotFoundError:
            return False
        return True

    def free_name(self, name: str) -> str:
        """This name, or one with a number."""
        numbers, found = itertools.count(2), name
        while self.has(found):
            found = f"{name}.{next(numbers)}"
        return found

    def take(self, path: pathlib.Path, name: str) -> None:
        """Moves a file here."""
        os.rename(path, name, dst_dir_fd=self.number)


@contextlib.contextmanager
def umask_of(mode: int) -> collections.abc.Iterator[None]:
    """What is made meanwhile has the rights of this mode at most."""
    before = os.umask(~mode & 0o777)
    try:
        yield
    finally:
        os.umask(before)


@contextlib.contextmanager
def opened(path: pathlib.Path) -> collections.abc.Iterator[Folder]:
    """A folder, which is made if it is missing. The group of the folder around it may do here what it may do there, and so put a mended file back."""
    around = stat.S_IMODE(path.parent.stat().st_mode)
    with umask_of(around), contextlib.suppress(FileExistsError):
        path.mkdir()
    number = os.open(path, os.O_RDONLY | os.O_DIRECTORY | os.O_NOFOLLOW)
    try:
        found = os.fstat(number)
        mode = stat.S_IMODE(found.st_mode)
        if around & GROUP & ~mode and found.st_uid == os.geteuid():
            mode |= around & GROUP
            os.fchmod(number, mode)
        yield Folder(path, number, mode)
    finally:
        os.close(number)
