"""Files that are written whole, or stay as they were."""

from __future__ import annotations

import os
import secrets
import stat
from typing import Any, Optional


def put(file: Any, data: Any) -> None:
    """Writes bytes into a file, which is a path or is open.

    The bytes go to a new file in the same folder, which then replaces the old one. So a program
    that reads the old one reads on, and a full disk leaves it as it was. A link stays one. Written
    directly are pipes, devices, open files (/dev/stdout), files with several names, and files in a
    folder that takes no other file.
    """
    if hasattr(file, "write"):
        give(file, data)
        return
    target = target_of(file)
    if target is None or not replaced(target, data):
        with open(file, "wb") as stream:
            stream.write(data)


def give(file: Any, data: bytes) -> None:
    """Writes bytes into an open file, which may take only part of them at a time."""
    count = file.write(data)
    while type(count) is int and 0 < count < len(data):
        data = data[count:]
        count = file.write(data)


def target_of(path: str) -> Optional[str]:
    """The file that a path leads to by its links, or None for an open file."""
    for _ in range(40):
        if path.startswith(("/dev/", "/proc/")):
            return None
        try:
            path = os.path.join(os.path.dirname(path), os.readlink(path))
        except OSError:
            return path
    return None


def replaced(path: str, data: Any) -> bool:
    """Puts a new file in place of an old one, if there is one; returns whether that worked."""
    try:
        old: Optional[os.stat_result] = os.lstat(path)
    except FileNotFoundError:
        old = None
    if old is not None:
        if not stat.S_ISREG(old.st_mode) or old.st_nlink > 1:
            return False
        os.close(os.open(path, os.O_WRONLY | os.O_CLOEXEC))  # raises if it may not be written
    beside = os.path.join(os.path.dirname(path), f".pix-{secrets.token_hex(8)}")
    try:
        stream = open(beside, "xb")
    except OSError:
        return False
    done = False
    try:
        with stream:
            if old is not None and not made_like(stream.fileno(), old):
                return False
            stream.write(data)
        done = renamed(beside, path)
    except OSError as fault:
        raise OSError(fault.errno, fault.strerror, path) from None
    finally:
        if not done:
            os.unlink(beside)
    return done


def made_like(file: int, old: os.stat_result) -> bool:
    """Gives an open file the owner and the permissions of another one, if allowed."""
    try:
        new = os.fstat(file)
        if (new.st_uid, new.st_gid) != (old.st_uid, old.st_gid):
            os.fchown(file, old.st_uid, old.st_gid)
        os.fchmod(file, stat.S_IMODE(old.st_mode))
    except OSError:
        return False
    return True


def renamed(path: str, to: str) -> bool:
    """Gives a file another name, if allowed."""
    try:
        os.replace(path, to)
    except OSError:
        return False
    return True
