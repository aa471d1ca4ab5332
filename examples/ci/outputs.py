"""How a file is written that a change must not steer: to a new one beside, which takes its name last, and never through a link."""

import os
import secrets
import stat

from calls import Stop, plain


def is_of_a_change(folder):
    """Returns whether a change may have what is in a folder: the folder is in a work tree, or in the current folder."""
    here = os.path.join(os.path.realpath("."), "")
    around = folder
    while not os.path.lexists(os.path.join(around, ".git")):
        if os.path.dirname(around) == around:
            return os.path.join(folder, "").startswith(here)
        around = os.path.dirname(around)
    return True


def folder_of(path):
    """Returns the folder of a path, without links. One on the way that a change may have isn't followed."""
    found = os.sep
    for part in os.path.dirname(os.path.abspath(path)).split(os.sep)[1:]:
        at = os.path.join(found, part)
        if os.path.islink(at) and is_of_a_change(found):
            raise Stop(4, f"{plain(path)} isn't written: {plain(at)} is a link, which a change may lead anywhere")
        found = os.path.realpath(at)
    return found


def place_of(path):
    """Returns where a file is to be written. Nothing but a file may be there."""
    if not os.path.basename(path):
        raise Stop(4, f"{plain(path) or 'an empty name'} isn't written: it names no file")
    found = os.path.join(folder_of(path), os.path.basename(path))
    if os.path.lexists(found) and not stat.S_ISREG(os.lstat(found).st_mode):
        kind = "a link" if os.path.islink(found) else "no regular file"
        raise Stop(4, f"{plain(path)} isn't written: it is {kind}")
    return found


def write(path, data):
    """Writes a file whole, or leaves what was there."""
    found = place_of(path)
    new = f"{found}.{secrets.token_hex(8)}"
    # (a name that is there is no new file, and a link isn't followed)
    opened = os.open(new, os.O_WRONLY | os.O_CREAT | os.O_EXCL | os.O_CLOEXEC, 0o666)
    try:
        with open(opened, "wb") as file:
            file.write(data)
        os.replace(new, found)
    except BaseException:
        os.unlink(new)
        raise
