"""What is beside the built program: when its sources were read and what they were, and the kit that built it. The script `protogate` compares
these, for the proved program and for one that is compiled without proof (unproved.py).

The file protogate.begun has as its time when the build or the gate read the sources, and as its first line what `rt version` printed then; its second
has the number of the kit's script in its file system, and a checksum of it, its third the path of that script, and its fourth the crates that the
program is made of. protogate.sum has a checksum of these sources, as the script `protogate` makes it; there is none where a crate came or went
meanwhile.
"""

import collections
import contextlib
import hashlib
import os
import tempfile
import time

import kit

PROGRAM = "protogate"
# What of a crate the program is made of, and what is promised of it.
PARTS = ("src", "specs")
# So long the clock of a file system may stand still, in seconds: it goes on in steps, of some milliseconds or of two seconds.
STEP = 10
# When sources were read, in nanoseconds, their checksum, and the lines that tell which kit was there and of which crates they are.
Read = collections.namedtuple("Read", "at sum lines")


def out_of(top):
    return f"{top}/crates/{PROGRAM}/out"


def time_in(folder):
    """Returns the time of a file that is made now in a folder, in nanoseconds."""
    number, path = tempfile.mkstemp(prefix=".new-", dir=folder)
    os.close(number)
    found = os.stat(path).st_mtime_ns
    os.remove(path)
    return found


def now_in(folder):
    """Returns the time now, by the clock of the folder's file system, in nanoseconds, once that clock has gone on: each later change is younger than
    that. Where it stands still, what was changed at this time counts as younger, too."""
    now, until = time_in(folder), time.monotonic() + STEP
    while time_in(folder) == now:
        if time.monotonic() > until:
            return now - 1
        time.sleep(0.001)
    return now


def said_of_crates(top):
    """Returns what crates.txt says of each crate that the program is made of, by its name: a line with the words of all that it says of it."""
    said, found, left = {}, {}, [PROGRAM]
    with open(f"{top}/crates.txt", encoding="utf-8") as file:
        for words in (it.partition("#")[0].replace(":", " : ", 1).replace(",", " ").split() for it in file):
            if words:
                said[words[0]] = " ".join([said.get(words[0], ""), *words])
    while left:
        name = left.pop()
        if name in said and name not in found:
            found[name] = said[name]
            left += said[name].split()
    return found


def crates_of_program(top):
    """Returns the names of the crates that the program is made of, whose lines crates.txt may not have yet."""
    return sorted({*said_of_crates(top), PROGRAM})


def sum_of(top):
    """Returns the checksum of the sources: of a line for each of those crates, and one for each file, as sha256sum prints it, in the order of
    their bytes."""
    folders = [f"{top}/crates/{it}/{part}" for it in crates_of_program(top) for part in PARTS]
    files = [f"{at}/{name}" for folder in folders for at, _, names in os.walk(folder, followlinks=True) for name in names]
    lines = [f"{it}\n".encode() for it in said_of_crates(top).values()]
    for path in filter(os.path.isfile, files):
        with open(path, "rb") as file:
            lines.append(f"{hashlib.sha256(file.read()).hexdigest()}  {os.path.relpath(path, top)}\n".encode())
    return hashlib.sha256(b"".join(sorted(lines))).hexdigest()


def sum_of_files(top):
    """Returns a checksum of the repository: of each file with its path, without what was built, and of the kit."""
    found = ["\n".join(lines_of_kit())]
    for at, below, names in os.walk(top):
        is_crate = os.path.basename(os.path.dirname(at)) == "crates"
        below[:] = [it for it in below if not (it == "out" and is_crate or it in (".git", "__pycache__"))]
        for path in sorted(f"{at}/{it}" for it in names if os.path.isfile(f"{at}/{it}")):
            with open(path, "rb") as file:
                found.append(f"{hashlib.sha256(file.read()).hexdigest()} {os.path.relpath(path, top)}")
    return hashlib.sha256("\n".join(sorted(found)).encode("utf-8", "surrogateescape")).hexdigest()


def read_now(top):
    """Returns when the sources are read that are there now, their checksum, and what else is noted of that time."""
    os.makedirs(out_of(top), exist_ok=True)
    return Read(now_in(out_of(top)), sum_of(top), [*lines_of_kit(), " ".join(crates_of_program(top))])


@contextlib.contextmanager
def replaced(path):
    """Gives the name of a file to make, which then takes the place of this one at once."""
    room = tempfile.mkdtemp(prefix=".new-", dir=os.path.dirname(path))
    try:
        yield f"{room}/new"
        os.replace(f"{room}/new", path)
    finally:
        # (where both were names of one file already, nothing was renamed)
        with contextlib.suppress(FileNotFoundError):
            os.remove(f"{room}/new")
        os.rmdir(room)


def write_sum(top, begun, out=None):
    """Writes the checksum of the sources as they were read. Where crates came or went since, they may have done so twice: then there is none."""
    path = f"{out or out_of(top)}/{PROGRAM}.sum"
    if all(os.stat(it).st_ctime_ns <= begun.at for it in (f"{top}/crates", f"{top}/crates.txt")):
        with replaced(path) as new, open(new, "w", encoding="utf-8") as file:
            file.write(f"{begun.sum}  -\n")
    elif os.path.exists(path):
        os.remove(path)


def write(top, begun, out=None):
    """Notes that the program in a folder, by default where the proved one is, was built of the sources as they were read, by the kit of that time."""
    out = out or out_of(top)
    with contextlib.suppress(FileNotFoundError):
        # (it was a link to the kit once, which `rt ci` refuses)
        os.remove(f"{out}/{PROGRAM}.kit")
    write_sum(top, begun, out)
    with replaced(f"{out}/{PROGRAM}.begun") as path:
        with open(path, "w", encoding="utf-8") as file:
            file.write("\n".join([*begun.lines, ""]))
        os.utime(path, ns=(begun.at, begun.at))


def lines_of_kit():
    """Returns what tells this kit from others: what it says, of its script the number and a checksum, and where that is."""
    with open(kit.script(), "rb") as file:
        return [kit.version(), f"{os.fstat(file.fileno()).st_ino} {hashlib.sha256(file.read()).hexdigest()}", kit.script()]


def sources(top):
    """Returns the folders and files of the crates that the program is made of."""
    folders = [f"{top}/crates/{it}/{part}" for it in crates_of_program(top) for part in PARTS]
    walks = [it for folder in folders for it in os.walk(folder, followlinks=True)]
    return [*folders, *(f"{at}/{name}" for at, below, names in walks for name in (*below, *names))]


def state(path):
    """Returns what the system says of a file. A link that leads nowhere counts itself."""
    return os.stat(path) if os.path.exists(path) else os.lstat(path)


def is_unchanged(top, begun):
    """Returns whether nothing was changed since the sources were read, not even for a while: by the system's own times, which nobody sets."""
    paths = (f"{top}/crates", f"{top}/crates.txt", *sources(top))
    return all(state(it).st_ctime_ns <= begun.at for it in paths) and sum_of(top) == begun.sum


def is_of(program, top):
    """Returns whether a program was built by this kit, of the sources that are there now, by what is beside it, as the script `protogate` asks: none of
    them is younger."""
    try:
        at = os.stat(f"{program}.begun").st_mtime_ns
        with open(f"{program}.begun", encoding="utf-8") as begun, open(f"{program}.sum", encoding="utf-8") as file:
            (version, script, path, _), was = begun.read().splitlines(), file.read().split()[0]
        now, its_script, its_path = lines_of_kit()
        is_kits = version == now and script.split()[1] == its_script.split()[1] and os.path.samefile(path, its_path)
        is_young = any(state(it).st_mtime_ns > at for it in (kit.script(), *sources(top)))
        return is_kits and not is_young and was == sum_of(top) and os.access(program, os.X_OK)
    except (OSError, ValueError, IndexError):
        return False
