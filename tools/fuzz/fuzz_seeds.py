"""What tools/fuzz/fuzz.py changes: the source files, descriptor sets, certificates and messages of examples/ and of the rows of crates/.

Bytes are spelled in rows as crates/kit_rows says. Of the rows that run the program, those are taken that it accepts.
"""
import collections
import os
import re

from fuzz_changes import records_of

ROOT = os.path.dirname(os.path.dirname(os.path.dirname(os.path.abspath(__file__))))

# Source files that are longer are left out: they take long, and short ones say as much.
LONGEST = 20_000

# Two sides, each with its files by path and the one that is asked for; the types that may be asked for; and a certificate between
# the sides, or a message of the type on the old side. The new side of a message is empty.
Seed = collections.namedtuple("Seed", "old_files old new_files new types data")

ESCAPE = re.compile(rb"\\(x[0-9a-f]{2}|.)", re.S)
NAMED = {b"n": b"\n", b"r": b"\r", b"t": b"\t"}
SIDES = re.compile(r"(gate|verify) --old[= ](\S+) --new[= ](\S+) (?:--type[= ](\S+)|(\w+))(?: --\w+(?:[= ](?:numbers|names))?)*")
SHOWN = re.compile(r"show --file[= ](\S+) --type[= ](\S+) ([0-9A-Fa-f]*)")
FIELD = re.compile(r"(?:(k\d+) )?(?:(optional|repeated|unpacked) )?(\S+) (\w+)=(\d+)")


def bytes_of(spelled):
    """Returns the bytes that a row spells."""
    def resolved(found):
        escape = found[1]
        return bytes([int(escape[1:], 16)]) if len(escape) == 3 else NAMED.get(escape, escape)
    return ESCAPE.sub(resolved, spelled.encode())


def files_of(spelled):
    """Returns the files that a row spells, by path."""
    pairs = (it.partition("=") for it in spelled.split(" ; ") if it)
    return {path: bytes_of(data) for path, _, data in pairs}


def lines_of(crate, name):
    with open(os.path.join(ROOT, "crates", crate, name), encoding="utf-8") as file:
        return file.read().splitlines()


def accepted_rows():
    """Returns each row of the program that ends with another status than that of a refusal or of usage: words, old and new files."""
    found = []
    for row, wanted in zip(lines_of("rows_gate", "stdin"), lines_of("rows_gate", "stdout")):
        parts = row.split(" | ")
        status = wanted.partition(" | ")[2][:1]
        if status in "015" and len(parts) in (3, 4) and len(row) <= LONGEST:
            found.append((parts[1].strip(), *map(files_of, (parts[2:] + [""])[:2])))
    return found


def side_of(files, name):
    return name in files and all(not it.startswith("/") and ".." not in it for it in files)


def seeds_of_rows():
    """Returns the seeds of the rows: of two sides, of a certificate beside two sides, and of a message."""
    sides, certificates, messages = [], [], []
    for words, old_files, new_files in accepted_rows():
        found, shown = SIDES.fullmatch(words), SHOWN.fullmatch(words)
        if found and side_of(old_files, found[2]) and side_of(new_files, found[3]):
            text = old_files.pop(found[5], b"") if found[5] else b""
            seed = Seed(old_files, found[2], new_files, found[3], [found[4]], text)
            (certificates if found[5] else sides).append(seed)
        elif shown and side_of(old_files, shown[1]):
            messages.append(Seed(old_files, shown[1], {}, "", [shown[2]], bytes.fromhex(shown[3])))
    return sides, certificates, messages


def types_of_text(text):
    """Returns the full names of the message types that begin a line of a source file."""
    package = re.search(r"^package ([\w.]+);", text, re.M)
    names = re.findall(r"^message (\w+)", text, re.M)
    return [f"{package[1]}.{it}" if package else it for it in names]


def read_folder(folder):
    """Returns the source files right in a folder, by name."""
    found = {}
    for name in sorted(os.listdir(folder)):
        if name.endswith(".proto"):
            with open(os.path.join(folder, name), "rb") as file:
                found[name] = file.read()
    return found


def example(old_folder, old, new_folder, new):
    old_files, new_files = read_folder(old_folder), read_folder(new_folder)
    return Seed(old_files, old, new_files, new, types_of_text(old_files[old].decode()), b"")


def seeds_of_examples():
    """Returns a seed for each change of examples/ between two source files."""
    at = os.path.join(ROOT, "examples")
    changes = sorted(os.listdir(os.path.join(at, "changes")))
    folders = [os.path.join(at, "changes", it) for it in changes]
    found = [example(folder, "old.proto", folder, "new.proto") for folder in folders]
    return [*found, example(os.path.join(at, "old"), "order.proto", os.path.join(at, "new"), "order.proto")]


def text_of_type(spelled):
    """Returns a source file of a type as crates/rows_bytes spells it, `M: FIELD, FIELD`, each field as `LABEL TYPE NAME=NUMBER`."""
    plain, oneofs = [], {}
    for oneof, label, type_, name, number in FIELD.findall(spelled):
        packed = " [packed = false]" if label == "unpacked" else ""
        label = {"unpacked": "repeated "}.get(label, label and label + " ")
        oneofs.setdefault(oneof, []).append(f"{label}{type_} {name} = {number}{packed};")
    plain = oneofs.pop("", [])
    groups = [f"oneof {name} {{ {' '.join(members)} }}" for name, members in oneofs.items()]
    return f'syntax = "proto3";\nenum E {{ E0 = 0; }}\nmessage M {{ {" ".join(plain + groups)} }}\n'.encode()


def seeds_of_messages():
    """Returns a seed for each message of crates/rows_bytes, with a source file of the type that is before it there."""
    found, text = [], b""
    for row in lines_of("rows_bytes", "stdin"):
        asked = row.partition(" | ")[2]
        word = asked.rpartition(" ")[2]
        if asked.startswith("type M: "):
            text = text_of_type(asked[8:])
        elif text and len(word) % 2 == 0 and re.fullmatch("[0-9a-f]{2,4000}", word):
            found.append(Seed({"m.proto": text}, "m.proto", {}, "", ["M"], bytes.fromhex(word)))
    return list({(it.old_files["m.proto"], it.data): it for it in found}.values())


def bodies(data, number):
    """Returns the bodies of a message's records of a number."""
    return [body for found, wire, body in records_of(data) if (found, wire) == (number, 2)]


def types_of_set(data):
    """Returns the full names of the message types that no other one holds."""
    found = []
    for file in bodies(data, 1):
        package = b"".join(bodies(file, 2)[-1:])
        for message in bodies(file, 4):
            found += [(package + b"." + it if package else it).decode("latin-1") for it in bodies(message, 1)]
    return found


def seeds_of_sets():
    """Returns a seed for each descriptor set of crates/rows_fds that states a schema, with itself on the other side."""
    found = []
    for row, wanted in zip(lines_of("rows_fds", "stdin"), lines_of("rows_fds", "stdout")):
        spelled, types = row.partition(" | ")[2], []
        data = bytes_of(spelled)
        is_set = not spelled.startswith(("source ", "decoded "))
        if is_set and wanted.partition(" | ")[2].startswith('"') and len(data) <= LONGEST:
            types = types_of_set(data)
        if types:
            found.append(Seed({"s.pb": data}, "s.pb", {"s.pb": data}, "s.pb", types, b""))
    return found


def all_seeds():
    """Returns the seeds by kind; the sets that the program makes of the source files come beside these."""
    sides, certificates, messages = seeds_of_rows()
    is_set = [it for it in sides if not (it.old.endswith(".proto") and it.new.endswith(".proto"))]
    return {
        "text": seeds_of_examples() + [it for it in sides if it not in is_set],
        "set": is_set + seeds_of_sets(),
        "certificate": certificates,
        "message": messages + seeds_of_messages(),
    }
