"""What a side is: its source files, the types that they declare, what is refused, and the sets that protoc makes."""

import os
import re

import tokens
from calls import plain
from excerpts import lines_of
from protocs import Made, protoc_on_path
from reading import Reading, named_in
from trees import LINK, SUBMODULE
from walks import is_below, is_skipped, is_text

# What protoc may mend: what a source file may not have and a set may, and imports that protoc brings with it.
MENDED_BY_PROTOC = ("E101", "E102", "E104", "E106", "E107", "E204", "E205", "E206", "E301", "E411")
# That a source file isn't proto3, and that it is too long to be read.
NOT_PROTO3, TOO_LONG = "E201", "E108"

# A file, and a line and a column in it where there are some.
PLACE = re.compile(r"(.+?)((?::\d+:\d+)?)", re.S)


def may_be_made(file, refusal, status):
    """Returns whether protoc is asked for the set of a source file that is refused so. One that isn't proto3 itself is none of the gate's,
    and what the machine failed at is no fault of the file."""
    code = refusal.split()[1]
    return status == 2 and code != TOO_LONG and (code != NOT_PROTO3 or named_in(refusal) != file)


class Side:
    """One side: its source files, which of them declares each type, which are gated by protoc's sets, each refusal with its files, and what
    can't be gated, with the reason. `laid` is the gated folder, as git lists it. `roots` has the folders of its imports too."""

    def __init__(self, name, laid, roots):
        self.name, self.laid, self.roots, self.folder = name, laid, roots, roots.folder
        self.walk = roots.roots[0].walk
        self.files = self.walk.texts
        self.unread = {**self.walk.unread, **laid.unread, **roots.twice}
        self.declared, self.refusals, self.protoc_says = {}, {}, {}
        # The line of each position that is refused, as it is shown.
        self.excerpts = {}
        # What a set says of each source file that was compiled and of what it imports. What protoc made, and the files that are gated as such.
        self.known, self.made, self.sets, self.is_asked = {}, None, set(), False
        # The source files that were read and that are refused. Those that need what is left out, or what isn't proto3, with the reason.
        self.was_read, self.refused, self.needing = set(), set(), {}
        # What is shown of files outside the gated folder, with their paths from the top of the repository.
        self.outside = {}
        # Of an old side: the paths of the new one that a file's paths are now, where links give it several.
        self.counterparts = {}
        # The names that each refused file may declare; nothing where these aren't known.
        self.names = {}

    def read(self, skipped, room, with_protoc):
        """Reads the source files. What is refused is tried by protoc, if that is on the path: `with_protoc` asks for it, or says no."""
        files = [it for it in self.files if not is_skipped(it, skipped)]
        self.was_read.update(files)
        self.is_asked = bool(with_protoc)
        reading = Reading(self.folder)
        reading.read(files)
        self.known, refused = reading.known, reading.refused
        tried = [it for it in files if it in refused and it not in reading.leading_out and may_be_made(it, *refused[it])]
        if tried and (with_protoc or with_protoc is None and protoc_on_path()):
            self.made = Made(self.folder, room)
            self.made.make(tried)
            self.sets.update(self.taken(tried, refused))
        for file in files:
            if file in refused and file not in self.sets:
                self.refuse(file, refused, skipped)
                continue
            for it in self.file_of(file).types:
                self.declared.setdefault(it, []).append(file)

    def taken(self, tried, refused):
        """Yields the source files that are gated by protoc's sets. Notes what the others are refused for: a fault that protoc doesn't find,
        and that the program finds in the set, is of the file alone. What a side has and can't show, protoc has brought from elsewhere."""
        made = self.made
        for file in tried:
            code, line = refused[file][0].split()[1], made.refused.get(file, (None, 0))[0]
            if file in made.says:
                self.note_what_protoc_says(file, code, made.says[file])
            elif not made.is_proto3(file):
                refused[file] = f"refused {NOT_PROTO3} {file}", 2
            elif line and line.split()[1] != code:
                refused[file] = f"refused {line.split()[1]} {file}", made.refused[file][1]
            elif not line and not made.other(file) and not any(map(self.roots.hides, made.closure([file]))):
                yield file

    def note_what_protoc_says(self, file, code, said):
        """Notes what protoc says of a refused file, where that is asked for, or may be another fault than the program's. An import that neither
        finds is the same fault, unless it is one of the library."""
        may_say_more = code in (*MENDED_BY_PROTOC, NOT_PROTO3) and (code != "E301" or "google/protobuf/" in said)
        if self.is_asked or may_say_more:
            self.protoc_says[file] = said

    def refuse(self, file, refused, skipped):
        """Notes why a source file isn't gated: for a fault of its own, or one that it needs. Where that one is left out, or isn't the gate's,
        the file is told by itself."""
        self.refused.add(file)
        refusal, status = refused[file]
        needed, why = self.other(file, refusal)
        if needed != file and needed in refused:
            refusal, status = refused[needed]
        elif needed != file and (why or is_skipped(needed, skipped)):
            self.needing[file] = why or f"{plain(file)} imports {plain(needed)}, which is left out, and refused for {refusal.split()[1]}"
            return
        self.refusals.setdefault((refusal.partition(" ")[2], status), []).append(file)

    def other(self, file, refusal):
        """Returns the file for whose fault a source file is refused, or the file itself. Where protoc shows that its messages need one which
        isn't proto3, it is that one, with the reason."""
        named = named_in(refusal) or file
        is_proto3 = refusal.split()[1] != NOT_PROTO3 or named != file
        if is_proto3 and self.made and file in self.made.whole and file not in self.made.refused:
            return self.made.other(file) or (file, None)
        return named, None

    def file_of(self, file):
        """Returns what a set says of a source file that isn't refused."""
        return self.made.whole[file] if file in self.sets else self.known[file]

    def hides(self, file):
        """Returns whether a file may declare what isn't known, since it is refused or can't be read."""
        return file in self.refused or is_below(file, self.unread)

    def may_declare(self, name):
        """Returns whether a file that is refused declares a message type that may be the one of this full name."""
        for file in self.refused - self.names.keys():
            text = tokens.read(f"{self.folder}/{file}")
            self.names[file] = None if text is None else tokens.names_in(text)
        last_part = os.fsencode(name.rpartition(".")[2])
        return any(it is None or last_part in it for it in self.names.values())

    def all_texts(self):
        """Returns what there is to look at: what git lists and what the walk found."""
        listed = {it for it, mode in self.laid.listed.items() if is_text(it) or mode in (LINK, SUBMODULE)}
        return sorted(listed.union(self.walk.texts))

    def looked_at(self, path):
        """Returns whether a path was read or refused, or needn't be: a folder that was walked, or a file that its name leaves out."""
        walk = self.walk
        return path in self.was_read or path in walk.folders or path in walk.idle or path in walk.passed_over or is_below(path, self.unread)

    def shown(self, place):
        """Returns a position as users know it. Notes the file's path in the repository, if it is outside the gated folder."""
        if place == "-":
            return place
        found = PLACE.fullmatch(place)
        shown = self.roots.shown(found[1])
        if self.roots.of(found[1]) is not self.roots.roots[0]:
            self.outside[shown] = self.roots.in_repository(found[1])
        return shown + found[2]

    def place_of_field(self, file, name):
        """Returns the position of a field of one of protoc's sets, as far as it is known, by the file that declares its type."""
        found = self.made and file in self.made.whole and self.made.place(file, "field", name)
        return f"{file}:{found[0]}:{found[1]}" if found else "-"

    def files_of_types(self, file):
        """Returns which file declares each message type that a source file's set has; of no set there are none."""
        files = self.made.closure([file]) if file in self.sets else {}
        return {name: path for path, it in files.items() for name in it.types}

    def words(self, file, option_of_folder, option_of_file):
        """The arguments of a call that name this side's source file, or the set that is gated in place of it."""
        made = self.made.written(self.made.closure([file]).values()) if file in self.sets else None
        folder, named = os.path.split(made) if made else (self.folder, file)
        return [f"{option_of_folder}={folder}", f"{option_of_file}={named}"]

    def line_at(self, place):
        """Returns the line of a position as the source file has it, or nothing."""
        file, _, line = place.rpartition(":")[0].rpartition(":")
        try:
            return lines_of(f"{self.folder}/{file}")[int(line) - 1]
        except (ValueError, IndexError):
            return None
