"""Which types lead to a cause: by the fields that both sides have by one number, and that hold messages."""

from sets import fields_of

# As many types are named of a cause.
MOST_TYPES = 20
# The types of a map's key, as a set numbers them, by how they are written: as varints, in 32 or 64 bits, as strings. Keys that are written in
# two ways are unlike, and what such maps hold is compared with nothing.
KEYS = ((3, 4, 5, 8, 13, 17, 18), (7, 15), (6, 16), (9,))
WRITTEN = {key: keys for keys in KEYS for key in keys}


class Fields:
    """The fields of a side's message types."""

    def __init__(self, files):
        self.messages = {name: it for file in files for name, it in file.messages.items()}

    def of(self, name):
        """Returns the type that each field of a message type holds, by its number, with how the key is written where the field is a map."""
        found = {}
        for number, held in fields_of(self.messages[name])[0].items():
            values, key = fields_of(self.messages.get(held, b""))
            target = values.get(2) if key else held
            if target in self.messages:
                found[number] = (target, WRITTEN.get(key))
        return found


class Ways:
    """The pairs of types that some types lead to, each with those that it holds. A pair is two names."""

    def __init__(self, old_files, new_files, names):
        self.old, self.new = Fields(old_files), Fields(new_files)
        self.held = {(it, it): () for it in names}
        pending = list(self.held)
        for pair in pending:
            self.held[pair] = list(dict.fromkeys(self.children(pair)))
            following = [it for it in self.held[pair] if it not in self.held]
            self.held.update(dict.fromkeys(following, ()))
            pending += following

    def children(self, pair):
        old = self.old.of(pair[0])
        new = old if self.is_same(pair) else self.new.of(pair[1])
        for number, (target, key) in old.items():
            other, other_key = new.get(number, (None, None))
            if other and key == other_key:
                yield target, other

    def is_same(self, pair):
        """Returns whether both sides have a type with the same fields, and all that these hold."""
        return pair[0] == pair[1] and self.old.messages[pair[0]] is self.new.messages[pair[1]]

    def leading_to(self, pairs):
        """Returns the pairs that lead to any of these."""
        holders = {}
        for pair, children in self.held.items():
            for child in children:
                holders.setdefault(child, []).append(pair)
        pending = [it for it in dict.fromkeys(pairs) if it in self.held]
        seen = set(pending)
        for pair in pending:
            following = [it for it in holders.get(pair, ()) if it not in seen]
            seen.update(following)
            pending += following
        return seen

    def types_of(self, names, most):
        """Returns the pairs that some of the types lead to, each with at most so many of these types, the nearest ones first."""
        found = {it: [] for it in self.held}
        pending = [((it, it), it) for it in names]
        for pair, name in pending:
            if len(found[pair]) < most and name not in found[pair]:
                found[pair].append(name)
                pending += [(child, name) for child in self.held[pair]]
        return {pair: types for pair, types in found.items() if types}


def pair_of(cause):
    """Returns the pair of types that a cause is of, by its fields."""
    field = cause["fields"][0]
    return field["old"].rpartition(".")[0], field["new"].rpartition(".")[0]
