"""Where a source file declares what its descriptor says, which has no positions: a reader of files that compile.

It goes by tokens alone, so what it found is taken only where that is just what the descriptor declares (`places_of`).
"""

import io
import itertools
from array import array
from bisect import bisect_right

from tokens import tokens_in


class Reader:
    """Reads the tokens of a source file, and notes where each declared name is: by kind, full name and number, a line and a column."""

    def __init__(self, text):
        self.tokens = tokens_in(text)
        self.lines = array("I", itertools.accumulate(map(len, io.BytesIO(text)), initial=0))
        self.now, self.found = next(self.tokens, None), []

    def take(self):
        if self.now is None:
            raise LookupError("the file ends too early")
        token, self.now = self.now, next(self.tokens, None)
        return token

    def word(self):
        return self.now[0] if self.now else b""

    def note(self, kind, name, number, offset):
        line = bisect_right(self.lines, offset)
        self.found.append(((kind, name, number), (line, offset - self.lines[line - 1] + 1)))

    def statement(self, *ends):
        """Takes the tokens up to the first of these ends, or that of the statement, and yields them. What is in braces, as the value of an
        option, has no end."""
        depth = 0
        while depth or self.word() not in (b";", *ends):
            token = self.take()
            depth += (token[0] == b"{") - (token[0] == b"}")
            yield token
        yield self.take()

    def pass_over(self):
        """Takes a statement."""
        for _ in self.statement():
            pass

    def numbered(self, kind, scope):
        """Takes a field or a value of an enum: its name is before the first `=`, its number after it."""
        name, offset = before = b"", 0
        for before in self.statement(b"="):
            if before[0] != b"=":
                name, offset = before
        if before[0] != b"=":
            raise LookupError("there is no number")
        digits, _ = self.take()
        sign, digits = (-1, self.take()[0]) if digits == b"-" else (1, digits)
        base = 16 if digits[:2].lower() == b"0x" else 8 if digits[:1] == b"0" else 10
        self.note(kind, f"{scope}{name.decode()}", sign * int(digits, base), offset)
        self.pass_over()

    def block(self, scope, inside):
        """Takes what is between braces, by a reader of its statements."""
        self.take()
        while self.word() != b"}":
            inside(scope)
        self.take()

    def named(self, kind, scope, inside):
        """Takes a declaration with a block."""
        self.take()
        name, offset = self.take()
        self.note(kind, f"{scope}{name.decode()}", None, offset)
        self.block(f"{scope}{name.decode()}.", inside)

    def extension(self):
        """Takes what a set made by protoc may have, and which declares nothing that is compared."""
        while self.word() != b"{":
            self.take()
        self.block("", lambda _: self.pass_over())

    def part(self, scope):
        """Takes a statement of a message."""
        word = self.word()
        if word == b"message":
            self.named("message", scope, self.part)
        elif word == b"enum":
            self.named("enum", scope, self.value)
        elif word == b"oneof":
            self.take()
            self.take()
            self.block(scope, self.member)
        elif word == b"extend":
            self.extension()
        elif word in (b"option", b"reserved", b";"):
            self.pass_over()
        else:
            self.numbered("field", scope)

    def member(self, scope):
        """Takes a statement of a oneof, in which words that begin another statement of a message are types."""
        if self.word() in (b"option", b";"):
            self.pass_over()
        else:
            self.numbered("field", scope)

    def value(self, scope):
        """Takes a statement of an enum."""
        if self.word() in (b"option", b"reserved", b";"):
            self.pass_over()
        else:
            self.numbered("value", scope)

    def method(self, scope):
        """Takes a statement of a service."""
        if self.word() != b"rpc":
            self.pass_over()
            return
        self.take()
        name, offset = self.take()
        self.note("method", f"{scope}{name.decode()}", None, offset)
        while self.word() not in (b";", b"{"):
            self.take()
        if self.word() == b"{":
            self.block(scope, lambda _: self.pass_over())
        else:
            self.take()

    def top(self, scope):
        """Takes a statement of a file, and returns the scope after it."""
        word = self.word()
        if word in (b"message", b"enum", b"service"):
            inside = {b"message": self.part, b"enum": self.value, b"service": self.method}[word]
            self.named(word.decode(), scope, inside)
        elif word == b"extend":
            self.extension()
        elif word == b"package":
            scope = b"".join(it for it, _ in list(self.statement())[1:-1]).decode() + "."
        else:
            self.pass_over()
        return scope

    def read(self):
        scope = ""
        while self.now:
            scope = self.top(scope)
        return self.found


def wanted(declared):
    """Yields the kind, full name and number of each name that a file declares."""
    for it in declared.values():
        yield it.kind, it.name, None
        for key, part in it.parts.items():
            if it.kind == "message":
                yield "field", f"{it.name}.{part.name}", key
            elif it.kind == "enum":
                yield from (("value", f"{it.name}.{name}", key) for name in part)
            else:
                yield "method", f"{it.name}.{key}", None


def places_of(text, declared):
    """Returns the line and column of each name that a source file declares; none at all where it isn't read as its descriptor says."""
    try:
        found = Reader(text).read()
    except (LookupError, ValueError, RecursionError):
        return {}
    return dict(found) if sorted(map(str, wanted(declared))) == sorted(str(key) for key, _ in found) else {}
