"""What the tokens of a source file say, in time and memory that grow with its length alone, whatever bytes it has."""

import os
import re
import stat

# As many bytes of a source file the program takes.
MOST_BYTES = 4194304
# What isn't closed goes on to the end of the file, or of the line.
COMMENT = rb"//[^\n]*\s*|/\*.*?\*/"
STRING_AT = re.compile(rb""""[^"\n]*"?|'[^'\n]*'?""")
# What is looked for outside of comments, by the index of its group.
MARK = re.compile(COMMENT + rb"|(import)\b|(" + STRING_AT.pattern + rb")", re.S)
IMPORT, STRING = 1, 2
WORD_BEFORE = re.compile(rb"\w")
# As many parts has the string of an import at most.
MOST_PARTS = 5000
# What may be between `import` and its string, and between the parts of that.
BESIDE_STRING = re.compile(rb"\s*(?:(?:public|weak)\b\s*)?")
# What declares no name, where all comments and strings are closed.
NAMELESS = re.compile(rb"""(?://[^\n]*|/\*.*?\*/|"[^"\n]*"|'[^'\n]*')\s*""", re.S)
MESSAGE = re.compile(rb"\bmessage\s+(\w+)")
# Before the first token there may be a byte order mark, whose bytes count as columns. Semicolons in a row, and other signs but those that end
# something or begin a number, are one token.
BETWEEN = COMMENT + rb"|[ \t\r\n\v\f]+|;[; \t\r\n\v\f]*(?=;)|\A\xef\xbb\xbf|"
TOKEN = re.compile(BETWEEN + rb"(?P<token>" + STRING_AT.pattern + rb"""|[A-Za-z_]\w*|\d[\w.]*|[^\s\w"'/{}=;-]+|.)""", re.S)
# It closes each comment, so that none is looked through twice for its end.
CLOSE = b"\n*/"
ESCAPE = re.compile(rb"\\(?:[xX]([0-9a-fA-F]{1,2})|([0-7]{1,3})|u([0-9a-fA-F]{4})|U([0-9a-fA-F]{8})|(.))", re.S)
MEANT = dict(zip(b"abfnrtv", b"\a\b\f\n\r\t\v"))


def read(path):
    """Returns the bytes of a source file, or nothing where it can't be read, is no regular file, or is longer than the program takes."""
    try:
        about = os.stat(path)
        if not stat.S_ISREG(about.st_mode) or about.st_size > MOST_BYTES:
            return None
        with open(path, "rb") as opened:
            return opened.read(MOST_BYTES)
    except (OSError, ValueError):
        return None


def closed(text):
    """Returns a source file with other bytes in place of escapes that a string may have, and with an end to a comment that has none. All
    other bytes are where they were."""
    return text.replace(rb"\\", b"__").replace(rb"\"", b"__").replace(rb"\'", b"__") + CLOSE


def meaning(it):
    """Returns the bytes that an escape means."""
    if it[5]:
        return bytes([MEANT.get(it[5][0], it[5][0])])
    if it[3] or it[4]:
        return chr(min(int(it[3] or it[4], 16), 0x10FFFF)).encode("utf-8", "surrogatepass")
    return bytes([(int(it[1], 16) if it[1] else int(it[2], 8)) & 255])


def imports_in(text):
    """Yields the path of each import as it is meant, with the offset of its string."""
    masked, parts, end = closed(text), None, 0
    for it in MARK.finditer(masked):
        kind, start = it.lastindex, it.start()
        if parts is None and kind != IMPORT:
            continue
        if parts is not None and (kind == IMPORT or len(parts) == MOST_PARTS or not BESIDE_STRING.fullmatch(masked, end, start)):
            yield from joined(text, masked, parts)
            parts = None
        if kind == IMPORT and not WORD_BEFORE.match(masked, start - 1, start):
            parts = []
        elif kind == STRING and parts is not None:
            parts.append(start)
        end = it.end()
    yield from joined(text, masked, parts)


def joined(text, masked, parts):
    """Yields what the parts of a string, each by its offset, mean together, with the offset of the first, if there is one. Too many parts are
    taken for a path that leads nowhere."""
    if parts:
        path = b"".join(text[at + 1 : STRING_AT.match(masked, at).end() - 1] for at in parts)
        path = b"/" * (len(parts) == MOST_PARTS) + path
        yield ESCAPE.sub(meaning, path) if b"\\" in path else path, parts[0]


def names_in(text):
    """Returns the last part of each name that a source file may declare as a message type. Where a comment or a string isn't closed, this may
    be any word."""
    bare = NAMELESS.sub(b" ", closed(text))
    is_closed = bare.endswith(b"*/") and b'"' not in bare and b"'" not in bare
    return frozenset(MESSAGE.findall(bare) if is_closed else re.findall(rb"\w+", text))


def tokens_in(text):
    """Yields each token of a source file, with its offset."""
    for it in TOKEN.finditer(closed(text)):
        if it["token"] and it.start() < len(text):
            yield text[it.start() : it.end()], it.start()
