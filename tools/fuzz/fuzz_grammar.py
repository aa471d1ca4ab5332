"""What the program may print, by subcommand and status, as tools/fuzz/fuzz.py asks it: regular expressions of the whole output.

A position in a source file is `FILE:LINE:COLUMN`, and a file is named as the import has it. The input is small and its files
are there, so that no run is short of memory (E001) or has a device that fails but by a folder in the place of a file.
"""
import re

WORD = rb"[A-Za-z_]\w*"
NAME = rb"%s(?:\.%s)*" % (WORD, WORD)
NUMBER = rb"[1-9]\d*"
HEX = rb"(?:[0-9a-f]{2})+"
BYTES = rb"(?:-|%s)" % HEX
PLACE = rb"[^\n]*:%s:%s" % (NUMBER, NUMBER)
STEP_PLACE = rb"(?:-|%s)" % PLACE

# A fault of a source file, at its position or in a whole file; one of a set, in its bytes or in what it states.
TEXT_FAULT = rb"(?:E10[1-8]|E20[1-7]|E30[1-8]|E40[1-9]|E41[0-4]) %s|(?:E301|E308) [^\n]*" % PLACE
BYTES_FAULT = rb"(?:E50[1-5]|E604|E608) at \d+"
SET_FAULT = rb"%s|E70[234]|E40[1-9]|E41[0-5]" % BYTES_FAULT
FAULT = rb"%s|%s" % (TEXT_FAULT, SET_FAULT)

STEP = rb"step %s %s %s %s %s\n" % (NUMBER, NAME, STEP_PLACE, NAME, STEP_PLACE)
COMPATIBLE = rb"compatible %s\n" % NAME
BREAKS = rb"breaks %s %s\nwitness %s\n(?:%s)+" % (NAME, NUMBER, HEX, STEP)

FIELDS = rb"%s %s %s %s" % (NAME, STEP_PLACE, NAME, STEP_PLACE)
CASE = rb"(?:unlike|value|name|list-to-one|map|map-key|map-value)"
CAUSE = rb"cause (?:%s %s %s %s|oneof %s %s %s(?: %s)+) %s\n" % (CASE, NUMBER, HEX, NUMBER, NUMBER, HEX, NUMBER, FIELDS, FIELDS)
TYPE = rb"(?:%s|breaks %s %s\n)" % (COMPATIBLE, NAME, NUMBER)
REMOVED, ADDED = rb"removed %s\n" % NAME, rb"added %s\n" % NAME
GONE = rb"%s %s - -" % (NAME, STEP_PLACE)
NOTE = rb"note (?:%s)\n" % b"|".join([
    rb"field-renamed %s %s (?:-|%s)" % (NUMBER, FIELDS, NUMBER), rb"field-moved %s %s %s" % (NUMBER, FIELDS, NUMBER),
    rb"number-unreserved %s %s" % (NUMBER, GONE), rb"(?:presence-dropped|number-to-list) %s %s" % (NUMBER, FIELDS),
    rb"value-renamed -?\d+ %s" % FIELDS, rb"value-gone -?\d+ %s" % GONE,
    rb"(?:method|service)-gone - %s" % GONE, rb"method-changed - %s" % FIELDS,
])

ITEM = rb"(?:int -?\d+|f32 [0-9a-f]{8}|f64 [0-9a-f]{16}|(?:text|bytes) %s|msg)" % BYTES
SHOWN = rb"(?:  )*(?:%s %s (?:key %s value )?%s|unknown %s)\n" % (NUMBER, WORD, ITEM, ITEM, HEX)

# What `show` prints of bytes, or the refusal of their reader.
READING = rb"(?:(?:%s)*again %s\n|refused (?:%s)\n)" % (SHOWN, BYTES, BYTES_FAULT)

CERTIFICATE = rb"protogate-certificate 2\nview (?:numbers|names)\nroot %s %s\n(?:pair %s %s (?:none|%s)\n)+" % (NAME, NAME, NAME, NAME, NUMBER)


def refused(*rests):
    return rb"refused (?:%s)\n" % b"|".join(rests)


# E309 may name a path with any byte in it, or without one.
FAILED = rb"E309(?: [^\0]*)?"
OF_A_SIDE = rb"(?:old|new) (?:%s)" % FAULT
FAILED_OF_A_SIDE = rb"(?:old|new) %s" % FAILED
NO_ROOT = rb"E90[12]"
NOT_PROVED = rb"E80[12567]|E803 %s %s|E804 %s %s %s [1-6]|E301 [^\n]*" % (NAME, NAME, NAME, NAME, NUMBER)



def all_of(cause, last=b""):
    """What `gate-all` prints, where a cause is of this form, and the last lines of an answer of that one."""
    return {0: rb"(?:%s)*(?:%s)*%s" % (COMPATIBLE, ADDED, last), 1: rb"(?:%s)+(?:%s)+(?:%s)*%s" % (cause, TYPE, ADDED, last),
            2: rb"(?:%s)*(?:%s)*(?:%s)+(?:%s)*%s|%s" % (cause, TYPE, REMOVED, ADDED, last, refused(OF_A_SIDE)), 3: refused(FAILED_OF_A_SIDE)}


FORMS = {
    "compile": {0: rb"\n[\0-\xff]+", 2: refused(TEXT_FAULT), 3: refused(FAILED)},
    "gate": {0: COMPATIBLE, 1: BREAKS, 2: refused(OF_A_SIDE, NO_ROOT), 3: refused(FAILED_OF_A_SIDE)},
    "certificate": {0: CERTIFICATE + b"witness none\nend\n", 1: CERTIFICATE + b"witness %s\nend\n" % HEX,
                    2: refused(OF_A_SIDE, NO_ROOT), 3: refused(FAILED_OF_A_SIDE)},
    "both": {0: rb"forward\n%sbackward\n%s" % (COMPATIBLE, COMPATIBLE),
             1: rb"forward\n(?:%s|%s)backward\n(?:%s|%s)" % (COMPATIBLE, BREAKS, COMPATIBLE, BREAKS)},
    "explained": {1: BREAKS + rb"old\n%snew\n%s" % (READING, READING)},
    "gate-all": all_of(CAUSE),
    "causes": all_of(CAUSE + rb"old\n%snew\n%s" % (READING, READING)),
    "noted": all_of(CAUSE, rb"(?:%s)*" % NOTE),
    "verify": {0: COMPATIBLE, 1: rb"breaks %s %s\n" % (NAME, NUMBER), 2: refused(OF_A_SIDE, NOT_PROVED),
               3: refused(FAILED_OF_A_SIDE), 5: rb"bound %s %s\n" % (NAME, NUMBER)},
    "show": {0: rb"(?:%s)*again %s\n" % (SHOWN, BYTES), 2: refused(FAULT, rb"E90[15]"), 3: refused(FAILED)},
    "types": {0: rb"(?:%s\n)*" % NAME, 2: refused(FAULT), 3: refused(FAILED)},
}

ANSWERS = {call: {status: re.compile(form) for status, form in forms.items()} for call, forms in FORMS.items()}

# What protoc 3.21 says of a set that proto3 has no rule against: whole lines, each after the file's name. Names are compared as JSON
# names in camel case, whichever are given, and values of an enum without its name and in one case. Of a file that has such a fault the
# files that import it say that, and that its types are not there.
PROTOC_SAYS = b"|".join([
    rb'The JSON camel-case name of field "%s" conflicts with field "%s"\. This is not allowed in proto3\.' % (WORD, WORD),
    rb"Enum name %s has the same name as %s if you ignore case and strip out the enum name prefix \(if any\)\. This is error-prone and can "
    rb"lead to undefined behavior\. Please avoid doing this\. If you are using allow_alias, please assign the same numeric value to both "
    rb"enums\." % (WORD, WORD),
    rb'(?:Field name|Enum value) "[^\n]*" is reserved multiple times\.',
    rb"Files that do not use optimize_for = LITE_RUNTIME cannot import files which do use this option\.  This file is not lite, but it "
    rb'imports "[^\n]*" which is\.',
    rb"Reached maximum recursion limit for nested messages\.",
    rb"Package name is too long",
])
PROTOC_SAYS_AFTER = rb'Import "[^\n]*" was not found or had errors\.|"[\w.]+" is not defined\.'
PROTOC_ALONE = re.compile(rb"(?:[^\n]+: (?:%s)\n)+(?:[^\n]+: (?:%s)\n)*" % (PROTOC_SAYS, PROTOC_SAYS_AFTER))
