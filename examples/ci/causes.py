"""What a cause is, in sentences: why a change breaks, and how to mend it, by the word that the program has for the case."""

CHANGE = ("Give the field its old type back, or keep it, add one with a new number (`optional`, if it is no list or map), and write both until "
          "every program reads the new one.")
NAMES = ("Give the number its old name back, or give what is meant now a number of its own. Where both names mean the same, compare by "
         "numbers alone.")
NAMED = "The number is the same on both sides, and the enums give it other names."

# By the word of a case: why it breaks. `reader` is the program that misreads.
WHY = {
    "unlike": "The field holds another kind of value on the {reader} side, or writes it in another way: the {reader} program loses it, misreads "
              "it or refuses the message.",
    "value": "The {reader} program reads this value as another one, or refuses it.",
    "name": NAMED,
    "list-to-one": "Of two items the {reader} program keeps the last, or it merges them if they are messages; an empty one may be lost, and a "
                   "packed list isn't read at all.",
    "map": "The map's keys or values are of another kind on the {reader} side, or are written in another way: the {reader} program reads the "
           "entry with a default key or value, reads a string as a message or a message as a string, or refuses the message.",
    "map-key": "The {reader} program reads this key of the map as another one, or refuses it.",
    "map-value": "The {reader} program reads this value of the map as another one, or refuses it.",
    "oneof": "The {reader} side has these fields in one oneof: of those that are set, the {reader} program keeps the last one that it can read.",
}

# What to do, where the new program misreads and where the old one does.
MEND = {
    "unlike": (CHANGE, CHANGE),
    "value": (CHANGE, CHANGE),
    "name": (NAMES, NAMES),
    "list-to-one": ("Keep the list, or keep the old field and add the single one with a new number.",
                    "Keep the single field, or keep the old field and add the list with a new number."),
    "map": (CHANGE, CHANGE),
    "map-key": (CHANGE, CHANGE),
    "map-value": (CHANGE, CHANGE),
    "oneof": ("Leave fields that the old side has out of a new oneof.", "Keep the fields in their oneof."),
}


def why(cause):
    """Returns why a cause breaks. A word that isn't known is told as it is."""
    words = NAMED if cause["is_by_names"] else WHY.get(cause["case"], f"The {{reader}} program misreads it ({cause['case']}).")
    return words.format(reader="new" if cause["direction"] == "forward" else "old")


def mend(cause):
    """Returns what to do about a cause."""
    if cause["is_by_names"]:
        return NAMES
    return MEND.get(cause["case"], (CHANGE, CHANGE))[cause["direction"] == "backward"]
