"""What an error means and what to do about it, in sentences: by the table of codes that tools/docs/errors.py makes."""

import re

from codes import ERRORS


def code_in(said):
    """Returns the code in a refusal, or nothing."""
    found = re.search(r"\bE\d{3}\b", said)
    return found and found[0]


def sentence_of(code):
    """Returns what a code means; empty where the table hasn't it."""
    return ERRORS.get(code, ("", ""))[0]


def mend_of(code, name="gate.sh"):
    """Returns what to do about an error, with the name by which the script is called."""
    return ERRORS.get(code, ("", ""))[1].replace("gate.sh", name)


def sentences_on(code, name="gate.sh"):
    """Returns what a code means and what to do about it."""
    return f"{sentence_of(code)} What to do: {mend_of(code, name)}" if code in ERRORS else ""
