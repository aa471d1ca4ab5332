"""What the program prints, as JSON, for tests: built by hand from the design of its lines."""

import json


def field(name, element="int32", file="order.proto", line=5, column=9):
    return {"name": name, "element": element, "file": file, "line": line, "column": column}


def cause(name="Order.quantity", old="int32", new="uint32", why="value", number=2, message="10ffffffffffffffffff01", others=(), **more):
    return {"kind": "cause", "why": why, "length": len(message) // 2, "message": message, "number": number, "old": field(name, old),
            "new": field(name, new, column=10), "others": list(others), **more}


def readings(old="2 quantity int -1\nagain 10ffffffffffffffffff01\n", new="2 quantity int 4294967295\nagain 10ffffffff0f\n"):
    return [{"kind": "reading", "side": "old", "text": old}, {"kind": "reading", "side": "new", "text": new}]


def kind(kind, name, **more):
    return {"kind": kind, "type": name, **more}


def fault(code="E205", file="a.proto", line=3, column=7, says="Unknown option.", byte=None):
    return {"code": code, "file": file, "line": line, "column": column, "byte": byte, "says": says}


def left_out(side="new", root="a.proto", code="E205", file="a.proto", line=3, column=7, sentence="Unknown option."):
    return {"kind": "left-out", "side": side, "root": root, "code": code, "file": file, "line": line, "column": column, "sentence": sentence}


def refused(side="new", **more):
    return {"kind": "refused", "side": side, **fault(**more)}


def note(what="number-unreserved", number=-3, old=None, new=None, now=None):
    return {"kind": "note", "what": what, "number": number, "old": old, "new": new, "now": now}


BREAKS = [cause(), *readings(), kind("breaks", "Order", length=11), kind("compatible", "Customer")]


def lines(objects):
    return "".join(json.dumps(it, ensure_ascii=False, separators=(",", ":")) + "\n" for it in objects).encode("utf-8", "surrogateescape")
