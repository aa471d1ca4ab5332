#!/usr/bin/env python3
"""Tests of causes that are accepted, by the settings and by baselines: one cause goes, and nothing else."""

import datetime
import json
import os
import unittest

import common  # noqa: F401
from test_gate import ORDER, PROTO, Gate
from protogate_ci import settings
from protogate_ci.asking import BACKWARD, Cause, Field
from protogate_ci.running import Stop
from protogate_ci.settings import Settings

SOON = (datetime.date.today() + datetime.timedelta(days=9)).isoformat()
ACCEPT = "[accept {field}]\ncase = {case}\nold = {old}\nnew = {new}\nreason = Never negative.\nuntil = {until}\n"
QUANTITY = {"field": "Order.quantity", "case": "value", "old": "int32", "new": "uint32", "until": SOON}


def accept(**more):
    return ACCEPT.format(**{**QUANTITY, **more})


def cause(why, *fields):
    return Cause(BACKWARD, why, "", fields[0][0], tuple((number, Field(name, old, None), Field(name, new, None)) for number, name, old, new in fields), {})


class Matching(unittest.TestCase):
    def of(self, text, it, baseline=()):
        return settings.Acceptance(Settings(text.encode()), baseline).of(it)

    def test_nothing_else(self):
        """Another field, case or type isn't accepted."""
        it = cause("value", (2, "Order.quantity", "int32", "uint32"))
        self.assertEqual([found.reason for found in self.of(accept(), it)], ["Never negative."])
        for other in (("unlike", (2, "Order.quantity", "int32", "uint32")), ("value", (2, "Order.quantity", "int32", "uint64")),
                      ("value", (2, "Order.quantity", "sint32", "uint32")), ("value", (2, "shop.Order.quantity", "int32", "uint32")),
                      ("value", (2, "Order.quantity2", "int32", "uint32")), ("value", (2, "quantity", "int32", "uint32"))):
            self.assertEqual(self.of(accept(), cause(*other)), [], other)

    def test_oneofs(self):
        """Each field that comes into a oneof has to be accepted: one that comes later isn't."""
        text = "".join(accept(field=f"P.{it}", case="oneof", new="int32") for it in ("net", "gross"))
        fields = [(at, f"P.{name}", "int32", "int32") for at, name in enumerate(("net", "gross", "tax"), 1)]
        self.assertEqual(len(self.of(text, cause("oneof", *fields[:2]))), 2)
        self.assertEqual(self.of(text, cause("oneof", *fields)), [])

    def test_last_day(self):
        it = cause("value", (2, "Order.quantity", "int32", "uint32"))
        self.assertEqual(self.of(accept(until="2020-01-01"), it), [])
        self.assertEqual(len(self.of(accept(until=datetime.date.today().isoformat()), it)), 1)

    def test_baselines(self):
        causes = [cause("value", (2, "Order.quantity", "int32", "uint32")), cause("map", (3, "A.a", "map<a,b>", "int32")),
                  cause("oneof", (1, "P.net", "int32", "int32"), (2, "P.gross", "int32", "int32"))]
        data = settings.baseline_of(causes)
        baseline = settings.read_baseline(data, "base\n.json")
        self.assertEqual([bool(self.of("", it, baseline)) for it in causes], [True, True, True])
        self.assertEqual(settings.baseline_of(causes[::-1]), data)
        self.assertEqual(len(settings.baseline_of([])) < 100, True)

    def test_what_is_no_baseline(self):
        head = settings.BASELINE
        for data in (b"", b"{", b"null", b"[]", b"\xff", b"[" * 100_000, b"{}", json.dumps(head).encode(), b"0" * 2_000_000,
                     json.dumps({**head, "version": 2, "accepted": []}).encode(), json.dumps({**head, "accepted": [{}]}).encode(),
                     json.dumps({**head, "accepted": [{"field": 1, "case": "", "old": "", "new": ""}]}).encode(),
                     json.dumps({**head, "accepted": {"field": 1}}).encode(), json.dumps({**head, "accepted": [["field"]]}).encode()):
            with self.assertRaises(Stop) as stopped:
                settings.read_baseline(data, "::error::\n")
            self.assertEqual((stopped.exception.status, str(stopped.exception).isprintable()), (4, True), data[:50])


class Runs(Gate):
    def settle(self, text):
        self.write({"protogate.ini": text})
        self.commit("main")

    def test_one_cause(self):
        """What is accepted is a line, in every type that reaches it, and other causes stay."""
        cart = 'message Cart {\n  Order order = 1;\n  %s count = 2;\n}\n'
        self.versions(ORDER % "int32" + cart % "int32", ORDER % "uint32" + cart % "int32")
        self.settle(accept())
        self.says(0, ["v1", "proto", "--base", "main"], "accepted value Order.quantity proto/order.proto:4:10")
        self.assertIn(f"Accepted until {SOON}: Never negative.", self.said)
        self.write({"proto/order.proto": ORDER % "uint32" + cart % "bool"})
        self.says(1, ["v1", "proto", "--base", "main"], "cause value Cart.count proto/order.proto:8:8", "accepted value Order.quantity "
                  "proto/order.proto:4:10", "breaks Order", "breaks Cart")

    def test_what_is_over_or_idle(self):
        self.versions(ORDER % "int32", ORDER % "uint32")
        self.settle(accept(until="2020-01-01"))
        self.says(2, ["v1", "proto", "--base", "main"], "cause value Order.quantity proto/order.proto:4:10",
                  "refused accept Order.quantity 2020-01-01", "breaks Order")
        self.write({"proto/order.proto": ORDER % "int32"})
        self.settle(accept())
        self.says(0, ["v1", "proto", "--base", "main"], "told accept Order.quantity", "compatible 1 type")

    def test_a_change_accepts_nothing(self):
        """Neither its own settings nor its own baseline count."""
        self.versions(ORDER % "int32", ORDER % "uint32")
        breaks = ("cause value Order.quantity proto/order.proto:4:10", "breaks Order")
        self.write({"protogate.ini": accept()})
        self.says(1, ["v1", "proto"], *breaks, "told settings protogate.ini protogate.ini")
        os.unlink("protogate.ini")
        self.assertEqual(self.gate("v1", "proto", "--write-baseline", "base.json"), 1)
        self.assertEqual((self.gate("v1", "proto", "--baseline", "base.json"), self.said), (4, ""))
        self.assertIn("v1 has no file base.json", self.advice)
        self.says(0, ["v1", "proto", "--baseline", "base.json", "--no-settings"], "accepted value Order.quantity proto/order.proto:4:10")
        self.commit("main")
        self.write({"base.json": "{}"})
        self.says(0, ["v1", "proto", "--baseline", "base.json", "--base", "main"], "accepted value Order.quantity proto/order.proto:4:10")
        os.rename("base.json", f"{self.room}/outside.json")
        self.assertEqual(self.gate("v1", "proto", "--baseline", f"{self.room}/outside.json"), 4)
        self.link(f"{self.room}/outside.json", "base.json")
        self.assertEqual(self.gate("v1", "proto", "--baseline", "base.json"), 4)

    def test_written_baselines(self):
        """One that is written again keeps what is there still, and drops what has gone."""
        self.versions(ORDER % "int32" + "message A {\n  int32 a = 1;\n}\n", ORDER % "uint32" + "message A {\n  bool a = 1;\n}\n")
        path = f"{self.room}/base.json"
        self.assertEqual(self.gate("v1", "proto", "--write-baseline", path), 1)
        with open(path, encoding="utf-8") as file:
            self.assertEqual([it["field"] for it in json.load(file)["accepted"]], ["A.a", "Order.quantity"])
        self.write({"proto/order.proto": ORDER % "uint32" + "message A {\n  int32 a = 1;\n}\n"})
        self.assertEqual(self.gate("v1", "proto", "--baseline", path, "--write-baseline", path), 0)
        with open(path, encoding="utf-8") as file:
            self.assertEqual([it["field"] for it in json.load(file)["accepted"]], ["Order.quantity"])


class Skips(Gate):
    def test_skips(self):
        """A skip of a type leaves it out whole, and types that hold it are gated."""
        self.versions(ORDER % "int32" + "message Cart {\n  Order order = 1;\n}\n", ORDER % "uint32" + "message Cart {\n  Order order = 1;\n}\n")
        cause = "cause value Order.quantity proto/order.proto:4:10"
        self.says(1, ["v1", "proto", "--skip", "type:Order"], cause, "breaks Cart", "skipped type:Order")
        self.says(0, ["v1", "proto", "--skip", "type:Order", "--skip", "type:Cart"], "skipped type:Order", "skipped type:Cart")
        self.says(1, ["v1", "proto", "--skip", "type:Ordr"], cause, "breaks Order", "breaks Cart", "told skip type:Ordr")
        self.assertIn("did you mean Order?", self.said)

    def test_last_day(self):
        self.versions(ORDER % "int32", ORDER % "uint32")
        self.write({"protogate.ini": f"[skip type:Order]\nreason = Nobody stores it.\nuntil = {SOON}\n[skip path:proto/x.proto]\nreason = Y.\nuntil = 2020-01-01\n",
                    "proto/x.proto": PROTO})
        self.commit("main")
        self.says(2, ["v1", "proto", "--base", "main"], "refused skip path:proto/x.proto 2020-01-01", "skipped type:Order")
        self.assertIn(f"leaves it out until {SOON}: Nobody stores it.", self.said)


if __name__ == "__main__":
    unittest.main()
