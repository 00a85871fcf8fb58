#!/usr/bin/env python3
"""Tests of copies_check.py: it finds a copy of each kind, says which functions lead there, and takes references."""
import contextlib
import copy
import io
import json
import pathlib
import tempfile
import unittest
from unittest import mock

import copies_check as checker

BYTE, WORD = {"Int": 8}, {"Int": 64}
ROW = {"Array": [BYTE, {"Lit": 64}]}


def lent(kind, how="Imm"):
    return {"Ref": ["Erased", how, kind]}


SLICE = {"Struct": ["&[]", [lent(BYTE), WORD]]}


def named(name, *arguments):
    return {"Named": [{"name": name, "lifetimes": []}, list(arguments)]}


DECLARED = [{"name": name, "shape": shape} for name, shape in [
    ("Chain", {"Fields": [WORD, ROW]}),
    ("Model", {"Fields": [named("Chain"), BYTE]}),
    ("State", {"Fields": [WORD, "Bool"]}),
    ("Moved", {"Variants": [[named("State")], []]}),
    ("Held", {"Variants": [[], [BYTE, named("Chain")]]}),
    ("Either", {"Variants": [[{"Param": 0}], [BYTE, {"Param": 1}]]}),
]]

PARAM = {"Param": 0}
ZERO = {"Int": {"width": 8, "value": 0}}
RETURN = ["Return"]


def place(local, *steps):
    return {"local": local, "steps": list(steps)}


def field(number):
    return {"Field": number}


def assign(to, value=ZERO):
    return [{"Assign": [to, {"Opd": value}]}]


def impl(name, types=(), impls=()):
    return {"Impl": [name, list(types), list(impls)]}


def call(name, to=0, types=(), impls=()):
    return [{"Call": [{"Fn": [name, {"types": list(types), "dicts": list(impls)}]}, [], place(to)]}]


def method(number=0, types=(), impls=()):
    """A call of a method of the first impl that the function is given."""
    given = {"types": list(types), "dicts": list(impls)}
    return [{"Call": [{"Method": [{"Given": 0}, number, given]}, [], place(0)]}]


def seq(first, *others):
    return ["Seq", *first, *seq(*others)] if others else first


def loop(statement):
    return ["Block", "Loop", *statement]


def function(body, *kinds, parameters=0, impls=()):
    """A function of the MIR; the first of its types is that of the result. Beside it are impls, each with methods."""
    locals_ = [{"ty": kind, "home": "ValueLocal"} for kind in kinds or ("Bool",)]
    generics = {"impls": [{"name": name, "methods": list(methods)} for name, *methods in impls]}
    return {"params": parameters, "locals": locals_, "types": DECLARED, "generics": generics, "body": body}


def program(**changed):
    """A call that runs a loop with a step in it, and a function that is never called in a loop: two libraries."""
    functions = {
        "call": function(seq(call("before"), call("run"))),
        "before": function(RETURN, ROW),
        "run": function(seq(loop(call("step")), RETURN)),
        "step": function(call("deep"), named("Moved"), lent(ROW), SLICE, named("State"), parameters=3),
        "deep": function(RETURN, BYTE),
    }
    items = [list(item) for item in (functions | changed).items()]
    return [items[:3], items[3:]]


ROUTE = "(call > run > step)"


class Copies(unittest.TestCase):
    def found(self, **changed):
        return checker.findings(program(**changed), {"call": ["step"]})[0]

    def test_nothing_to_find(self):
        self.assertEqual(checker.findings(program(), {"call": ["step"]}), ([], 1, 2))

    def test_a_parameter_a_result_a_local(self):
        for kind, name in [(ROW, "[u8; 64]"), (named("Chain"), "Chain"), (named("Model"), "Model"),
                           (named("Held"), "Held")]:
            for parameters, kinds, said in [(1, (BYTE, kind), f"step takes {name} by value"),
                                            (0, (kind, BYTE), f"step returns {name} by value"),
                                            (0, (BYTE, kind), f"step has a local of type {name}")]:
                step = function(RETURN, *kinds, parameters=parameters)
                self.assertEqual(self.found(step=step), [f"{said} {ROUTE}"])

    def test_an_argument_of_a_type(self):
        for kind, found in [(named("Either", BYTE, lent(ROW)), []),
                            (named("Either", BYTE, ROW), [f"step returns Either by value {ROUTE}"])]:
            self.assertEqual(self.found(step=function(RETURN, kind)), found)
        body = assign(place(1, {"Variant": 1}, field(2)))
        run = function(seq(loop(call("step")), loop(body)), "Bool", named("Either", BYTE, ROW))
        self.assertEqual(self.found(run=run), ["a loop of run makes a value of type [u8; 64] (call > run)"])

    def test_a_type_that_is_given(self):
        generic = function(RETURN, BYTE, PARAM, parameters=1)
        for kind, found in [(lent(ROW), []), (ROW, [f"step takes [u8; 64] by value {ROUTE}"])]:
            self.assertEqual(self.found(run=function(loop(call("step", types=[kind]))), step=generic), found)
        sized = function(RETURN, {"Array": [BYTE, PARAM]})
        self.assertEqual(self.found(run=function(loop(call("step", types=[{"Const": 64}]))), step=sized),
                         [f"step returns [u8; 64] by value {ROUTE}"])
        run = function(seq(loop(call("step")), call("each", types=[ROW])))
        self.assertEqual(self.found(run=run, each=function(loop(assign(place(1))), "Bool", PARAM)),
                         ["a loop of each makes a value of type [u8; 64] (call > run > each)"])
        each = function(loop(call("one", types=[BYTE, PARAM])))
        self.assertEqual(self.found(run=run, each=each, one=function(RETURN, BYTE, {"Param": 1}, parameters=1)),
                         ["one takes [u8; 64] by value (call > run > each > one)"])

    def test_a_method_that_is_given(self):
        given = seq(call("each", impls=[impl("Other")]), call("each", impls=[impl("Closure")]))
        known = [("Other", "deep", "deep"), ("Closure", "deep", "Closure::call")]
        called = {"Closure::call": function(call("one")), "one": function(RETURN, BYTE, ROW, parameters=1)}
        said = "one takes [u8; 64] by value (call > run > each > Closure::call > one)"
        for each, found in [(method(1), []), (loop(method(0)), []), (loop(method(1)), [said])]:
            run = function(seq(loop(call("step")), given), impls=known)
            self.assertEqual(self.found(run=run, each=function(each), **called), found)
        run = function(loop(call("step", impls=[impl("Closure")])), impls=[("Closure", "Closure::call")])
        self.assertEqual(self.found(run=run, step=function(method()), **called),
                         ["one takes [u8; 64] by value (call > run > step > Closure::call > one)"])

    def test_what_is_given_to_a_method(self):
        over = impl("Over", [ROW], [impl("Closure")])
        run = function(seq(loop(call("step")), call("each", impls=[over])),
                       impls=[("Over", "Over::call"), ("Closure", "Closure::call"), ("Mark",)])
        called = {"run": run, "each": function(loop(method(0, [BYTE], [impl("Mark")]))),
                  "Over::call": function(method(0, [PARAM, {"Param": 1}]))}
        said = "Closure::call returns [u8; 64] by value (call > run > each > Over::call > Closure::call)"
        for kind, found in [(PARAM, [said]), ({"Param": 1}, [])]:
            self.assertEqual(self.found(**called, **{"Closure::call": function(RETURN, kind)}), found)

    def test_what_is_given_and_not_known(self):
        generic, known = function(method(), BYTE, parameters=1), [("Closure", "deep"), ("Mark",)]
        unknown = [([impl("Closure")], []), ([impl("Closure")], [("Closure", "nowhere")]), ([{"Other": 0}], known),
                   ([impl("Closure", [], [impl("Other")])], known)]
        for changed, cases in [({"step": generic}, [([], known), ([impl("Mark")], known), *unknown]), ({}, unknown)]:
            run = function(loop(call("step", impls=[impl("Closure")])), impls=known)
            self.assertEqual(self.found(run=run, **changed), [])
            for given, impls in cases:
                with self.assertRaises(checker.NOT_AS_EXPECTED):
                    self.found(run=function(loop(call("step", impls=given)), impls=impls), **changed)
        with self.assertRaises(checker.NOT_AS_EXPECTED):
            self.found(deep=function(RETURN, impls=[("Closure", "deep")]),
                       before=function(RETURN, impls=[("Closure", "before")]))

    def test_calls_without_an_end(self):
        for kind in [lent(PARAM), named("Either", PARAM, PARAM)]:
            with self.assertRaises(checker.NOT_AS_EXPECTED):
                self.found(step=function(call("deep", types=[BYTE])), deep=function(call("deep", types=[kind]), PARAM))

    def test_a_function_that_a_step_calls(self):
        deep = function(RETURN, BYTE, named("Chain"), parameters=1)
        self.assertEqual(self.found(deep=deep), ["deep takes Chain by value (call > run > step > deep)"])

    def test_a_function_that_calls_itself(self):
        for run, deep in [(call("run"), RETURN), (call("deep"), call("run"))]:
            found = self.found(run=function(seq(loop(call("step")), run), "Bool", ROW), deep=function(deep))
            self.assertIn("run has a local of type [u8; 64]", found[0])

    def test_a_value_made_in_a_loop(self):
        into_field, into_variant = place(1, field(1)), place(1, {"Variant": 1}, field(2))
        static = [{"LendStatic": [place(1), BYTE, {"Ints": {"width": 8, "values": []}}]}]
        for kind, body, name in [(ROW, assign(place(1)), "[u8; 64]"), (named("Chain"), assign(into_field), "[u8; 64]"),
                                 (named("Held"), assign(into_variant), "Chain"),
                                 (named("Chain"), call("step", 1), "Chain"), (ROW, static, "[u8; 64]")]:
            run = function(seq(loop(call("step")), loop(body)), "Bool", kind)
            self.assertEqual(self.found(run=run), [f"a loop of run makes a value of type {name} (call > run)"])

    def test_a_value_made_in_a_branch_of_a_loop(self):
        test = {"Copy": place(0)}
        two = [{"Switch": [test, [[0], [1]], False]}, "Skip", *call("before", 1)]
        other = [{"Switch": [test, [[0, 1], [2]], True]}, "Skip", "Unreachable", *call("before", 1)]
        for branch in [[{"If": test}, {"Exit": 1}, *call("before", 1)], two, other]:
            run = function(seq(loop(call("step")), loop(branch), RETURN), "Bool", ROW)
            self.assertEqual(self.found(run=run), ["before returns [u8; 64] by value (call > run > before)",
                                                   "a loop of run makes a value of type [u8; 64] (call > run)"])
            run = function(seq(loop(call("step")), branch, RETURN), "Bool", ROW)
            self.assertEqual(self.found(run=run), [])

    def test_a_value_made_behind_a_reference(self):
        for kind, steps, name in [(lent(ROW, "Mut"), [{"Deref": ROW}], "[u8; 64]"),
                                  (lent(named("Chain"), "Mut"), [{"Deref": named("Chain")}, field(1)], "[u8; 64]")]:
            body = [{"Assign": [place(1, *steps), {"Repeat": [ZERO, {"Lit": 64}]}]}]
            deep = function(body, "Bool", kind, parameters=1)
            self.assertEqual(self.found(deep=deep), [f"deep makes a value of type {name} (call > run > step > deep)"])
            run = function(seq(loop(call("step")), loop(body)), "Bool", kind, parameters=1)
            self.assertEqual(self.found(run=run), [f"a loop of run makes a value of type {name} (call > run)"])

    def test_a_finding_is_told_once(self):
        twice = seq(loop(call("before", 1)), loop(call("before", 1)))
        run = function(seq(loop(call("step")), twice), "Bool", ROW)
        self.assertEqual(self.found(run=run), ["before returns [u8; 64] by value (call > run > before)",
                                               "a loop of run makes a value of type [u8; 64] (call > run)"])

    def test_a_part_of_a_slice(self):
        body = assign(place(1, field(0), {"Deref": BYTE}))
        run = function(seq(loop(call("step")), loop(body)), "Bool", SLICE, parameters=1)
        self.assertEqual(self.found(run=run), [])

    def test_a_part_without_an_array(self):
        for steps in [(field(0),), ({"Deref": BYTE},)]:
            run = function(seq(loop(call("step")), loop(assign(place(1, *steps)))), "Bool", named("Chain"))
            self.assertEqual(self.found(run=run), [])
        body = assign(place(1, {"Variant": 1}, field(1)))
        run = function(seq(loop(call("step")), loop(body)), "Bool", named("Held"))
        self.assertEqual(self.found(run=run), [])

    def test_a_place_of_an_array(self):
        """An array that was made before a loop may get another byte in it."""
        there = [{"Assign": [place(2), {"AddrOf": place(1)}]}]
        body = seq(there, assign(place(2, {"Deref": BYTE})))
        run = function(seq(call("before", 1), loop(seq(call("step"), body))), "Bool", ROW, "Ptr")
        self.assertEqual(self.found(run=run), [])

    def test_a_value_made_before_a_loop(self):
        run = function(seq(call("before", 1), loop(call("step"))), "Bool", ROW)
        self.assertEqual(self.found(run=run), [])

    def test_no_loop_with_a_step(self):
        for run in [RETURN, call("step"), loop(call("deep"))]:
            found, = self.found(run=function(run))
            self.assertIn("step is called in none of its loops", found)

    def test_what_cannot_be_read(self):
        for target in [place(7), place("x"), place(0, field(0)), place(1, field(9)), place(1, {"Index": 1})]:
            body = seq(call("step"), assign(target))
            with self.assertRaises(checker.NOT_AS_EXPECTED):
                self.found(run=function(loop(body), "Bool", named("State")))
        indirect = copy.deepcopy(call("step"))
        indirect[0]["Call"][0] = {"Method": ["step", {}]}
        unknown = [PARAM, {"Vector": [BYTE, {"Lit": 4}]}, named("Other")]
        for changed in [*({"step": function(RETURN, kind)} for kind in unknown),
                        {"run": function(loop(seq(call("step"), indirect)))},
                        {"run": function(loop(call("step"))[:-1])}, {"run": function(loop(call("step")) + RETURN)},
                        {"run": function(loop([{"Jump": 1}]))}, {"run": function(loop(call("nowhere")))}]:
            with self.assertRaises(checker.NOT_AS_EXPECTED):
                self.found(**changed)
        other = program()
        other[0][0][1]["types"] = [{"name": "Other", "shape": {"Opaque": 8}}]
        for libraries in [[], [[["call"]]], [{}], other]:
            with self.assertRaises(checker.NOT_AS_EXPECTED):
                checker.findings(libraries, {"call": ["step"]})

    def status(self, libraries, failed=None):
        self.out, self.err = io.StringIO(), io.StringIO()
        with tempfile.TemporaryDirectory() as folder, mock.patch.object(checker, "run") as run, \
                mock.patch.object(checker, "files") as files, mock.patch.object(checker, "CALLS", {"call": ["step"]}), \
                contextlib.redirect_stdout(self.out), contextlib.redirect_stderr(self.err):
            run.side_effect = failed
            files.return_value = [pathlib.Path(folder, str(number)) for number in range(len(libraries))]
            for file, library in zip(files.return_value, libraries):
                file.write_text(json.dumps(library))
            return checker.main()

    def test_the_command(self):
        self.assertEqual(self.status(program()), 0)
        self.assertIn("no record and no array by value", self.out.getvalue())
        self.assertEqual(self.status(program(deep=function(RETURN, ROW))), 1)
        self.assertIn("deep returns [u8; 64] by value", self.out.getvalue())
        self.assertEqual(self.status([]), 2)
        self.assertIn("the function call is not in it", self.err.getvalue())
        self.assertEqual(self.status(program(), checker.Unreadable("rt lib failed: not proved")), 2)
        self.assertIn("not proved", self.err.getvalue())


if __name__ == "__main__":
    unittest.main()
