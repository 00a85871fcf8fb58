#!/usr/bin/env python3
"""Nothing that runs once for each name, factor or pair takes or returns a record or its arrays by value.

Request U3 of paper 02 asks for this of acceptance; the comparison of two models (U4) and the verdict on a document (U7)
keep to it too. Looked at is the MIR that the compiler keeps beside each library that it has built, in the file mir.json
below crates/NAME/out: every function as the compiler has read it, with the types of its parameters, its result and all
locals, also of those that the compiler made. From a call for C on, these are found and looked at:

- Loops: none makes a value with an array in it, in a local, in a part of one or behind a reference.
- All functions that are called in loops, directly or by others, and those that call themselves: no parameter, no
  result and no local is an array or has one in it, at any depth of structs and enums, and no such value is made behind
  a reference. A reference to an array is right.

A generic function is followed as it is called: with the types and the impls that the call gives in the places of its
parameters. So an array that is given as a type is found where it is taken, returned or made, and a method of an impl
that is given, the body of a closure for example, counts as called where the generic function calls it. The MIR names
the methods of each impl, for some impls none. What cannot be followed is an error: a parameter that nothing is given
for, an impl that the MIR does not name, and one with a method that is no function there.

Not seen is a record that is kept in another way than by arrays, for example in many fields of one number each.

Usage: python3 tests/copies_check.py

It has the library curlewsong built first, if that is not done. Each finding is a line, with the functions that lead
there. The exit status is 1 where there is a finding, and 2 where the MIR is not there or cannot be read.
"""
import json
import pathlib
import subprocess
import sys

ROOT = pathlib.Path(__file__).resolve().parent.parent
LIBRARY = "curlewsong"
MIR = "*.rlib/toolchain/mir.json"

# The calls that are looked at, each with functions that its loops must call: so the loops themselves were found.
CALLS = {
    "curlewsong::curlewsong_accepts_word": ["model_step::step"],
    "curlewsong::curlewsong_accepts_document": ["document_step::judge_pair", "model_step::step",
                                                "model_table_check::is_model_in"],
    "curlewsong::curlewsong_within": ["model_extremes::better", "model_places::far_over", "model_within::pass_factor"],
}

# A body is a list of nodes, each before its parts. How many parts each kind has; `Switch` says so itself.
PARTS = {"Seq": 2, "If": 2, "Block": 1, "Loop": 1, "Skip": 0, "Return": 0, "Unreachable": 0, "Exit": 0, "Assign": 0,
         "Call": 0, "LendStatic": 0}

# Where the place stands that such a node puts a value in.
TARGET = {"Assign": 0, "Call": 2, "LendStatic": 0}


class Unreadable(Exception):
    """The MIR is not as this file expects it."""


# What is raised where it is not.
NOT_AS_EXPECTED = (Unreadable, ValueError, LookupError, TypeError, RecursionError)

# More text than this for what a call gives means that generic functions call each other without end.
MOST_GIVEN = 20000


def kind_of(node):
    """The kind of a node, and what it has: a node is a word, or an object with one member."""
    if isinstance(node, str):
        return node, None
    if not isinstance(node, dict) or len(node) != 1:
        raise Unreadable(f"a node is expected, but there is {str(node)[:60]}")
    return next(iter(node.items()))


def part_at(body, start):
    """The nodes of the part of a body that begins there."""
    end, missing = start, 1
    while missing:
        if end == len(body):
            raise Unreadable("a body ends too early")
        kind, data = kind_of(body[end])
        if kind == "Switch":
            _, arms, has_other = data
            missing += len(arms) + has_other
        elif kind in PARTS:
            missing += PARTS[kind]
        else:
            raise Unreadable(f"the node {kind} is not known")
        missing, end = missing - 1, end + 1
    return body[start:end]


# ---- types

def shown(kind):
    """A type as it is usually written."""
    word, data = kind_of(kind)
    if word == "Array":
        return f"[{shown(data[0])}; {kind_of(data[1])[1]}]"
    if word == "Int":
        return f"u{data}"
    return data[0]["name"] if word == "Named" else data[0] if word == "Struct" else word


def with_arguments(part, arguments):
    """A type or a body with these in the places of its parameters: types for `Param`, methods for `Given`."""
    if isinstance(part, list):
        return [with_arguments(inner, arguments) for inner in part]
    if not isinstance(part, dict):
        return part
    for word in arguments.keys() & part.keys():
        if part[word] >= len(arguments[word]):
            raise Unreadable(f"nothing is given for the parameter {part}")
        return arguments[word][part[word]]
    return {word: with_arguments(data, arguments) for word, data in part.items()}


class Types:
    """The structs and enums by name. Of each it has the types of its fields, for an enum by variant."""

    def __init__(self):
        self.fields = {}

    def add(self, declared):
        word, data = kind_of(declared["shape"])
        if word not in ("Fields", "Variants"):
            raise Unreadable(f"the type {declared['name']} is neither struct nor enum")
        self.fields[declared["name"]] = [data] if word == "Fields" else data

    def variants(self, kind):
        """The fields of a struct, or of each variant of an enum."""
        word, data = kind_of(kind)
        if word == "Struct":
            return [data[1]]
        if word != "Named" or data[0]["name"] not in self.fields:
            raise Unreadable(f"{shown(kind)} is no struct or enum that is known")
        return with_arguments(self.fields[data[0]["name"]], {"Param": data[1]})

    def has_array(self, kind):
        word, _ = kind_of(kind)
        if word == "Array":
            return True
        if word in ("Struct", "Named"):
            return any(self.has_array(field) for fields in self.variants(kind) for field in fields)
        if word in ("Int", "Float", "Bool", "Unit", "Ref", "Ptr"):
            return False
        raise Unreadable(f"the type {shown(kind)} is not known")

    def of_place(self, function, place):
        """The type of a local, of a part of it, or of what is behind a reference."""
        kind, variant = function.locals[place["local"]], None
        for step in place["steps"]:
            word, data = kind_of(step)
            if word == "Deref":
                kind = data
            elif word == "Variant":
                variant = data
            elif word == "Field":
                known = self.variants(kind)
                # The first field of a variant is its number.
                fields = known[0] if variant is None else ["number", *known[variant]]
                kind, variant = fields[data], None
            else:
                raise Unreadable(f"the step {word} is not known")
        return kind


# ---- functions

class Function:
    def __init__(self, name, item, types, dicts):
        given = {"Param": types, "Given": dicts}
        self.name, self.parameters, self.body = name, item["params"], with_arguments(item["body"], given)
        self.locals = [with_arguments(local["ty"], given) for local in item["locals"]]

    def has(self, at, kind):
        """That a local has this type, in words. The first local is the result, then come the parameters."""
        if at > self.parameters:
            return f"{self.name} has a local of type {kind}"
        return f"{self.name} {'takes' if at else 'returns'} {kind} by value"

    def nodes(self):
        """All nodes of the body."""
        nodes = part_at(self.body, 0)
        if len(nodes) < len(self.body):
            raise Unreadable(f"the body of {self.name} is not one whole")
        return nodes

    def loops(self):
        return [part_at(self.body, at) for at, node in enumerate(self.nodes()) if node == "Loop"]

    def made_in(self, nodes, types):
        """The types of the values that are made by these nodes."""
        for kind, data in map(kind_of, nodes):
            if kind in TARGET:
                yield types.of_place(self, data[TARGET[kind]])


class Functions:
    """The functions as they are called: of a generic one, each that the calls make of it. And the types."""

    def __init__(self, libraries):
        self.items, self.methods, self.types, self.made = {}, {}, Types(), {}
        for library in libraries:
            for name, item in library:
                self.items[name] = item
                for declared in item["types"]:
                    self.types.add(declared)
                for declared in item["generics"]["impls"]:
                    if self.methods.setdefault(declared["name"], declared["methods"]) != declared["methods"]:
                        raise Unreadable(f"the impl {declared['name']} is in it twice, with other methods")

    def methods_of(self, dictionary):
        """The methods that are given so, and what is given to them: types, and the methods of other impls."""
        how, data = kind_of(dictionary)
        if how != "Impl":
            raise Unreadable(f"methods that are given in another way than by an impl: {how}")
        name, types, dicts = data
        if name not in self.methods or not self.items.keys() >= set(self.methods[name]):
            raise Unreadable(f"the impl {name}, or a method of it, is not in it")
        for inner in dicts:
            self.methods_of(inner)
        return self.methods[name], types, dicts

    def get(self, name, types=(), dicts=()):
        """The function with this in the places of its parameters."""
        if name not in self.items:
            raise Unreadable(f"the function {name} is not in it")
        key = json.dumps([name, types, dicts])
        if len(key) > MOST_GIVEN:
            raise Unreadable(f"the calls of {name} have no end")
        if key not in self.made:
            for dictionary in dicts:
                self.methods_of(dictionary)
            self.made[key] = Function(name, self.items[name], types, dicts)
        return self.made[key]

    def called_by(self, nodes):
        """The functions that are called by these nodes. The parameters of an impl come before those of its methods."""
        for kind, data in map(kind_of, nodes):
            if kind == "Call":
                how, called = kind_of(data[0])
                if how == "Fn":
                    name, given = called
                    yield self.get(name, given["types"], given["dicts"])
                elif how == "Method":
                    dictionary, number, given = called
                    methods, types, dicts = self.methods_of(dictionary)
                    yield self.get(methods[number], types + given["types"], dicts + given["dicts"])
                else:
                    raise Unreadable(f"a call of another kind than of a function: {how}")


# ---- what is looked at

def callees(functions, function):
    """A function, and all that it calls, directly or by others, each with the functions that lead there."""
    found, waiting = {}, [(function, (function.name,))]
    while waiting:
        function, route = waiting.pop(0)
        if function not in found:
            found[function] = route
            waiting += [(other, route + (other.name,)) for other in functions.called_by(function.nodes())]
    return found


def repeated_by(functions, call):
    """The functions with loops, and those that run more than once: called in loops, or by themselves, directly or by
    others. Both with the functions that lead there."""
    looping, repeated = {}, {}
    for function, route in callees(functions, functions.get(call)).items():
        loops = function.loops()
        if loops:
            looping[function] = route
        again = [other for other in functions.called_by(function.nodes()) if function in callees(functions, other)]
        for other in again + [other for loop in loops for other in functions.called_by(loop)]:
            for inner, further in callees(functions, other).items():
                repeated.setdefault(inner, route + further)
    return looping, repeated


def findings(libraries, calls=None):
    """A line for each copy; and how many functions were looked at, those with loops and those called in loops."""
    functions = Functions(libraries)
    types, found, looped, called = functions.types, [], set(), set()
    for call, expected in (calls or CALLS).items():
        looping, repeated = repeated_by(functions, call)
        names = {function.name for function in repeated}
        looped.update(function.name for function in looping)
        called.update(names)
        found += [f"{call}: {name} is called in none of its loops. Correct CALLS in tests/copies_check.py."
                  for name in expected if name not in names]
        for function, route in repeated.items():
            held = [function.has(at, shown(kind)) for at, kind in enumerate(function.locals) if types.has_array(kind)]
            made = [f"{function.name} makes a value of type {shown(kind)}"
                    for kind in function.made_in(function.nodes(), types) if types.has_array(kind)]
            found += [f"{what} ({' > '.join(route)})" for what in held or made]
        for function, route in looping.items():
            for kind in (kind for loop in function.loops() for kind in function.made_in(loop, types)):
                if types.has_array(kind):
                    found.append(f"a loop of {function.name} makes a value of type {shown(kind)} ({' > '.join(route)})")
    return list(dict.fromkeys(found)), len(looped), len(called)


def run(folder, *command):
    """What the command prints."""
    done = subprocess.run(command, cwd=folder, capture_output=True, text=True, encoding="utf-8")
    if done.returncode:
        raise Unreadable(f"{' '.join(command)} failed: {done.stdout}{done.stderr}")
    return done.stdout


def files():
    """Where the MIR is: of the libraries of the repository, and of core, which is beside the page that rt names."""
    toolchain = pathlib.Path(run(ROOT, "rt", "doc").strip()).parent
    return [*sorted(ROOT.glob(f"crates/*/out/rlib/{MIR}")), *toolchain.glob(f"rlibs/{MIR.replace('*', 'core')}")]


def main():
    try:
        run(ROOT / "crates" / LIBRARY, "rt", "lib")
        found, looped, called = findings(json.loads(file.read_text()) for file in files())
    except NOT_AS_EXPECTED as why:
        print(f"copies_check: the MIR of {LIBRARY} cannot be read: {why!r}. Adapt tests/copies_check.py.",
              file=sys.stderr)
        return 2
    if found:
        print(*found, "Pass a reference, or make the value before the loop.", sep="\n")
        return 1
    print(f"copies_check: no record and no array by value in the loops of {looped} functions, nor in the {called} "
          f"functions that are called there ({', '.join(CALLS)})")
    return 0


if __name__ == "__main__":
    sys.exit(main())
