#!/usr/bin/env python3
"""Prints each function with a product of over 32 bits that is not read as an offset alone, and its constant or '?': wide.py KIT MIR.. A MIR is
what the compiler made of a library's functions, LIBRARY.rlib/toolchain/mir.json; KIT is the toolchain's folder of libraries. All functions of
the MIRs are looked at, and those of the toolchain's libraries that they reach: by a name in their code, or by any method of an impl that
is named there."""
import glob
import json
import os
import sys


def width(operand, bits):
    """The width of an operand or a place, 0 where the code does not say it."""
    if isinstance(operand, dict) and "Int" in operand:
        return operand["Int"]["width"]
    place = operand.get("Copy") if isinstance(operand, dict) and "Copy" in operand else operand
    if isinstance(place, dict) and place.get("steps") == []:
        return bits[place["local"]]
    return 0


def constant(operand):
    """A constant operand as text, or nothing."""
    if isinstance(operand, dict) and "Int" in operand:
        return str(operand["Int"]["value"])
    return "size" if isinstance(operand, dict) and "SizeOf" in operand else None


def found_in(node, name):
    """The values under a name, wherever they stand in the code."""
    if isinstance(node, dict):
        for key, value in node.items():
            if key == name:
                yield value
            yield from found_in(value, name)
    elif isinstance(node, list):
        for value in node:
            yield from found_in(value, name)


def reads(node, local):
    """How often a local is read, and how often its address is taken."""
    copied = sum(place == {"local": local, "steps": []} for place in found_in(node, "Copy"))
    return copied + sum(place["local"] == local for place in found_in(node, "AddrOf"))


def is_offset(statement, local):
    """Is it an assignment of an address with the local as its offset?"""
    if not isinstance(statement, dict) or "Assign" not in statement:
        return False
    place, value = statement["Assign"]
    operation = value.get("Op2") if isinstance(value, dict) else None
    return bool(place["steps"] == [] and operation and operation[0] == "Offset" and operation[2] == {"Copy": {"local": local, "steps": []}})


def is_wide(product, place, bits):
    """Its constant or '?', where a product has over 32 bits, or bits that the code does not say."""
    _, one, other = product
    most = max(width(place, bits) if place else 0, width(one, bits), width(other, bits))
    return None if 1 <= most <= 32 else constant(one) or constant(other) or "?"


def wide(function):
    """The constants, or '?', of the products of a function that are no indexing."""
    bits = [local["ty"]["Int"] if isinstance(local["ty"], dict) and "Int" in local["ty"] else 0 for local in function["locals"]]
    told = []
    held, offset, read = {}, set(), set()

    def judge(local):
        # the product in a local was read otherwise than as an offset, or not at all
        if local in held and (local in read or local not in offset):
            told.append(held[local])
        held.pop(local, None)

    for statement in function["body"]:
        for local in held:
            count = reads(statement, local)
            if count == 1 and is_offset(statement, local):
                offset.add(local)
            elif count:
                read.add(local)
        place, value = statement["Assign"] if isinstance(statement, dict) and "Assign" in statement else (None, statement)
        if place and place["steps"] == []:
            judge(place["local"])
        products = [it for it in found_in(value, "Op2") if isinstance(it[0], dict) and "Mul" in it[0]]
        for product in products:
            factor = is_wide(product, place, bits)
            if factor is None:
                continue
            if factor != "?" and place and place["steps"] == [] and value.get("Op2") == product:
                held[place["local"]] = factor
                offset.discard(place["local"])
                read.discard(place["local"])
            else:
                told.append(factor)
    for local in list(held):
        judge(local)
    return told


def names_in(node):
    """The texts in the code, names of functions and impls among them."""
    if isinstance(node, str):
        yield node
    elif isinstance(node, dict):
        for value in node.values():
            yield from names_in(value)
    elif isinstance(node, list):
        for value in node:
            yield from names_in(value)


def read_functions(path):
    with open(path, encoding="utf-8") as text:
        return json.load(text)


def main():
    kit, paths = sys.argv[1], sys.argv[2:]
    own = [row for path in paths for row in read_functions(path)]
    below, methods = {}, {}
    for path in sorted(glob.glob(os.path.join(kit, "*.rlib", "toolchain", "mir.json"))):
        # what no library of the repository can reach unless crates.txt names it
        if os.path.basename(path.split(".rlib")[0]) not in LINKED:
            continue
        for name, function in read_functions(path):
            below[name] = function
            of = function["generics"]["method_of"]
            if of:
                methods.setdefault(list(of.values())[0][0], []).append(name)
    reached, waiting = {}, [function for _, function in own]
    while waiting:
        for name in set(names_in(waiting.pop()["body"])):
            for it in [name, *methods.get(name, [])]:
                if it in below and it not in reached:
                    reached[it] = below[it]
                    waiting.append(below[it])
    for name, function in [*own, *sorted(reached.items())]:
        for factor in wide(function):
            print(name, factor)


# The libraries that come with `std`, which every crate has.
LINKED = ("core", "std", "std_alloc", "std_collections", "std_heap", "std_io")

if __name__ == "__main__":
    main()
