"""initial.py: what variables begin with, for linked.py and meaning.py.

It is written from the rules alone, over the items of faults.py and the descriptions of typed.py. A variable's scalars are numbered from 0, in
the order of its members and in row-major order.
"""
from math import prod

import faults
from areas import Area
from typed import AREA, BITS, CHARACTERS, NUMBER, OFFSET, POINTER, VARYING, constant_value, described, element_of, remembered, scalars_of, types_of, whole_of


def first_value(kind):
    """What a scalar, or an area, begins with that is given nothing."""
    if kind[0] == AREA:
        return Area(kind[1])
    if kind[0] in (NUMBER, POINTER, OFFSET):
        return None if kind[0] == POINTER else 0
    return {CHARACTERS: " ", VARYING: "", BITS: "0"}[kind[0]] * (1 if kind[0] == VARYING else kind[1])


def fitted(text, kind):
    """Characters or bits as a scalar of a type holds them."""
    fill, length = ("0" if kind[0] == BITS else " "), kind[1]
    return text[:length] if kind[0] == VARYING else text[:length].ljust(length, fill)


def given_value(constant, kind):
    """The value of a constant in INITIAL; NULL is the null pointer, and the offset 0."""
    if kind[0] in (POINTER, OFFSET):
        return first_value(kind)
    return faults.value(constant) if kind[0] == NUMBER else fitted(constant_value(faults.Word(constant))[1], kind)


def has_initial(item):
    return "INITIAL" in item.description.has or any(has_initial(member) for member in item.members)


def places_of(item):
    """Each scalar member of a variable, with the numbers of its scalars in row-major order."""
    found = {}

    def walk(part, first):
        for number in range(prod(high - low + 1 for low, high in part.description.bounds)):
            start = first + number * scalars_of(element_of(part))
            if not part.members:
                found.setdefault(id(part), (part, []))[1].append(start)
            for member in part.members:
                walk(member, start)
                start += scalars_of(whole_of(member))

    walk(item, 0)
    return list(found.values())


@remembered
def given_values(item):
    """The values that INITIAL gives, each with the number of its scalar."""
    return list(each_value(item))


def each_value(item):
    for each, numbers in places_of(item) if has_initial(item) else ():
        given = []
        for constant in each.description.given.get("INITIAL", ()):
            times, constant = (faults.value(constant[1]), constant[2]) if isinstance(constant, tuple) else (1, constant)
            given += [constant] * times
        kind = described(each.description) if not each.members else None
        for number, constant in zip(numbers, given):
            yield number, given_value(constant, kind)


def first_values(item):
    """The values with which a variable begins."""
    kinds = types_of(whole_of(item))
    values = [first_value(kind) for kind in kinds] if len(set(kinds)) > 1 else [first_value(kinds[0])] * len(kinds)
    for number, value in given_values(item):
        values[number] = value
    return values
