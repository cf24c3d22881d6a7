"""linked.py: the faults of linking N1 to N6 of several units, for meaning.py.

It is written from the rules of linking alone, over what faults.py and typed.py make of each unit, and shares nothing with the compiler.
`faults_of(units)` takes units without faults of their own, in the order of their names, and answers the faults in their order: each a code,
and the name and the unit where the code has them.

Names of external procedures, and of variables and entries that are EXTERNAL, mean the same in all units. A variable of that kind agrees with
another where both are CONTROLLED or neither, and have one description and the same values written in INITIAL; an entry agrees with a procedure where parameters and results
do; a variable agrees with no procedure. Of N6 the bytes of STATIC variables are counted, and nothing else.
"""
from typed import signature_of_entry, signature_of_procedure, size_of, whole_of
from initial import given_values

MOST_STATIC_BYTES = 16_777_216


def own_items(unit):
    """What a unit declares that is no member, in the order of the text."""
    items = [item for block in unit.blocks.values() for item in block.items if not item.above]
    return sorted(items, key=lambda item: item.name.at)


def is_entry(item):
    return "ENTRY" in item.description.has


def is_external(item):
    """Whether a variable is one for all units."""
    return "EXTERNAL" in item.description.has and not is_entry(item)


def is_internal_static(item):
    return "STATIC" in item.description.has and not is_external(item)


def is_main(unit):
    return ("OPTIONS", "MAIN") in unit.tree[2]


def is_controlled(item):
    return "CONTROLLED" in item.description.has


def template(item):
    """What two declarations of a variable must have alike."""
    return is_controlled(item), whole_of(item), given_values(item)


def signature(unit):
    return signature_of_procedure(unit.blocks[id(unit.tree)])


def differs(item, procedure, first):
    """Whether an item of a name differs from the first procedure of that name, or else from the first variable."""
    if procedure:
        return not is_entry(item) or signature_of_entry(item.description) != signature(procedure)
    return not is_entry(item) and template(item) != template(first)


def first_of_each(units):
    """The first procedure of each name, and the first declaration of a variable of each name."""
    procedures, variables = {}, {}
    for unit in units:
        procedures.setdefault(unit.name, unit)
        for item in filter(is_external, own_items(unit)):
            variables.setdefault(item.name, item)
    return procedures, variables


def static_bytes(units, variables):
    counted = [item for unit in units for item in own_items(unit) if is_internal_static(item)]
    return sum(size_of(whole_of(item))[0] for item in [*counted, *variables.values()] if not is_controlled(item))


def faults_of(units):
    """The faults by code, name and unit, each once."""
    procedures, variables = first_of_each(units)
    mains, found = [unit for unit in units if is_main(unit)], set()
    if not mains:
        found.add((1, "", ""))
    found |= {(2, unit.name, unit.member) for unit in mains[1:]}
    found |= {(4, unit.name, unit.member) for unit in units if procedures[unit.name] is not unit}
    for unit in units:
        for item in own_items(unit):
            procedure = procedures.get(item.name)
            if is_entry(item) and not procedure:
                found.add((3, item.name, unit.member))
            if (is_entry(item) or is_external(item)) and differs(item, procedure, variables.get(item.name)):
                found.add((5, item.name, unit.member))
    if static_bytes(units, variables) > MOST_STATIC_BYTES:
        found.add((6, "", ""))
    return [(f"N{code}", name, member) for code, name, member in sorted(found)]
