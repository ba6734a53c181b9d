"""Random lawful cases: variables, functions, kinds and settings drawn from a seed. The same seed makes the same cases.
"""
import random

from assembler import REGISTERS
from functions import FORMS, Function, Reach
from plans import ELEMENTS, KINDS, CasePlan, ObjectPlan, Variable

LIBRARY = ["lib_first", "lib_second", "lib_zero"]


def variables(draw, count, prefix):
    """Variables of one object."""
    made = []
    for at in range(count):
        binding = draw.choice(["own", "own", "local", "hidden", "weak", "protected"])
        zero = draw.random() < 0.4
        made.append(Variable(f"{prefix}{at}", binding, zero, draw.choice([0, 0, 4, 12, 100, 5000 if zero else 40]),
            draw.choice([4, 4, 8, 16, 64, 256]), 0x5000 + 0x100 * at + 0x1000 * (prefix == "next_")))
    return made


def reach(draw, own, foreign, kind):
    """A way to one of the variables: of an object's own by any form, of others by those that need no place in the
    block.
    """
    forms = FORMS + (["le"] if kind != "shared" else [])
    form = draw.choice(forms)
    near = form in ("ld", "ld-ind", "le")
    variable = draw.choice(own if near else own + foreign)
    register = draw.choice(REGISTERS) if form in ("ie-mov", "ie-add") else "rax"
    added = 4 * draw.randrange(ELEMENTS) if near else 0
    return Reach(form, variable, register, added, between=draw.randrange(4) if form == "desc" else 0)


def case(draw, name):
    """One case."""
    kind = draw.choice(KINDS)
    library = kind != "static" and draw.random() < 0.3
    first = variables(draw, draw.randint(1, 4), "near_")
    second = variables(draw, draw.randint(1, 3), "next_") if draw.random() < 0.3 else []
    own = [it.name for it in first]
    foreign = [it.name for it in second if it.binding != "local"] + (LIBRARY if library else [])
    plan = ObjectPlan(first)
    code = plan.code()
    sections = [code, plan.code(".text.more")] if draw.random() < 0.3 else [code]
    for at in range(draw.randint(1, 5)):
        way = reach(draw, own, foreign, kind)
        Function(draw.choice(sections) if at else code, f"f{at}", way, draw.randrange(3)).write()
    plan.codes = [it for it in plan.codes if it[2].bytes]
    objects = {"first.o": plan} | ({"second.o": ObjectPlan(second)} if second else {})
    return CasePlan(name, "random", objects, (kind,), (draw.random() < 0.75,), library)


def cases(seed, count):
    """As many cases of a seed."""
    draw = random.Random(seed)
    return [case(draw, f"random-{seed}-{at:03}") for at in range(count)]
