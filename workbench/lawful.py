"""The cases of lawful sequences that were thought of: every form, binding and register, and places that are easy to get
wrong.
"""
from assembler import REGISTERS
from functions import FORMS, GOTPCREL, PC32, REX_GOTPCRELX, Function, Reach
from plans import KINDS, TOP, CasePlan, GivenObject, ObjectPlan, Variable

BINDINGS = {
    "own": "a variable of its own", "local": "a variable that no other file sees", "hidden": "a hidden variable",
    "weak": "a weak variable", "protected": "a protected variable", "other": "another object's variable",
    "lib": "a shared object's variable",
}
# The types of relocation that a call may have beside the usual ones, which are PLT32 and GOTPCRELX.
CALLS = [("gd", PC32, "pc32"), ("ld", PC32, "pc32"), ("gd-ind", GOTPCREL, "gotpcrel"), ("ld-ind", GOTPCREL, "gotpcrel"),
    ("gd-ind", REX_GOTPCRELX, "rex-gotpcrelx"), ("ld-ind", REX_GOTPCRELX, "rex-gotpcrelx")]


def written(plan, code, reaches):
    """Writes a function for each way to a variable, and answers the plan."""
    for at, reach in enumerate(reaches):
        Function(code, f"f{at}", reach, at).write()
    return plan


def ways(form, variable):
    """Each way to write a form: by every register that it can name, of others twice; a descriptor's parts may stand
    apart.
    """
    if form in ("ie-mov", "ie-add"):
        return [Reach(form, variable, it) for it in REGISTERS]
    if form == "desc":
        return [Reach(form, variable, between=it) for it in (0, 0, 5)]
    return [Reach(form, variable)] * 2


def bound(form, binding):
    """A case: a form, in each way, to a variable of this binding."""
    name = "lib_second" if binding == "lib" else "shown"
    objects = {}
    own = [Variable("before", "local"), Variable("shown", binding, first=0x5100), Variable("after", "local", zero=True)]
    plan = ObjectPlan(own if binding not in ("other", "lib") else [Variable("unused", "local")])
    objects["first.o"] = written(plan, plan.code(), ways(form, name))
    if binding == "other":
        objects["second.o"] = ObjectPlan([Variable("before", "local"), Variable("shown", first=0x5100)])
    kinds = ("plain", "pie", "shared") if binding == "lib" else ("static", "plain", "pie", "shared")
    return CasePlan(f"{form}-{binding}", f"{form} of {BINDINGS[binding]}", objects, kinds, library=binding == "lib")


def bindings():
    for form in FORMS:
        for binding in BINDINGS:
            if not (form.startswith("ld") and binding == "lib"):
                yield bound(form, binding)


def alone(name, about, reaches, variables, **words):
    """A case of one object with one section of code."""
    plan = ObjectPlan(variables, words.pop("order", None))
    return CasePlan(name, about, {"first.o": written(plan, plan.code(), reaches)}, **words)


def every_form(variable):
    return [Reach(form, variable) for form in FORMS]


def calls():
    for form, call, name in CALLS:
        about = f"{form} with a call by R_X86_64_{name.upper().replace('-', '_')}"
        yield alone(f"{form}-{name}", about, [Reach(form, "shown", call=call)], [Variable("shown", first=0x5100)])


def offsets():
    far = [Variable("near", first=0x5200), Variable("shown", first=0x5100, before=0x7f000, zero=True)]
    yield alone("far", "each form, with a variable far from the thread pointer", every_form("near"), far)
    yield alone("far-zero", "each form, of a variable behind half a million zeros", every_form("shown"), far)
    aligned = [Variable("first"), Variable("shown", first=0x5100, before=3, alignment=4096),
        Variable("zero", zero=True, alignment=64)]
    yield alone("aligned", "each form, of a variable that is aligned to 4,096", every_form("shown"), aligned)
    added = [Reach(form, "shown", addend=4 * at) for form in ("ld", "ld-ind", "le") for at in range(4)]
    own = [Variable("before", "local"), Variable("shown", first=0x5100)]
    yield alone("addends", "offsets and distances with addends", added, own, kinds=("static", "plain", "pie"))
    in_module = [it for it in added if it.form != "le"]
    yield alone("addends-module", "offsets with addends, in a module", in_module, own, kinds=("shared",))


def orders():
    own = [Variable("before", "local"), Variable("shown", first=0x5100)]
    yield alone("order-falling", "relocations from the last to the first", every_form("shown"), own,
        order=lambda it: it[::-1])
    yield alone("order-seconds-last", "the calls' relocations behind all others", every_form("shown"), own,
        order=lambda it: sorted(it, key=lambda field: field.symbol == "__tls_get_addr"))


def split(code, at, rest):
    """Moves what stands from a place on into another section's code."""
    rest.begin("rest")
    rest.bytes += code.bytes[at:]
    rest.functions[-1][2] = len(rest.bytes)
    for taken, kept in ((rest.fields, code.fields), (rest.sites, code.sites)):
        taken += [it for it in kept if it.at >= at]
        kept[:] = [it for it in kept if it.at < at]
        for it in taken:
            it.at -= at
    code.functions[-1][2] = at
    del code.bytes[at:]


def cut(reach, begins):
    """A case whose function goes on in the next object, before its last sequence or behind it."""
    first, second = ObjectPlan([Variable("shown", first=0x5100)]), ObjectPlan()
    code = first.code(alignment=1)
    Function(code, "f0", reach).write()
    site = code.sites[-1]
    split(code, site.at if begins else site.at + site.length, second.code(alignment=1))
    what = f"{reach.form} as the {'first' if begins else 'last'} bytes of a section"
    name, objects = f"{'begin' if begins else 'end'}-{reach.form}", {"first.o": first, "second.o": second}
    return CasePlan(name, what, objects, settings=(True,))


def ends():
    for form in FORMS:
        yield cut(Reach(form, "shown"), True)
        yield cut(Reach(form, "shown"), False)


def compiled():
    """What gcc makes of C: the objects of examples/c, whose functions tests/c_runs.sh runs at other levels too."""
    names = ["next", "before", "add"]
    # of descriptors gcc made code of -O0, and add has instructions that the machine of tlsld does not know
    for end, about, kinds, called in (("", "-fPIC", KINDS, names), ("-descriptors", "-fPIC -mtls-dialect=gnu2", KINDS,
            names[:2]), ("-local", "-fPIE", KINDS[:3], names)):
        objects = {f"{at}.o": GivenObject(f"{TOP}/examples/c/objects/{name}{end}.o")
            for at, name in (("first", "counters"), ("second", "sums"))}
        yield CasePlan(f"c{end or '-pic'}", f"C as gcc {about} compiles it", objects, kinds, names=called)


def cases():
    """All of them."""
    yield from bindings()
    yield from calls()
    yield from offsets()
    yield from orders()
    yield from ends()
    yield from compiled()
