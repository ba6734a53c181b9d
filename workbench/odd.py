"""The odd cases: sequences that stand in no row of the table. `tlsld` refuses each; another linker may make something
right of it.

Each has why it is odd, and does what its form would do where it is lawful: reach the variable, whatever a linker puts
there. Its twin reaches it by a form of the table, and says what is right.
"""
from functions import (DTPOFF32, GOTPC32_TLSDESC, GOTPCREL, GOTPCRELX, GOTTPOFF, PLT32, RUN_TIME, TLSDESC_CALL, TLSGD,
    TLSLD, TPOFF32, Function, Reach)
from plans import TABLE, CasePlan, ObjectPlan, Variable

GOTPC32, DTPOFF64, PLTOFF64 = 26, 17, 31
NAME, OWN = "shown", [Variable("before", "local"), Variable("shown", first=0x5100)]
ALL = ("static", "plain", "pie", "shared")


class OddFunction(Function):
    """A function whose sequence is written by parts, and puts the variable's address into %rax."""

    def __init__(self, code, name, form, parts):
        super().__init__(code, name, Reach(form, NAME))
        self.parts = parts

    def write(self):
        code = self.code
        code.begin(self.name)
        self.open()
        code.site(self.reach.form, lambda: emit(code, self.parts[0]))
        emit(code, self.parts[1])
        if self.reach.calls():
            self.ask_registers()
        self.close()
        code.end()


def emit(code, parts):
    """Writes parts: code as hexadecimal digits, or a field as its type, symbol, addend and size."""
    for part in parts:
        if isinstance(part, str):
            code.raw(part)
        else:
            code.field(*part)


GD, CALL, LD = (TLSGD, NAME), (PLT32, RUN_TIME), (TLSLD, NAME)
IE, DESC, AT = (GOTTPOFF, NAME), (GOTPC32_TLSDESC, NAME), (TLSDESC_CALL, NAME, 0, 0)
OFFSET = ["488d80", (DTPOFF32, NAME, 0)]        # lea x@dtpoff(%rax), %rax
POINTER = ["6448030425 00000000"]               # add %fs:0, %rax
KEEP = ["4889c0"]                               # mov %rax, %rax
# Each: a name, why it is odd, the form that it is nearest to, the sequence, what stands behind it, and the kinds of
# image.
FORMS = [
    ("gd-unpadded", "gd without padding: its 12 bytes are too few for what is put in place of 16",
        "gd", ["488d3d", GD, "e8", CALL], KEEP),
    ("gd-half-padded", "gd with padding before lea alone", "gd", ["66488d3d", GD, "e8", CALL], KEEP),
    ("gd-call-padded", "gd with padding before call alone", "gd", ["488d3d", GD, "666648e8", CALL], KEEP),
    ("gd-padded-otherwise", "gd with other prefixes before its call", "gd", ["66488d3d", GD, "2e2e48e8", CALL], KEEP),
    ("gd-nop-inside", "gd with an instruction between its two", "gd", ["66488d3d", GD, "90", "666648e8", CALL], KEEP),
    ("gd-moves-inside", "gd with a move between its two", "gd", ["66488d3d", GD, "4889c0", "666648e8", CALL], KEEP),
    ("gd-in-rsi", "gd that names %rsi, which is moved to %rdi", "gd", ["66488d35", GD, "4889f7", "e8", CALL], KEEP),
    ("gd-through-register", "gd whose call goes through a register",
        "gd", ["66488d3d", GD, "488b05", (GOTPCREL, RUN_TIME), "ffd0"], KEEP),
    ("gd-ind-unpadded", "gd-ind with padding before lea alone",
        "gd-ind", ["66488d3d", GD, "ff15", (GOTPCRELX, RUN_TIME)], KEEP),
    ("gd-ind-padded-otherwise", "gd-ind with another prefix before its call",
        "gd-ind", ["66488d3d", GD, "2e48ff15", (GOTPCRELX, RUN_TIME)], KEEP),
    ("gd-large", "gd of the large code model", "gd",
        ["488d3d", GD, "48b8", (PLTOFF64, RUN_TIME, 0, 8), "4801d8", "ffd0"], KEEP),
    ("ld-padded", "ld padded as gd", "ld", ["66488d3d", LD, "666648e8", CALL], OFFSET),
    ("ld-nop-inside", "ld with an instruction between its two", "ld", ["488d3d", LD, "90", "e8", CALL], OFFSET),
    ("ld-prefix", "ld with a prefix before its call", "ld", ["488d3d", LD, "2ee8", CALL], OFFSET),
    ("ld-in-rsi", "ld that names %rsi, which is moved to %rdi", "ld", ["488d35", LD, "4889f7", "e8", CALL], OFFSET),
    ("ld-through-register", "ld whose call goes through a register",
        "ld", ["488d3d", LD, "488b05", (GOTPCREL, RUN_TIME), "ffd0"], OFFSET),
    ("ld-large", "ld of the large code model",
        "ld", ["488d3d", LD, "48b8", (PLTOFF64, RUN_TIME, 0, 8), "4801d8", "ffd0"], OFFSET),
    ("ld-wide-offset", "ld with an offset of eight bytes", "ld", ["488d3d", LD, "e8", CALL],
        ["48b9", (DTPOFF64, NAME, 0, 8), "4801c8"]),
    ("ie-narrow", "ie of 32 bits, whose number is extended behind it", "ie-mov", ["8b05", IE], ["4898", *POINTER]),
    ("ie-movslq", "ie that extends 32 bits as it loads", "ie-mov", ["486305", IE], POINTER),
    ("ie-subtracts", "ie that subtracts, and is negated behind it",
        "ie-add", ["31c0", "482b05", IE], ["48f7d8", *POINTER]),
    ("ie-pushes", "ie that pushes, and is popped behind it", "ie-mov", ["ff35", IE], ["58", *POINTER]),
    ("ie-or", "ie that is or-ed to zero", "ie-add", ["31c0", "480b05", IE], POINTER),
    ("ie-xor", "ie that is xor-ed to zero", "ie-add", ["31c0", "483305", IE], POINTER),
    ("ie-and", "ie that is and-ed to ones", "ie-add", ["48c7c0ffffffff", "482305", IE], POINTER),
    ("ie-compares", "ie that is compared with itself, by which its number is taken or not", "ie-add",
        ["488b0d", IE, "31c0", "483b0d", IE], ["480f44c1", *POINTER]),
    ("ie-cmov", "ie that moves where equal", "ie-mov", ["31c0", "480f4405", IE], POINTER),
    ("ie-imul", "ie that is multiplied by one: its field is not at its end",
        "ie-mov", ["486905", (GOTTPOFF, NAME, -8), "01000000"], POINTER),
    ("ie-tests", "ie that is tested, and then loaded", "ie-mov", ["4831c0", "488505", IE, "488b05", IE], POINTER),
    ("ie-vector", "ie that is loaded into a vector's register", "ie-mov", ["f30f7e05", IE], ["66480f7ec0", *POINTER]),
    ("desc-rcx", "a descriptor in %rcx", "desc", ["488d0d", DESC, "4889c8", AT, "ff10"], POINTER),
    ("desc-r9", "a descriptor in %r9", "desc", ["4c8d0d", DESC, "4c89c8", AT, "ff10"], POINTER),
    ("desc-call-rcx", "a descriptor that is called through %rcx",
        "desc", ["488d05", DESC, "4889c1", AT, "ff11"], POINTER),
    ("desc-call-displaced", "a descriptor's call with a displacement of a byte",
        "desc", ["488d05", DESC, AT, "ff5000"], POINTER),
    ("desc-call-loads", "a descriptor's function that is loaded before the call",
        "desc", ["488d05", DESC, "488b08", AT, "ffd1"], POINTER),
    ("desc-call-rex", "a descriptor's call with a prefix", "desc", ["488d05", DESC, AT, "48ff10"], POINTER),
]
LARGE = ("gd-large", "ld-large")


class LargeFunction(OddFunction):
    """A function of the large code model, which wants the address of the offset table in %rbx."""

    def open(self):
        super().open()
        self.code.raw("488d1d")
        self.code.field(GOTPC32, TABLE)

    def ask_registers(self):
        """%rbx is the offset table's."""
        self.code.compare("rbp", 0x11223305)
        self.loses("ne", 5)


def twin(form):
    plan = ObjectPlan(OWN)
    Function(plan.code(), "f0", Reach(form, NAME)).write()
    return {"first.o": plan}


def case(name, why, form, sequence, behind, kinds=ALL):
    plan = ObjectPlan(OWN)
    kind = LargeFunction if name in LARGE else OddFunction
    kind(plan.code(), "f0", form, (sequence, behind)).write()
    return CasePlan(f"odd-{name}", why, {"first.o": plan}, kinds, (True,), why=why, twin=twin(form))


def bare(sequence):
    """A function in an object without variables, which returns 0."""
    plan = ObjectPlan()
    code = plan.code()
    code.begin("f0")
    code.raw("50")
    if sequence:
        code.site("ld", lambda: emit(code, sequence))
    code.raw("59 31c0 c3")
    code.end()
    return {"first.o": plan}


def no_variables():
    """Local dynamic code by a shared object's variable, where no object has one: nothing is reached, and the call has
    to return.
    """
    why = "ld in an image that has no variable"
    objects = bare(["488d3d", (TLSLD, "lib_first"), "e8", CALL])
    return CasePlan("odd-ld-nothing", why, objects, ("plain", "pie", "shared"), (True,), True, why, bare([]))


def unknown_base():
    """Descriptors of the symbol by which gcc -mtls-dialect=gnu2 finds two variables of a file."""
    plan = ObjectPlan(OWN)
    sequence = ["488d05", (GOTPC32_TLSDESC, "_TLS_MODULE_BASE_"), (TLSDESC_CALL, "_TLS_MODULE_BASE_", 0, 0), "ff10"]
    OddFunction(plan.code(), "f0", "desc", (sequence, [*OFFSET, *POINTER])).write()
    why = "a descriptor of _TLS_MODULE_BASE_, which no object defines"
    return CasePlan("odd-desc-base", why, {"first.o": plan}, ALL, (True,), why=why, twin=twin("desc"))


def in_module():
    """A distance from the thread pointer in a module, which knows none."""
    plan = ObjectPlan(OWN)
    OddFunction(plan.code(), "f0", "le", (["64488b042500000000"], ["488d80", (TPOFF32, NAME, 0)])).write()
    why = "local exec in a module, whose block has no distance that a linker knows"
    return CasePlan("odd-le-module", why, {"first.o": plan}, ("shared",), (True,), why=why, twin=twin("gd"))


def cases():
    for row in FORMS:
        yield case(*row)
    yield no_variables()
    yield unknown_base()
    yield in_module()
