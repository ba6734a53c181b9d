"""The functions of the corpus: each reaches a variable by one sequence, with all that code may rely on set before and
read behind.

A function takes a number and returns what the variable held; it has added the number to it by then. If something was
lost that the form leaves, it returns another number: above 2^32, and the part above says what (LOST). So a case returns
values and no addresses. What each form leaves is in docs/SEQUENCES, "What code may rely on": `make.py` asks `tlsld
check` whether each function is clean.
"""
import struct

from assembler import REGISTERS, number

PC32, PLT32, GOTPCREL, TLSGD, TLSLD, DTPOFF32, GOTTPOFF, TPOFF32 = 2, 4, 9, 19, 20, 21, 22, 23
GOTPC32_TLSDESC, TLSDESC_CALL, GOTPCRELX, REX_GOTPCRELX = 34, 35, 41, 42
RUN_TIME = "__tls_get_addr"
SAVED = ["rbx", "rbp", "r12", "r13", "r14", "r15"]
LOST = [*REGISTERS, "the stack below %rsp", "the zero flag", "the sign flag", "the carry flag", "the overflow flag"]
BELOW = len(REGISTERS)
FORMS = ["gd", "gd-ind", "ld", "ld-ind", "ie-mov", "ie-add", "desc"]
# The states of the flags that are set before a form that leaves them: a comparison, and the jumps that are taken if one
# is lost.
FLAG_STATES = [("less", ["ne", "s", "b", "no"]), ("equal", ["e", "ns", "ae", "no"]),
    ("overflowing", ["ne", "s", "b", "o"])]
OPPOSITE = {"e": "ne", "ne": "e", "s": "ns", "ns": "s", "b": "ae", "ae": "b", "o": "no", "no": "o"}


def canary(register):
    """The number that a register holds over a sequence."""
    return 0x11223300 + number(register)


class Reach:
    """How a function reaches its variable: a form, the variable's name, a register where the form names one, and what
    it adds.
    """

    def __init__(self, form, variable, register="rax", addend=0, call=None, between=0):
        self.form, self.variable, self.register, self.addend, self.between = form, variable, register, addend, between
        self.call = call or (GOTPCRELX if form.endswith("-ind") else PLT32)

    def calls(self):
        return self.form in ("gd", "gd-ind", "ld", "ld-ind")

    def kept(self):
        """The registers that have a number of their own over the sequence, and keep it."""
        if self.calls():
            return SAVED
        lost = {"rsp", self.register} | ({"rax", "rbx"} if self.register == "rsp" else set())
        return [it for it in REGISTERS if it not in lost]

    def keeps_flags(self):
        return self.form in ("ie-mov", "desc")

    def keeps_below(self):
        return not self.calls() and self.form != "le" and self.register != "rsp"


def load(code, operation, reach, kind):
    """mov, add or lea of a word that is reached from the instruction's end."""
    at = number(reach.register)
    code.raw(f"{0x4c if at > 7 else 0x48:02x}{operation}{5 + at % 8 * 8:02x}")
    code.field(kind, reach.variable)


def sequence(code, reach):
    """The sequence, byte for byte as the table has it; of descriptors the first part."""
    if reach.form == "gd":
        code.raw("66488d3d")
        code.field(TLSGD, reach.variable)
        code.raw("666648e8")
        code.field(reach.call, RUN_TIME)
    elif reach.form == "gd-ind":
        code.raw("66488d3d")
        code.field(TLSGD, reach.variable)
        code.raw("6648ff15")
        code.field(reach.call, RUN_TIME)
    elif reach.form in ("ld", "ld-ind"):
        code.raw("488d3d")
        code.field(TLSLD, reach.variable)
        code.raw("e8" if reach.form == "ld" else "ff15")
        code.field(reach.call, RUN_TIME)
    elif reach.form == "desc":
        load(code, "8d", reach, GOTPC32_TLSDESC)
    else:
        load(code, "8b" if reach.form == "ie-mov" else "03", reach, GOTTPOFF)


def descriptor_call(code, reach):
    code.field(TLSDESC_CALL, reach.variable, 0, 0)
    code.raw("ff10")


def set_flags(code, register, state):
    """Gives all four flags the values of a state."""
    if state == "overflowing":
        code.raw(("41" if number(register) > 7 else "") + f"81{0xf8 + number(register) % 8:02x}00000080")
    else:
        code.compare(register, canary(register) + (state == "less"))


class Function:
    """A function in the making."""

    def __init__(self, code, name, reach, state=0):
        self.code, self.name, self.reach, self.lost = code, name, reach, []
        self.state, self.taken = FLAG_STATES[state % len(FLAG_STATES)]

    def loses(self, condition, what):
        """Ends the function by what is lost if this condition holds."""
        self.code.jump(condition, f"lost {what}")
        self.lost.append(what)

    def open(self):
        code, reach = self.code, self.reach
        for register in [*SAVED, "rdi"]:
            code.push(register)
        for register in reach.kept():
            code.set(register, canary(register))
        if reach.register == "rsp":
            code.move("rsp", "rbx")
        if reach.keeps_below():
            code.raw("48c74424f8" + struct.pack("<i", canary("rsp")).hex())
        if reach.form == "ie-add":
            code.thread_pointer(0x8b, reach.register)
        if reach.keeps_flags():
            set_flags(code, "rbp" if reach.register in ("rbx", "rsp") else "rbx", self.state)

    def back_from_stack(self):
        """Where the stack's pointer was named, the answer goes into %rax, and the pointer is as it was."""
        if self.reach.register == "rsp":
            self.code.move("rsp", "rax")
            self.code.move("rbx", "rsp")

    def ask_flags(self):
        if self.reach.keeps_flags():
            for at, condition in enumerate(self.taken):
                self.loses(OPPOSITE[condition], BELOW + 1 + at)

    def ask_below(self):
        if self.reach.keeps_below():
            self.code.raw("48817c24f8" + struct.pack("<i", canary("rsp")).hex())
            self.loses("ne", BELOW)

    def ask_registers(self):
        for register in self.reach.kept():
            self.code.compare(register, canary(register))
            self.loses("ne", number(register))

    def address(self):
        """Puts the variable's address into %rax, from what the sequence left."""
        code, reach = self.code, self.reach
        if reach.form in ("ld", "ld-ind"):
            code.raw("488d80")
            code.field(DTPOFF32, reach.variable, reach.addend)
        if reach.register not in ("rax", "rsp"):
            code.move(reach.register, "rax")
        if reach.form in ("ie-mov", "desc"):
            code.thread_pointer(0x03, "rax")

    def close(self):
        """Adds the argument to the variable, and returns what it held; behind it stands what is returned if something
        is lost.
        """
        code = self.code
        code.raw("488b1424 8b08 01ca 8910 89c8")
        code.label("back")
        for register in ["rdi", *reversed(SAVED)]:
            code.pop(register)
        code.raw("c3")
        for what in self.lost:
            code.label(f"lost {what}")
            code.raw("b8" + struct.pack("<i", what + 1).hex())
            code.go("lost")
        if self.lost:
            code.label("lost")
            code.raw("48c1e020")
            code.go("back")

    def write(self):
        code, reach = self.code, self.reach
        code.begin(self.name)
        self.open()
        if reach.form == "le":
            code.thread_pointer(0x8b, "rax")
            code.raw("488d80")
            code.field(TPOFF32, reach.variable, reach.addend)
        elif reach.form == "desc":
            code.site("desc-lea", lambda: sequence(code, reach))
            self.ask_flags()
            self.ask_below()
            code.raw("90" * reach.between)
            code.site("desc-call", lambda: descriptor_call(code, reach))
        else:
            code.site(reach.form, lambda: sequence(code, reach))
            self.back_from_stack()
            self.ask_flags()
            self.ask_below()
        self.ask_registers()
        self.address()
        self.close()
        code.end()
