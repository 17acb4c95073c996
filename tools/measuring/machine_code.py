"""The machine code of a linked program for x86-64, as `objdump` of binutils shows it: its instructions, and where each leads."""
import bisect
import dataclasses
import os
import re
import subprocess
import sys

PREFIXES = {"lock", "rep", "repz", "repnz", "bnd", "notrack", "data16", "addr32", "cs", "ds", "es", "ss", "fs", "gs"}
RETURNS, STOPS = {"ret", "retq"}, {"ud2", "hlt", "int3"}
# What the register of a result holds: 0, another value, or what it held when the function began.
ZERO, OTHER, UNTOUCHED = "zero", "other", "untouched"
RESULT = re.compile(r"(?:.*,)?%(?:[re]?ax|a[lh])$")
# Instructions that only read their operands, and those that write the register of a result though they don't name it last.
READING = ("cmp", "test", "push", "bt", "ucomi", "comi", "nop")
WRITING = re.compile(r"call|cmpxchg|xchg|xadd|cpuid|rdtsc|xgetbv|lods|cqto|cltq|cwtl|cltd|(?:i?mul|i?div)[bwlq]? [^,]*$")


class Refused(Exception):
    """Why a function has no longest path."""


@dataclasses.dataclass(frozen=True)
class Instruction:
    address: int
    prefixes: frozenset
    name: str
    operands: str
    comment: str

    def cost(self):
        """How many instructions and memory operands it counts. The compiler's padding counts nothing."""
        if self.is_padding():
            return 0, 0
        named = re.sub("<.*>", "", self.operands)
        return 1, (named.count("(") or int("%fs:" in named)) if self.name != "lea" else 0

    def is_padding(self):
        return self.name.startswith("nop") or (self.name, self.operands) == ("xchg", "%ax,%ax")

    def is_jump(self):
        return self.name.startswith(("j", "loop"))

    def is_call(self):
        return self.name.startswith("call")

    def is_repeated(self):
        return bool(self.prefixes & {"rep", "repz", "repnz"}) and self.name not in RETURNS

    def target(self):
        """The address that a jump or a call leads to, or None if a register or a word of memory has it."""
        found = re.match(r"([0-9a-f]+)(?: <|$)", self.operands)
        return int(found.group(1), 16) if found else None

    def result_after(self, before):
        """What the register of a result holds behind it."""
        cleared = self.name in ("xor", "sub") and re.fullmatch(r"%([re])ax,%\1ax", self.operands)
        if cleared or self.name == "mov" and re.fullmatch(r"\$0x0,%[re]ax", self.operands):
            return ZERO
        written = RESULT.match(self.operands) and not self.name.startswith(READING)
        return OTHER if written or WRITING.match(f"{self.name} {self.operands}") else before


def parsed(address, text):
    code, _, comment = text.partition("#")
    words, prefixes = code.split(), set()
    while words and (words[0] in PREFIXES or words[0].startswith("rex")):
        prefixes.add(words.pop(0))
    name, operands = (words[0], " ".join(words[1:])) if words else ("nop", "")
    return Instruction(address, frozenset(prefixes), name, operands, comment.strip())


class Code:
    """The instructions by their addresses, the address behind each, and the names of functions by their first address."""

    def __init__(self, program):
        self.at, self.behind, self.names, last = {}, {}, {}, None
        words = ["objdump", "-d", "--no-show-raw-insn", "--wide", str(program)]
        text = subprocess.run(words, env={**os.environ, "LC_ALL": "C"}, capture_output=True, text=True, check=True).stdout
        if "elf64-x86-64" not in text:
            sys.exit(f"{program} has no machine code for x86-64")
        for line in text.splitlines():
            if line.startswith("Disassembly of section"):
                last = None
            elif head := re.match(r"([0-9a-f]+) <(.*)>:$", line):
                self.names[int(head.group(1), 16)] = head.group(2)
            elif found := re.match(r"\s+([0-9a-f]+):\t(.+)$", line):
                address = int(found.group(1), 16)
                self.at[address] = parsed(address, found.group(2))
                if last is not None:
                    self.behind[last] = address
                last = address
        self.starts = sorted(self.names)

    def function(self, address):
        """The name of the function that an address lies in."""
        place = bisect.bisect_right(self.starts, address)
        return self.names[self.starts[place - 1]] if place else f"{address:x}"

    def outside(self, instruction):
        """The name of the function of another library that a call or a jump leads to, or None."""
        target = instruction.target()
        if target is not None:
            name = self.names.get(target, "")
            return name.removesuffix("@plt") if name.endswith("@plt") else None
        named = re.search(r"<([^>+]+)>$", instruction.comment)
        return named.group(1).split("@")[0] if named and "(%rip)" in instruction.operands else None

    def leads_to(self, instruction):
        """The addresses of the instructions that can be next in the function. There is none at a return, and where the program ends."""
        behind = self.behind.get(instruction.address)
        if instruction.name in RETURNS | STOPS:
            return []
        if (instruction.is_jump() or instruction.is_call()) and instruction.target() is None and not self.outside(instruction):
            kind = "call" if instruction.is_call() else "jump"
            raise Refused(f"an indirect {kind} at {instruction.address:x} in {self.function(instruction.address)}")
        if instruction.is_jump():
            on = [behind] if instruction.name not in ("jmp", "jmpq") else []
            return on if self.outside(instruction) else [instruction.target(), *on]
        # Behind a call that doesn't return is padding, or another function.
        ends = behind in self.names and (instruction.is_call() or instruction.is_padding())
        return [] if behind is None or ends else [behind]
