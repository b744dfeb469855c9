"""Memory: one call of `malloc` or `realloc` refused, the first, the second and so on, by stopping the program there (Linux on x86-64)."""

from __future__ import annotations

import ctypes
import os
import platform
import signal
import struct
import subprocess
import tempfile
from collections.abc import Sequence
from pathlib import Path

from ..program import Outcome

TRACE_ME, CONTINUE, STEP, GET_REGISTERS, SET_REGISTERS, DETACH = 0, 7, 9, 12, 13, 17
REGISTERS, RAX, RIP, RSP = 27, 10, 16, 19
ENTRY_POINT = 9
BREAKPOINT, NOTHING_DONE = b"\xcc", b"\xf3\x0f\x1e\xfa"
DYNAMIC_SYMBOLS = 11
ALLOCATIONS = (b"malloc", b"realloc")

libc = ctypes.CDLL(None, use_errno=True)
libc.ptrace.argtypes = [ctypes.c_long, ctypes.c_long, ctypes.c_void_p, ctypes.c_void_p]
libc.ptrace.restype = ctypes.c_long


def can_stop_programs() -> bool:
    """Whether this machine can do what this module does."""
    return platform.system() == "Linux" and platform.machine() == "x86_64"


def trace(request: int, pid: int, data: object = None) -> None:
    """A request to ptrace."""
    if libc.ptrace(request, pid, None, data) == -1:
        raise OSError(ctypes.get_errno(), f"ptrace request {request}")


def symbol_offset(path: str, name: bytes) -> int:
    """Where a shared library has a function, from the library's start on."""
    with open(path, "rb") as file:
        library = file.read()
    (start,) = struct.unpack_from("<Q", library, 0x28)
    size, count = struct.unpack_from("<HH", library, 0x3A)
    sections = [struct.unpack_from("<IIQQQQIIQQ", library, start + size * k) for k in range(count)]
    for section in sections:
        if section[1] == DYNAMIC_SYMBOLS:
            names = sections[section[6]][4]
            for place in range(section[4], section[4] + section[5], 24):
                label, _, _, _, value, _ = struct.unpack_from("<IBBHQQ", library, place)
                begin = names + label
                if value and library[begin : library.index(b"\0", begin)] == name:
                    return int(value)
    raise ValueError(f"{path} has no {name!r}")


class Stopped:
    """A program that is stopped before its first step, and then where it, or what it has loaded, calls `malloc` or `realloc`."""

    def __init__(self, pid: int) -> None:
        self.pid = pid
        self.registers = (ctypes.c_ulonglong * REGISTERS)()
        self.wait()
        self.memory = os.open(f"/proc/{pid}/mem", os.O_RDWR)
        self.run_to(self.entry_point())
        self.first_bytes: dict[int, bytes] = {}
        for name in ALLOCATIONS:
            address = self.address_of(name)
            self.first_bytes[address] = os.pread(self.memory, 4, address)
            os.pwrite(self.memory, BREAKPOINT, address)

    def wait(self) -> int | None:
        """The status with which the program has ended, or None where it is only stopped."""
        _, told = os.waitpid(self.pid, 0)
        return os.waitstatus_to_exitcode(told) if os.WIFEXITED(told) or os.WIFSIGNALED(told) else None

    def entry_point(self) -> int:
        """Where the program begins."""
        with open(f"/proc/{self.pid}/auxv", "rb") as file:
            return next(int(value) for key, value in struct.iter_unpack("<QQ", file.read()) if key == ENTRY_POINT)

    def address_of(self, name: bytes) -> int:
        """Where the program has a function of the C library."""
        with open(f"/proc/{self.pid}/maps", encoding="utf-8") as file:
            for line in file:
                path = line.split()[-1]
                if "/libc.so" in path or "/libc-" in path:
                    return int(line.split("-")[0], 16) + symbol_offset(path, name)
        raise ValueError("the program has no C library")

    def read_registers(self) -> None:
        """Takes the registers of the program."""
        trace(GET_REGISTERS, self.pid, self.registers)

    def write_registers(self) -> None:
        """Gives the program the registers."""
        trace(SET_REGISTERS, self.pid, self.registers)

    def run_to(self, address: int) -> None:
        """Lets the program run up to an address."""
        there = os.pread(self.memory, 1, address)
        os.pwrite(self.memory, BREAKPOINT, address)
        trace(CONTINUE, self.pid)
        self.wait()
        os.pwrite(self.memory, there, address)
        self.read_registers()
        self.registers[RIP] = address
        self.write_registers()

    def run_to_call(self) -> int | None:
        """Runs to the next call: None, or the status with which the program has ended before."""
        trace(CONTINUE, self.pid)
        return self.wait()

    def pass_call(self) -> None:
        """Lets the call begin as if nothing stood there."""
        self.read_registers()
        called = self.registers[RIP] - len(BREAKPOINT)
        if self.first_bytes[called] == NOTHING_DONE:
            self.registers[RIP] = called + len(NOTHING_DONE)
            self.write_registers()
            return
        self.registers[RIP] = called
        self.write_registers()
        os.pwrite(self.memory, self.first_bytes[called][:1], called)
        trace(STEP, self.pid)
        self.wait()
        os.pwrite(self.memory, BREAKPOINT, called)

    def refuse_call(self) -> None:
        """Has the call return a null pointer at once, and lets the program go on alone."""
        self.read_registers()
        back = os.pread(self.memory, 8, self.registers[RSP])
        (self.registers[RIP],) = struct.unpack("<Q", back)
        self.registers[RSP] += 8
        self.registers[RAX] = 0
        self.write_registers()
        for address, first in self.first_bytes.items():
            os.pwrite(self.memory, first[:1], address)
        trace(DETACH, self.pid)


def run_refusing(path: Path, words: Sequence[str], folder: Path, refused: int | None) -> tuple[Outcome, int]:
    """Runs the program with its call number `refused` of `malloc` or `realloc` refused: what it came to, and how many calls there were before
    its end or that call."""
    with tempfile.TemporaryFile() as out, tempfile.TemporaryFile() as err:
        process = subprocess.Popen(
            [path, *words], cwd=folder, stdin=subprocess.DEVNULL, stdout=out, stderr=err, preexec_fn=lambda: trace(TRACE_ME, 0)
        )
        stopped, calls = Stopped(process.pid), 0
        status: int | None = None
        try:
            while status is None:
                status = stopped.run_to_call()
                if status is None:
                    calls += 1
                    if calls == refused:
                        stopped.refuse_call()
                        status = stopped.wait()
                    else:
                        stopped.pass_call()
        finally:
            os.close(stopped.memory)
            if status is None:
                os.kill(process.pid, signal.SIGKILL)
            process.returncode = 0 if status is None else status
        out.seek(0)
        err.seek(0)
        return Outcome(tuple(words), status, out.read(), err.read()), calls
