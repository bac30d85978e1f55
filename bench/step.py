#!/usr/bin/env python3
"""Times `pccrun step` on large scripts. Outside the gate; needs Linux.

    bench/step.py [PROGRAM]

PROGRAM is a built pccrun, by default crates/pccrun/out/pccrun. For each input, at full and at half size, it prints the
seconds of processor time (user and system, the best of five runs), the megabytes of input and of output per second, and
the peak memory; then how much the seconds and the memory grow from half size to full size (2.0 is in proportion).
"""

import fcntl
import os
import random
import struct
import subprocess
import sys
import tempfile
from dataclasses import dataclass
from pathlib import Path
from typing import Callable

PROGRAM = Path(__file__).resolve().parent.parent / "crates" / "pccrun" / "out" / "pccrun"
RUNS = 5
MEGA = 1_000_000

# The most bytes of input that the program takes.
MOST_INPUT = 4_194_304

# The bytes of the header in front of the communication space.
SPACE_AT = 8

# The code by which a Bank takes its space in and gives out what it held.
EXCHANGE = 16


def generic_subspace(memory: int) -> bytes:
    """A generic subspace structure, of type 0, with so many bytes of shared memory (ACPI 6.5, 14.1.3)."""
    doorbell = struct.pack("<BBBBQ", 0, 32, 0, 3, 0xFED0_0000)
    before = struct.pack("<BB6xQQ", 0, 62, 0x8000_0000, memory)
    return before + doorbell + struct.pack("<QQIIH", 0xFFFF_FFFE, 1, 1000, 0, 0)


def table(structures: bytes) -> bytes:
    """A PCCT with these structures: its bytes sum to 0 modulo 256 (ACPI 6.5, 14.1)."""
    length = 48 + len(structures)
    header = (b"PCCT", length, 2, 0, b"PCCRUN", b"EXAMPLE1", 1, b"TEST", 1, 0, 0)
    whole = bytearray(struct.pack("<4sIBB6s8sI4sIIQ", *header) + structures)
    whole[9] = -sum(whole) % 256
    return bytes(whole)


def script(calls: int, size: int, memory: int) -> bytes:
    """A script of exchanges of so many random bytes each, by four workers in turn."""
    numbers = random.Random(1)
    head = f"table {table(generic_subspace(memory)).hex()}\nclock 0 10\nopen 0 bank\n"
    lines = (f"call {i % 4} 0 {EXCHANGE} {numbers.randbytes(size).hex()} 3 0\n" for i in range(calls))
    return (head + "".join(lines)).encode()


@dataclass
class Input:
    """A script whose number of calls can be halved."""

    name: str
    calls: int
    text: Callable[[int], bytes]


INPUTS = [
    # Long texts: the journal gets its 4,096 records, and each call prints the whole space three times.
    Input("4,096 calls of 480 bytes, space of 4,096", 4_096, lambda n: script(n, 480, SPACE_AT + 4_096)),
    # Many lines: all calls but the first 4,096 find the journal full.
    Input("65,536 calls of 16 bytes, space of 16", 65_536, lambda n: script(n, 16, SPACE_AT + 16)),
]


@dataclass
class Measured:
    """One input at one size: megabytes, and seconds of processor time."""

    read: float
    written: float
    seconds: float
    peak: float


def peak_so_far(pid: int, before: float) -> float:
    """The most megabytes that the process had in memory, or what was seen before where it has ended."""
    try:
        status = Path(f"/proc/{pid}/status").read_text(encoding="ascii")
    except (FileNotFoundError, ProcessLookupError):
        return before
    kilobytes = [int(line.split()[1]) for line in status.splitlines() if line.startswith("VmHWM:")]
    return kilobytes[0] * 1024 / MEGA if kilobytes else before


def written_and_peak(program: str, file: Path) -> tuple[float, float]:
    """The megabytes of output, and of peak memory. It reads through a pipe of one page, so that the program still runs, and its
    memory can be looked at, until its last bytes are read. (What wait4 tells of memory counts this script's own, too.)"""
    with open(file, "rb") as text, subprocess.Popen([program, "step"], stdin=text, stdout=subprocess.PIPE, bufsize=0) as run:
        fcntl.fcntl(run.stdout.fileno(), fcntl.F_SETPIPE_SZ, 4096)
        written, peak = 0, 0.0
        while piece := run.stdout.read(65_536):
            written += len(piece)
            peak = peak_so_far(run.pid, peak)
    if run.returncode != 0:
        sys.exit(f"{program} step: status {run.returncode}")
    return written / MEGA, peak


def processor_seconds(program: str, file: Path) -> float:
    """User and system time of one run, whose output goes nowhere."""
    with open(file, "rb") as text:
        run = subprocess.Popen([program, "step"], stdin=text, stdout=subprocess.DEVNULL)
        _, status, usage = os.wait4(run.pid, 0)
    run.returncode = os.waitstatus_to_exitcode(status)
    return usage.ru_utime + usage.ru_stime


def measure(program: str, text: bytes, file: Path) -> Measured:
    if len(text) > MOST_INPUT:
        sys.exit(f"an input of {len(text)} bytes is too long")
    file.write_bytes(text)
    written, peak = written_and_peak(program, file)
    seconds = min(processor_seconds(program, file) for _ in range(RUNS))
    return Measured(len(text) / MEGA, written, seconds, peak)


def report(name: str, m: Measured) -> None:
    seconds = max(m.seconds, 1e-6)
    print(
        f"  {name:<5} {m.seconds:8.4f} s   in {m.read:6.2f} MB {m.read / seconds:8.1f} MB/s"
        f"   out {m.written:7.2f} MB {m.written / seconds:8.1f} MB/s   peak {m.peak:7.1f} MB"
    )


def main() -> None:
    if len(sys.argv) > 2:
        sys.exit("usage: bench/step.py [PROGRAM]")
    program = sys.argv[1] if len(sys.argv) == 2 else str(PROGRAM)
    if not os.access(program, os.X_OK):
        sys.exit(f"{program}: no program here; build it, or name another")
    with tempfile.TemporaryDirectory() as folder:
        file = Path(folder) / "script"
        for case in INPUTS:
            print(case.name)
            half = measure(program, case.text(case.calls // 2), file)
            report("half", half)
            full = measure(program, case.text(case.calls), file)
            report("full", full)
            growth = full.seconds / max(half.seconds, 1e-6)
            print(f"  growth of seconds {growth:.2f}, of peak memory {full.peak / max(half.peak, 1e-6):.2f}")


if __name__ == "__main__":
    main()
