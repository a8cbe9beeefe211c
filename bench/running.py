"""Builds the yardstick, and runs it and the recorder on a guest."""

import resource
import subprocess
import sys
import time
from dataclasses import dataclass
from pathlib import Path

TOP = Path(__file__).resolve().parent.parent
REPORT_LINES = 8  # cause, hart, four of registers, csr and counters: what both programs tell


@dataclass
class Run:
    """What one run told, and the seconds that it took."""

    sent: bytes
    report: list
    processor: float
    clock: float


def build_yardstick(folder):
    program = Path(folder) / "yardstick"
    source = TOP / "bench" / "yardstick.c"
    subprocess.run(["cc", "-std=c11", "-D_POSIX_C_SOURCE=199309L", "-O2", "-o", program, source], check=True)
    return program


def run(words, console_input=b""):
    """Runs a command and takes its output apart; the report begins where a cause is told last."""
    before, began = resource.getrusage(resource.RUSAGE_CHILDREN), time.perf_counter()
    ran = subprocess.run([str(word) for word in words], input=console_input, stdout=subprocess.PIPE)
    ended, after = time.perf_counter(), resource.getrusage(resource.RUSAGE_CHILDREN)
    processor = after.ru_utime - before.ru_utime + after.ru_stime - before.ru_stime
    at = ran.stdout.rfind(b"cause ")
    if ran.returncode != 0 or at < 0:
        sys.exit(f"{words[0]} ended with status {ran.returncode} and told {ran.stdout[-200:]}")
    lines = ran.stdout[at:].decode().splitlines()
    return Run(ran.stdout[:at], lines[:REPORT_LINES], processor, ended - began)


def run_yardstick(yardstick, image, pages, limit, console_input=b""):
    return run([yardstick, image, pages, limit], console_input)


def run_recorder(program, image, log, pages, limit):
    return run([program, "record", image, log, "--pages", pages, "--limit", limit, "--rounds"])
