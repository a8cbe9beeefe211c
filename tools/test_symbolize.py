#!/usr/bin/env python3
"""Tests of symbolize, over an ELF file that is made here."""
import contextlib
import importlib.machinery
import importlib.util
import io
import os
import struct
import sys
import tempfile
import unittest

sys.dont_write_bytecode = True
HERE = os.path.dirname(os.path.abspath(__file__))
loader = importlib.machinery.SourceFileLoader("symbolize", os.path.join(HERE, "symbolize"))
symbolize = importlib.util.module_from_spec(importlib.util.spec_from_loader("symbolize", loader))
loader.exec_module(symbolize)

# The null symbol, two functions, a label of a tool, a variable and a number.
NAMES = b"\0start\0main\0.Ltmp\0count\0size\0"
SYMBOLS = [(0, 0, 0, 0), (1, 0x80000000, 0, 1), (7, 0x80000010, 2, 1), (12, 0x80000014, 0, 1), (18, 0x80000018, 1, 1), (24, 0x80000004, 0, 0xfff1)]


def elf_file():
    """An ELF header, a symbol table at 52, its names, and a header for each section."""
    symbols = b"".join(struct.pack("<IIIBBH", name, value, 0, kind, 0, section) for name, value, kind, section in SYMBOLS)
    names_at = 52 + len(symbols)
    table = names_at + len(NAMES)
    head = b"\x7fELF\x01\x01\x01" + bytes(9) + struct.pack("<HHIIIIIHHHHHH", 2, 243, 1, 0x80000000, 0, table, 0, 52, 32, 0, 40, 3, 0)
    none = struct.pack("<10I", *[0] * 10)
    of_symbols = struct.pack("<10I", 0, 2, 0, 0, 52, len(symbols), 2, 1, 4, 16)
    of_names = struct.pack("<10I", 0, 3, 0, 0, names_at, len(NAMES), 0, 0, 1, 0)
    return head + symbols + NAMES + none + of_symbols + of_names


class Symbolize(unittest.TestCase):
    def test_functions_by_address(self):
        symbols = symbolize.symbols_of(elf_file())
        self.assertEqual(symbols, [(0x80000000, "start"), (0x80000010, "main")])
        self.assertEqual(symbolize.function_at(symbols, 0x7ffffffc), "?")
        self.assertEqual(symbolize.function_at(symbols, 0x80000000), "start")
        self.assertEqual(symbolize.function_at(symbols, 0x8000000c), "start+12")
        self.assertEqual(symbolize.function_at(symbols, 0x80000020), "main+16")

    def test_a_trace(self):
        with tempfile.TemporaryDirectory() as folder:
            elf, trace = os.path.join(folder, "guest.elf"), os.path.join(folder, "trace")
            with open(elf, "wb") as file:
                file.write(elf_file())
            with open(trace, "w", encoding="ascii") as file:
                file.write("0 80000000 800010b7 lui x1, 0x80001 x1=80001000\n4 80000014 -------- trap 1\nother image: 00 11\nshelf fault\n")
            out = io.StringIO()
            with contextlib.redirect_stdout(out):
                symbolize.main([trace, elf])
        self.assertEqual(out.getvalue(), "0 80000000 800010b7 lui x1, 0x80001 x1=80001000    start\n4 80000014 -------- trap 1    main+4\nother image: 00 11\nshelf fault\n")

    def test_another_file_is_refused(self):
        with self.assertRaises(SystemExit):
            symbolize.symbols_of(b"\x7fELF\x02\x01" + bytes(60))


if __name__ == "__main__":
    unittest.main()
