#!/usr/bin/env python3
"""Runs the report program on standard input, and holds what it prints to what must be printed.

  tests/report_program.py COMMAND...    COMMAND runs the program, as target/bin/report

Each of the files of tests/report_files.py, and some that are longer or end near 4,096 bytes, is its standard input as a file, and through a pipe in pieces: the next piece is written when the
program has read the one before. Then reads and writes that fail.
"""
import signal, sys
sys.dont_write_bytecode = True
from report_files import FILES, LONG, report
from standard_input import Program


def wanted(file):
    return report(file).encode()


if not sys.argv[1:]:
    sys.exit(__doc__)
signal.alarm(600)  # ends these runs where the program hangs
program = Program('report', sys.argv[1:])
program.with_files({**FILES, **LONG}, wanted)
program.with_failures(FILES['document'], wanted)
sys.exit(program.say())
