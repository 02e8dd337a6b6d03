#!/usr/bin/env python3
"""Joins the sample surveys of examples/survey by hand, and shows what the programs report and rewrite make of that.

  tests/joined_surveys.py [RUNNER...] REPORT REWRITE    the two programs, as target/bin/report target/bin/rewrite, and what runs them

A file that is joined by hand has one header with the sums of the counts, then the flag records of both files, one file's after the other's, then the value records likewise.
The samples ascend, and a file that is joined of them does not: the report has to refuse it at the second file's first record, and to take what is rewritten of it.
"""
import os, signal, sys
sys.dont_write_bytecode = True
from report_files import bad_place, header_place, records, refused, report, survey
from standard_input import Program

SAMPLES = os.path.join(os.path.dirname(os.path.abspath(__file__)), '..', 'examples', 'survey')


def sample(name):
    with open(os.path.join(SAMPLES, name), 'rb') as source:
        return source.read()


def joined(first, second):
    first_flags, first_values = records(first)
    second_flags, second_values = records(second)
    return survey(first_flags + second_flags, first_values + second_values)


def is_bulkhead(number):
    """Whether a cell of the samples is of the bulkhead, at x of 14 and 15; x stands below z and y in the id (docs/MEMORY.md)."""
    return number >> 32 & 0xFFFFFFFF in (14, 15)


def bulkhead(file):
    """What a sample has on the bulkhead, and all of its readings: two whole samples have more flag records than a file can."""
    flags, values = records(file)
    return survey([(number, word) for number, word in flags if is_bulkhead(number)], values)


def readings(file):
    return survey([], records(file)[1])


if len(sys.argv) < 3:
    sys.exit(__doc__)
signal.alarm(600)  # ends these runs where a program hangs
*runner, reporting, rewriting = sys.argv[1:]
reports, rewrites = Program('report', [*runner, reporting]), Program('rewrite', [*runner, rewriting])

samples = {name: sample(name) for name in sorted(os.listdir(SAMPLES)) if name.endswith('.survey')}
for name, file in samples.items():
    reports.expect(f'{name}: where it does not ascend', bad_place(file), None)
    reports.expect(name, reports.on_file(file), (report(file).encode(), '', 0))
    rewrites.expect(name, rewrites.on_file(file), (file, '', 0))

morning, reload = samples['morning.survey'], samples['reload.survey']
flags, values = (len(section) for section in records(bulkhead(morning)))
all_flags, all_values = (len(section) for section in records(morning))
# Both surveys read the same cells, and the reload some more: with each cell once, and the later record of it, the join is the reload, or the morning's flags with the reload's readings.
for what, file, place, once in [
    ('the bulkhead and the readings joined', joined(bulkhead(morning), bulkhead(reload)), 16 + 20 * flags, bulkhead(reload)),
    ('the same, the reload first', joined(bulkhead(reload), bulkhead(morning)), 16 + 20 * flags, survey(records(bulkhead(morning))[0], records(reload)[1])),
    ('readings joined to the morning', joined(morning, readings(reload)), 16 + 20 * all_flags + 24 * all_values, survey(records(morning)[0], records(reload)[1])),
    ('the bulkhead joined to itself', joined(bulkhead(morning), bulkhead(morning)), 16 + 20 * flags, bulkhead(morning)),
]:
    reports.expect(f'{what}: the place by the sentence', bad_place(file), place)
    reports.expect(what, reports.on_file(file), (refused(place).encode(), '', 0))
    got = rewrites.on_file(file)
    rewrites.expect(what, got, (once, '', 0))
    reports.expect(f'{what}, rewritten', reports.on_file(got[0]), (report(once).encode(), '', 0))

# Whole samples are too much for one file: both programs say so, at the count of flags.
whole = joined(morning, reload)
reports.expect('whole samples: the place by the header', header_place(whole), 2)
for program in reports, rewrites:
    program.expect('whole samples joined', program.on_file(whole), (refused(2).encode(), '', 0))
wrong = [program.say() for program in (reports, rewrites)]
sys.exit(any(wrong))
