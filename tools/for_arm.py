#!/usr/bin/env python3
"""Says the machine of a library's bitcode anew: 64-bit Arm in place of x86-64.

    tools/for_arm.py <X86-64.ll >AARCH64.ll

The kit makes the archive for Arm itself (tools/archives); this is the second way to one, to which tests/for_arm.sh holds it.

The bitcode is what the kit made of a proved crate, as LLVM's text. What is computed stays as it is, line by line. Said anew are
  - the target: its name, data layout and processor;
  - a struct that an exported function gives back in memory: on x86-64 C hands its place over as the first argument and takes it back as the answer, on
    Arm it hands it over in a register of its own, which LLVM calls sret;
  - a struct of more than 16 bytes that is handed over by value: x86-64 has a copy on the stack, Arm the address of one.
All other arguments and answers of exported functions are whole numbers, pointers and structs of at most 8 bytes, which both machines hand over one by one. A
struct of 9 to 16 bytes is refused, and one of at most 8 where x86-64 has no register left for it: Arm has more of them.
That this is all that differs is assumed, not proved (README.md). So a module is refused, with the line, unless each of its lines has a shape that was seen to
mean the same on both machines; the status is 1 then.
"""
import re
import sys

LAYOUT = 'target datalayout = "e-m:e-p270:32:32-p271:32:32-p272:64:64-i64:64-i128:128-f80:128-n8:16:32:64-S128"'
TRIPLE = 'target triple = "x86_64-unknown-linux-gnu"'
# What LLVM itself knows to be the same anywhere.
INTRINSICS = r'@llvm\.(?:memmove|memcpy|memset|trap|ctlz|cttz|ctpop)(?:\.|\()'
PROCESSOR = ' "target-cpu"="x86-64"'
# Of exported functions: the answer, an argument, and a struct by value. A struct that fits into a register is a number that may be undefined in parts.
ANSWER = re.compile(r'void|noundef (?:zeroext )?i1|(?:noundef )?i(?:8|16|32|64)|noundef ptr')
ARGUMENT = re.compile(r'(?:i1|i8|i16|i32|i64|ptr) noundef %a\d+')
IN_A_REGISTER = re.compile(r'i(?:8|16|32|64) %a\d+')
IN_MEMORY = re.compile(r'ptr noundef byval\(\[(\d+) x i8\]\) (align \d+ %a\d+)')
EXPORTED = re.compile(r'define (.*?) @([A-Za-z_]\w*)\((.*)\) (#\d+ \{)')
# Outside functions.
OUTSIDE = re.compile(
    r'$|;|source_filename = "rattle"$'
    rf'|declare \S+ {INTRINSICS}'  # and no function of C's
    r'|@\S+ = (?:private|internal) unnamed_addr constant \[\d+ x i8\] '
    r'|attributes #\d+ = \{ [^"]*(?:"probe-stack"="inline-asm" )?(?:"stack-probe-size"="3072" )?\}$'
    r'|!')
# In functions: these instructions, the rows of a switch, and labels; and nothing that is of one machine, or that lets a compiler round otherwise.
INSTRUCTIONS = '|'.join((
    'alloca load store getelementptr call br switch ret unreachable select phi icmp fcmp add sub mul udiv sdiv urem srem and or xor shl lshr ashr '
    'fadd fsub fmul fdiv fneg zext sext trunc bitcast sitofp uitofp fptosi fptoui extractvalue insertvalue').split())
INSIDE = re.compile(rf'(?:|[\w.]+:|  (?:%[\w.]+ = )?(?:{INSTRUCTIONS})(?: .*)?|    i(?:8|16|32|64) -?\d+, label %[\w.]+|  \]|\}})(?: *;.*)?$')
NOT_INSIDE = re.compile(rf'\basm\b|(?!{INTRINSICS})@llvm\.|\b(?:fast|contract|reassoc|afn|arcp|nnan|ninf|nsz|i128|x86_\w+|fp128|inalloca|sret|byval|musttail|swiftself|va_arg)\b')


def refuse(number, line, why):
    sys.exit(f'tools/for_arm.py: line {number}: {why}: {line}')


def exported(number, line, found):
    """The head of an exported function, and whether it gives back a struct in memory."""
    answer, name, arguments, rest = found.groups()
    if not ANSWER.fullmatch(answer):
        refuse(number, line, 'this answer is not known to be the same on Arm')
    words = arguments.split(', ') if arguments else []
    in_memory = answer == 'noundef ptr'
    if in_memory:
        if not words or words[0] != 'ptr noundef %a0':
            refuse(number, line, 'a pointer is given back that is not the place of a struct')
        answer, words[0] = 'void', 'ptr noundef sret(i8) %a0'
    registers = 0  # one after the other, each a struct's
    for place, word in enumerate(words[in_memory:], in_memory):
        struct = IN_MEMORY.fullmatch(word)
        registers = registers + 1 if IN_A_REGISTER.fullmatch(word) else 0
        if struct and int(struct[1]) > 16:
            words[place] = f'ptr noundef {struct[2]}'
        elif not (ARGUMENT.fullmatch(word) or registers == 1):
            refuse(number, line, f'this argument is not known to be the same on Arm: {word}')
    return f'define {answer} @{name}({", ".join(words)}) {rest}', in_memory


def main():
    out, seen, inside, in_memory = [], set(), False, False
    for number, line in enumerate(sys.stdin.read().split('\n'), 1):
        if inside:
            if not INSIDE.match(line) or NOT_INSIDE.search(line.split(', !')[0]):
                refuse(number, line, 'this is not known to be the same on Arm')
            if line == '}':
                inside = in_memory = False
            elif in_memory and re.match(r' *ret ', line):
                if line.strip() != 'ret ptr %a0':
                    refuse(number, line, 'a pointer is given back that is not the place of a struct')
                line = line.replace('ret ptr %a0', 'ret void')
        elif line in (LAYOUT, TRIPLE):
            if line in seen:
                refuse(number, line, 'it is said twice')
            seen.add(line)
            continue
        elif line.startswith('define internal '):
            if NOT_INSIDE.search(line):
                refuse(number, line, 'this is not known to be the same on Arm')
            inside = True
        elif EXPORTED.fullmatch(line):
            line, in_memory = exported(number, line, EXPORTED.fullmatch(line))
            inside = True
        else:
            line = line.replace(PROCESSOR, '') if line.startswith('attributes ') else line
            if not OUTSIDE.match(line):
                refuse(number, line, 'this is not known to be the same on Arm')
        out.append(line)
    if len(seen) != 2:
        sys.exit('tools/for_arm.py: this is no module for x86-64 as the kit makes it: its target is another, or not said')
    sys.stdout.write('\n'.join(out))


main()
