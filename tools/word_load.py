#!/usr/bin/env python3
"""Fails when the compiled reader no longer loads the eight bytes from a field's first column as one word (crates/columns, eight_bytes), or
when a field costs a call. Makes the libraries for C and looks at each count of zero bits in them: there is no other than that of blanks.
Needs objdump and nm; the libraries are for x86-64. Run it after a change of crates/columns or crates/reader."""
import os
import re
import subprocess
import sys

LIBRARIES = ['checker', 'conversion', 'measuring']
BLANKS = '$0x2020202020202020'
# a whole 64-bit register, and eight bytes of memory that are neither on the stack nor a constant
WORD = r'%r(?:[a-d]x|[sd]i|bp|8|9|1[0-5])'
MEMORY = r'-?(?:0x[0-9a-f]+)?\((?!%rsp|%rip)[^)]*\)'
# how far above its count a word may be loaded
NEAR = 12
# one call of these for each field
READER = re.compile(r' [Tt] (columns::\S+|reader::(?:LineReader::next|field_at)\S*)', re.M)

# a word that is one load, and one in two halves
ONE = ['movabs $0x2020202020202020,%rdi', 'mov    (%r9),%r8', 'xor    %rdi,%r8', 'mov    $0x40,%r10d', 'tzcnt  %r8,%r10']
HALVES = ['movabs $0x2020202020202020,%rdi', 'mov    (%r9),%r8d', 'mov    0x4(%r9),%r11d', 'shl    $0x20,%r11', 'or     %r8,%r11',
          'xor    %rdi,%r11', 'mov    $0x40,%r10d', 'tzcnt  %r11,%r10']


def last_write(register, before):
    """the last instruction, and what stands above it, that writes a 64-bit register or a part of it"""
    number = register[2:]
    parts = {'ax': 'a', 'bx': 'b', 'cx': 'c', 'dx': 'd'}.get(number)
    names = '%[re]?' + number + ('|%' + parts + '[lh]' if parts else '|' + register + '[dwb]|%' + number + 'l')
    for i in range(len(before) - 1, -1, -1):
        if re.search(r'(?:,|\s)(?:%s)$' % names, before[i]) and not re.match('cmp|test|push|j', before[i]):
            return before[i], before[:i]
    return '', []


def is_blanks(register, before):
    """blanks were put into the register; the last line that writes it may be of another way through the function"""
    return any(re.match(r'movabs\s+\%s,%s$' % (BLANKS, register), code) for code in before)


def is_load(register, before):
    return bool(re.match(r'mov\s+%s,%s$' % (MEMORY, register), last_write(register, before[-NEAR:])[0]))


def of_one_load(code, before):
    """what is counted is eight bytes of memory, blanks taken from them bit by bit"""
    counted = re.match(r'(?:rep )?(?:tzcnt|bsf)\s+(%s),' % WORD, code)
    if not counted:
        return False
    register = counted.group(1)
    differing, above = last_write(register, before)
    operands = re.match(r'xor\s+(\S+),%s$' % register, differing)
    if not operands:
        return False
    other = operands.group(1)
    if re.fullmatch(MEMORY, other):
        return is_blanks(register, above)
    return is_blanks(other, above) and is_load(register, above) or is_blanks(register, above) and is_load(other, above)


def functions(library):
    """the code of each function"""
    listing = subprocess.run(['objdump', '-d', '--no-show-raw-insn', library], check=True, capture_output=True, text=True).stdout
    for part in re.split(r'\n[0-9a-f]+ <', listing)[1:]:
        name, rest = part.split('>:', 1)
        yield name, [line.split('\t')[-1].split('#')[0].strip() for line in rest.splitlines() if '\t' in line]


def look(library):
    """what is wrong with a library, and how many words it has"""
    names = subprocess.run(['nm', library], check=True, capture_output=True, text=True).stdout
    wrong = ['%s is a function of its own: the reader is too large to be put into its callers' % name for name in READER.findall(names)]
    places = 0
    for name, codes in functions(library):
        counts = [i for i, code in enumerate(codes) if re.match('(?:rep )?(?:tzcnt|bsf)', code)]
        places += len(counts)
        wrong += ['a word in %s is not one load' % name for i in counts if not of_one_load(codes[i], codes[:i])]
        if not counts and any(re.match(r'cmpb\s+\$0x20,', code) for code in codes):
            wrong.append('%s looks for blanks byte by byte, and on no word' % name)
    return wrong + ([] if places else ['there is no word']), places


def main():
    os.chdir(os.path.dirname(os.path.abspath(__file__)) + '/..')
    if not of_one_load(ONE[-1], ONE[:-1]) or of_one_load(HALVES[-1], HALVES[:-1]):
        print('word_load: it does not know one load from two')
        return 1
    bad = 0
    subprocess.run(['tools/library.sh', *LIBRARIES], check=True)
    for library in LIBRARIES:
        wrong, places = look('target/staticlib/lib%s.a' % library)
        for what in wrong:
            print('word_load: lib%s.a: %s' % (library, what))
        bad += len(wrong)
        if not wrong:
            print('word_load: lib%s.a: ok, %d places' % (library, places))
    return 1 if bad else 0


sys.exit(main())
