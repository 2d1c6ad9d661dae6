#!/usr/bin/env python3
"""Plays journals with their expected output through a program: journals.py [--report] FILE PROGRAM [ARGUMENT...].

Each case's journal goes to the program's standard input; its whole standard output must be the case's lines. With --report they
are those of a season report, where a farm without a line has ten zeros. On standard error it may name the record that is bad, and
say nothing else.
Ends with "N journals, M failed", status 1 if any failed or the file has no case."""
import re
import subprocess
import sys


def bytes_of(words):
    out = b''
    for word in words:
        times, star, group = word.rpartition('*')
        out += bytes.fromhex(group) * (int(times) if star else 1)
    return out


def expand(line):
    words = line.split()
    if words[0] in ('e', 'f') and words[3:] != ['-']:
        words[3:] = [bytes_of(words[3:]).hex().upper()]
    return ' '.join(words)


def cases(text):
    lines = []
    for whole in text.split('\n'):
        line = whole.split('#')[0].rstrip()
        if whole.strip() and not line.strip():
            continue
        if line.startswith(' ') and lines:
            lines[-1] += line
        else:
            lines.append(line)
    case = None
    for line in lines:
        key, _, rest = line.partition(' ')
        if key == 'case':
            case = {'name': rest, 'journal': b'', 'out': []}
            yield case
        elif key == 'journal':
            case['journal'] += bytes_of(rest.split())
        elif key == 'out':
            case['out'].append(expand(rest))
        elif key == 'again':
            case['journal'] *= int(rest)
            case['out'] *= int(rest)
        elif key not in ('', 'source', 'note'):
            sys.exit(f'unknown key: {line}')


def report(lines):
    """The lines of all 16 farms, then the others; a line out of its order is among these."""
    others = list(lines)
    for farm in range(1, 17):
        given = others and others[0].startswith(f'r {farm} ')
        yield others.pop(0) if given else f'r {farm}' + 10 * ' 0'
    yield from others


def heard(said, out, record):
    """Nothing, or that the record is bad where the output ends with that word."""
    return re.fullmatch(f'(standard input: record {record} is bad\n)?' if out.endswith('bad\n') else '', said)


def main():
    reports = sys.argv[1] == '--report'
    path, *program = sys.argv[1 + reports:]
    every = list(cases(open(path, encoding='utf-8').read()))
    failed = 0
    for case in every:
        lines = report(case['out']) if reports else case['out']
        expected = ''.join(line + '\n' for line in lines)
        run = subprocess.run(program, input=case['journal'], capture_output=True, check=False)
        got, said = run.stdout.decode(), run.stderr.decode()
        if got != expected or not heard(said, got, '[0-9]+' if reports else len(case['out'])):
            failed += 1
            print(f"case {case['name']}: expected\n{expected}got\n{got}and on standard error\n{said}")
    print(f'{len(every)} journals, {failed} failed')
    sys.exit(1 if failed or not every else 0)


main()
