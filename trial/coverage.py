#!/usr/bin/env python3
"""Prints what `llvm-cov export` counted: coverage.py EXPORT...

For each file and in all: lines, regions and branches reached of all, and how often the branch least taken was. Then each
place that was not reached, with its line. A branch is a side of a condition; the arms of a match and the ways out by `?`
are regions."""
import json
import os
import sys
from collections import Counter

CODE = 0


def regions_of(name, functions):
    """How often each region of a file ran, over all instances of its function."""
    ran = Counter()
    for function in functions:
        for *place, count, file, _, kind in function['regions']:
            if kind == CODE and function['filenames'][file] == name:
                ran[tuple(place)] += count
    return ran


def sides_of(branches):
    """How often each condition came out true, and false."""
    taken = Counter()
    for *place, true, false, _, _, _ in branches:
        taken[tuple(place), 'true'] += true
        taken[tuple(place), 'false'] += false
    return taken


def not_reached(regions, sides):
    """Line, column and what; the regions of a line together."""
    idle = sorted(place for place, times in regions.items() if times == 0)
    for line, many in Counter(line for line, *_ in idle).items():
        column = min(column for at, column, *_ in idle if at == line)
        yield line, column, f"{many} region{'s' if many > 1 else ''}"
    for (place, side), times in sides.items():
        if times == 0:
            yield place[0], place[1], f'never {side}'


def reached(counts):
    return sum(times > 0 for times in counts.values()), len(counts)


def files(path):
    """Name, figures, taken sides and unreached places of each file of an export."""
    with open(path, encoding='utf-8') as export:
        data = json.load(export)['data'][0]
    for file in sorted(data['files'], key=lambda file: file['filename']):
        regions, sides = regions_of(file['filename'], data['functions']), sides_of(file['branches'])
        lines = file['summary']['lines']
        figures = [(lines['covered'], lines['count']), reached(regions), reached(sides)]
        yield os.path.relpath(file['filename']), figures, sides, sorted(not_reached(regions, sides))


def row(name, figures, sides):
    least = min((times for times in sides if times), default='-')
    print(f'{name:28}' + ''.join(f'{some:6} of {every:4}' for some, every in figures) + f'{least:>13}')


def main():
    every = [file for path in sys.argv[1:] for file in files(path)]
    print(f"{'file':28}{'lines':>14}{'regions':>14}{'branches':>14}{'least taken':>13}")
    for name, figures, sides, _ in every:
        row(name, figures, sides.values())
    totals = [tuple(map(sum, zip(*column))) for column in zip(*(figures for _, figures, _, _ in every))]
    row('in all', totals, [times for _, _, sides, _ in every for times in sides.values()])
    print('\nnot reached')
    for name, _, _, places in every:
        with open(name, encoding='utf-8') as source:
            text = source.read().split('\n')
        for line, column, what in places:
            print(f"{f'{name}:{line}:{column}':34}{what:12} {text[line - 1].strip()}")


main()
