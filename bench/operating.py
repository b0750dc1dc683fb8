#!/usr/bin/env python3
"""Runs the tool's lines ('$ undo ..') in the stories of docs/OPERATING.md, each over a store as it is before its story's cycle or withdrawal, and compares the answers that stand there.

usage: bench/operating.py PROGRAM             the answers that are others
       bench/operating.py PROGRAM --write     puts the real answers into the page

Stores come from the stories' data cases (story-of-* of tests/cases/cycles and tests/cases/withdraw), up to their first cycle or withdrawal. Of the names of kept files and of keys that the tool made the moment is not compared.
"""
import importlib.machinery, importlib.util, os, re, subprocess, sys, tempfile

TOP = os.path.dirname(os.path.dirname(os.path.abspath(__file__)))
PAGE = os.path.join(TOP, 'docs', 'OPERATING.md')
# a story's heading, the case that has its script, how the lines that begin a second store in it begin, and what is asked behind the first store
STORIES = {'### A filter by mistake': ('cycles/story-of-a-filter-by-mistake', None, ' POST /cycle '), '### An infected delivery': ('cycles/story-of-an-infected-delivery', "printf 'From: postmaster@mail.test\\n", ' POST /cycle '), '### A wrong alias': ('cycles/story-of-a-wrong-alias', None, ' POST /cycle '),
           '### A cycle that was a mistake': ('withdraw/story-of-a-cycle-that-was-a-mistake', None, ' POST /withdraw ')}

def loaded(path):
    loader = importlib.machinery.SourceFileLoader('undo_tests', path)
    module = importlib.util.module_from_spec(importlib.util.spec_from_loader('undo_tests', loader))
    sys.dont_write_bytecode = True
    loader.exec_module(module)
    return module

tests = loaded(os.path.join(TOP, 'tests', 'undo'))

def script(case, until):
    """The lines of a story before the first that asks so."""
    text = open(os.path.join(TOP, 'tests', 'cases', case + '.case')).read()
    lines = text.partition('=== stdin\n')[2].partition('=== stdout')[0].splitlines()
    return lines[:next(place for place, line in enumerate(lines) if until in line)]

def answered(server, command):
    """What a command line answers, with what is typed in the middle of it."""
    env = {**os.environ, 'UNDO_PORT': str(server.port), 'UNDO_STORE': 'store', 'TZ': 'Europe/Berlin', 'PATH': os.path.dirname(tests.UNDO) + ':' + os.environ['PATH'], 'PYTHONIOENCODING': 'utf-8'}
    said = subprocess.run(['sh', '-c', command], cwd=server.folder, input='yes\n', stdout=subprocess.PIPE, stderr=subprocess.STDOUT, text=True, env=env).stdout
    return said.replace('Write yes: ', 'Write yes: yes\n').rstrip('\n').split('\n') if said else []

def lines_of_the_tool(lines, start, end):
    """The places of the tool's command lines between two places, and of what stands below each."""
    for place in range(start, end):
        command = re.match(r"    \$ (undo .*|printf 'From: postmaster@mail.test\\nS.*> clean.eml)$", lines[place])
        if command:
            until = place + 1
            while lines[until].startswith('    ') and not lines[until].startswith('    $ ') or (not lines[until] and lines[until + 1].startswith('    ') and not lines[until + 1].startswith('    $ ')): until += 1
            yield command[1], place + 1, until

def masked(lines): return [re.sub(r'\d{8}T\d{6}Z(-\d+)?|undo \d{4}-\d\d-\d\d \d\d:\d\d:\d\dZ [0-9a-f]{6}', 'T', line) for line in lines]

def main():
    if len(sys.argv) not in (2, 3) or sys.argv[2:] not in ([], ['--write']): sys.exit(__doc__)
    tests.PROGRAM = os.path.abspath(sys.argv[1])
    lines = open(PAGE).read().split('\n')
    changes = []
    for heading, (case, second, until) in STORIES.items():
        start = lines.index(heading)
        end = next(place for place in range(start + 1, len(lines)) if lines[place].startswith('### '))
        stores, found = [tempfile.TemporaryDirectory() for _ in range(2)], list(lines_of_the_tool(lines, start, end))
        with stores[0] as one, stores[1] as two, tests.Server(one, script(case, until)) as first, tests.Server(two, script(case, until)) as other:
            server = first
            for command, begins, ends in found:
                if second and command.startswith(second): server = other
                got, there = [('    ' + line).rstrip() for line in answered(server, command)], lines[begins:ends]
                if masked(got) != masked(there): changes.append((begins, ends, got, command))
    for begins, ends, got, command in reversed(changes):
        print(f'{command}: another answer')
        lines[begins:ends] = got
    if changes and sys.argv[2:]: open(PAGE, 'w').write('\n'.join(lines))
    sys.exit(1 if changes and not sys.argv[2:] else 0)

main()
