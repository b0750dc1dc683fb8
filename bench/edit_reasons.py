#!/usr/bin/env python3
"""Says for each edit why the prover refuses it: for a goal that is open, or only for a name, a type or a text that is not there. The latter shows nothing.

usage: bench/edit_reasons.py BUILT [--jobs N] [--note] [NAME ..]
       BUILT: a checkout of the same text in which `rt ci` has run, so that its crates/*/out/rlib hold the libraries
       NAME: a crate, all of whose edits are tried, or CRATE/EDIT; without any all of must-fail/ and more-edits/
       --note: writes the goal and the day into each edit of more-edits/ that was refused for one (bench/edits.py says how)

Each edit is made in a copy of its crate, and the functions that it changes are checked alone, over the libraries of BUILT. A line each:
CRATE/EDIT, then `a goal: ITS NAME`, `a name: THE MESSAGE`, `PROVED`, or `slow`. The status is 0 where each was refused for a goal.
An edit of a line that is in no function (a constant, a field) is checked with the whole crate.
"""
import concurrent.futures, datetime, edits as ledger, glob, os, re, shutil, subprocess, sys, tempfile

TOP = os.path.dirname(os.path.dirname(os.path.abspath(__file__)))
KIT = os.path.dirname(os.path.dirname(os.path.realpath(shutil.which('rt'))))

def needs():
    rows = (line.split('#')[0].partition(':') for line in open(f'{TOP}/crates.txt'))
    return {name.split()[0]: uses.split() for name, _, uses in rows if name.strip()}

def below(uses, name, seen):
    for it in uses[name]:
        if it in uses and it not in seen: seen.append(it); below(uses, it, seen)
    return seen

def command(built, uses, crate, folder):
    root = 'src/lib.rt' if os.path.exists(f'{folder}/src/lib.rt') else 'src/main.rt'
    words = [f'{KIT}/bin/rattle', 'check', '--crate-name', crate, root, '--extern', f'std={KIT}/rlibs/std.rlib', '-L', f'dependency={KIT}/rlibs']
    for it in uses[crate]: words += ['--extern', f'{it}={built}/crates/{it}/out/rlib/{it}.rlib' if it in uses else f'{it}={KIT}/rlibs/{it}.rlib']
    for it in below(uses, crate, []): words += ['-L', f'dependency={built}/crates/{it}/out/rlib']
    return words + ['--antt-project', f'{KIT}/rattle/logic/antt-project.json', '--logic-built', f'{KIT}/logic_built', '--links', f'{crate}=', '--jobs', '1']

def function_at(crate, path, text, at):
    """The path of the function in whose lines a place stands, or none."""
    module = '::'.join([crate, *path[len('src/'):-len('.rt')].split('/')]) if path not in ('src/lib.rt', 'src/main.rt') else crate
    owner = name = None
    for line in text[:at + 1].split('\n'):
        if found := re.match(r'impl(?:<.*?>)? (?:(\w+)(?:<(\w+).*?>)? for )?&?(\w+)', line): owner = found[3][:1].upper() + found[3][1:] + (found[1] or '') + (found[2] or '')
        elif line.startswith('}'): owner = name = None
        elif found := re.match(r'\s*(?:pub(?:\(.*?\))? )?fn (\w+)', line): name = found[1]
    return name and '::'.join([module] + ([owner] if owner else []) + [name])

def made(edit, folder, crate):
    """Makes an edit in a copy of its crate, and tells which functions it changes."""
    found, path, old = set(), None, ''
    for word, rest in re.findall(r'(?m)^(file|old|new): ?(.*)$', open(edit).read()):
        if word == 'file': path = rest.strip()
        elif word == 'old': old = rest
        else:
            text = open(f'{folder}/{path}').read()
            if text.count(old) != 1: raise ValueError(f'{text.count(old)} times in {path}: {old}')
            found.add(function_at(crate, path, text, text.index(old)))
            with open(f'{folder}/{path}', 'w') as out: out.write(text.replace(old, rest))
    return found

def reason(built, uses, edit):
    crate = edit.split(os.sep)[-3]
    with tempfile.TemporaryDirectory(prefix='edit-') as at:
        folder = f'{at}/{crate}'
        shutil.copytree(f'{TOP}/crates/{crate}', folder, ignore=shutil.ignore_patterns('out'))
        try: functions = made(edit, folder, crate)
        except ValueError as why: return f'does not fit: {why}'
        words = command(built, uses, crate, folder)
        if None not in functions:
            for it in sorted(functions): words += ['--only', it]
        try: done = subprocess.run(words, cwd=folder, stdout=subprocess.PIPE, stderr=subprocess.STDOUT, text=True, timeout=900)
        except subprocess.TimeoutExpired: return 'slow: no end within 900 s'
    if done.returncode == 0: return 'PROVED'
    goals = sorted(set(re.findall(r'it is not proved that [^\n]*\(`([^`\n]+)`\)', done.stdout)))
    if goals: return 'a goal: ' + ', '.join(goals[:4])
    return 'a name: ' + next((line.strip() for line in done.stdout.split('\n') if 'error' in line), done.stdout.strip()[:200])

def main():
    words, jobs = sys.argv[1:], 2
    if noted := '--note' in words: words.remove('--note')
    if '--jobs' in words: at = words.index('--jobs'); jobs = int(words[at + 1]); del words[at:at + 2]
    if not words or words[0].startswith('-'): sys.exit(__doc__)
    built, names = os.path.abspath(words[0]), words[1:]
    edits = sorted(glob.glob(f'{TOP}/crates/*/must-fail/*.edit') + glob.glob(f'{TOP}/crates/*/more-edits/*.edit'))
    label = lambda edit: f'{edit.split(os.sep)[-3]}/{os.path.basename(edit)[:-5]}'
    chosen = [it for it in edits if not names or label(it) in names or label(it).split('/')[0] in names]
    uses, bad = needs(), 0
    with concurrent.futures.ThreadPoolExecutor(jobs) as pool:
        for edit, why in zip(chosen, pool.map(lambda it: reason(built, uses, it), chosen)):
            bad += not why.startswith('a goal')
            if noted and why.startswith('a goal') and '/more-edits/' in edit: ledger.note(edit, datetime.date.today(), why.replace(': ', ' ', 1))
            print(f'{label(edit)} | {why}', flush=True)
    print(f'{len(chosen)} edits, {len(chosen) - bad} refused for a goal, {bad} not')
    sys.exit(1 if bad else 0)

main()
