#!/bin/sh
# usage: bench/more_edits.sh [--applies] [NAME ..]
# Tries the edits crates/NAME/more-edits/*.edit, which the gate leaves out, of these crates, or of all that have some: the prover must refuse each.
# It works on a copy of the checkout as it stands, in which they lie beside those of must-fail/, and removes it at the end. The libraries below
# are taken from `rt check` or `rt lib` of the same text on this machine, where there are any, and else proved first: that takes long.
# The status is 0 where each was refused. --applies proves nothing: it only looks whether each 'old:' text stands once in its file.
cd "$(dirname "$0")/.." || exit 2
only=
if [ "${1-}" = --applies ]; then only=yes; shift; fi
[ $# -gt 0 ] || set -- $(for folder in crates/*/more-edits; do basename "${folder%/more-edits}"; done)
for name; do
    ls "crates/$name/more-edits/"*.edit >/dev/null || exit 2
done

if [ "$only" ]; then
    python3 - "$@" <<'end'
import glob, os, re, sys
kinds = 'must-fail', 'more-edits'
bad, edits = 0, [it for name in sys.argv[1:] for kind in kinds for it in sorted(glob.glob(f'crates/{name}/{kind}/*.edit'))]
for edit in edits:
    texts, path, pairs, wrong = {}, None, 0, None
    for word, rest in re.findall(r'(?m)^(file|old|new): ?(.*)$', open(edit).read()):
        if word == 'file':
            path = os.path.join(edit.rsplit('/', 2)[0], rest.strip())
            if path not in texts: texts[path] = open(path).read() if os.path.isfile(path) else ''
        elif word == 'old': old = rest
        else:
            count, pairs = texts.setdefault(path, '').count(old), pairs + 1
            if count != 1: wrong = wrong or f'{count} times in {path}: {old}'
            texts[path] = texts[path].replace(old, rest)
    if wrong or not pairs: bad += 1; print(f'{edit}: {wrong or "no pair"}')
print(f'{len(edits)} edits, {len(edits) - bad} apply, {bad} do not')
sys.exit(1 if bad else 0)
end
    exit
fi

scratch=$(mktemp -d)
trap 'rm -rf "$scratch"' EXIT
trap 'exit 2' HUP INT TERM
cp crates.txt HANDLES "$scratch"
for part in crates/*/*; do
    case $part in */out | */more-edits) continue ;; esac
    mkdir -p "$scratch/${part%/*}" && cp -R "$part" "$scratch/$part" || exit 2
done
for name; do
    mkdir -p "$scratch/crates/$name/must-fail" && cp "crates/$name/more-edits/"*.edit "$scratch/crates/$name/must-fail" || exit 2
done

refused=0 missed=0 bad=0 untried=0
for name; do
    ( cd "$scratch" && rt must-fail "$name" ) >"$scratch/said" 2>&1
    for edit in "$scratch/crates/$name/must-fail/"*.edit; do
        label=$name/${edit##*/}
        line=$(grep -F "must-fail $label: " "$scratch/said" | head -n 1)
        case $line in
            *"$label: refused"*) refused=$((refused + 1)) ;;
            *"$label: NOT REFUSED"*) missed=$((missed + 1)) ;;
            *"$label: BAD EDIT"*) bad=$((bad + 1)) ;;
            *) untried=$((untried + 1)); line=${line:-$label: NOT TRIED: $(tail -n 1 "$scratch/said")} ;;
        esac
        printf '%s\n' "${line#rt: must-fail }"
    done
done
echo "$refused refused, $missed NOT REFUSED, $bad BAD EDIT, $untried NOT TRIED"
[ $((missed + bad + untried)) = 0 ]
