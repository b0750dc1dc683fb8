#!/usr/bin/env python3
"""Crashes of the real program over a real file: a script runs under strace, and what a crash could have left at each moment is opened.

usage: bench/crash.py PROGRAM SCRIPT [MOST]    PROGRAM: the built undomail; SCRIPT: as `undomail script` takes it; MOST: images at one moment, 400 by default

The writes and syncs of the store are taken from strace and replayed. At each moment any sectors of 512 octets of the writes that no sync
has followed may be on the disk, in any order, and the file may be as long as before or as any of them makes it; where there are more
than MOST such images, the fronts, the ends, single sectors and others by chance are taken. `check` opens each image: it must tell the
store from before the record or from after it, and once the record's last sync is over the one after it. Ends with status 1 if one is bad.
"""
import concurrent.futures, itertools, os, random, re, shutil, struct, subprocess, sys, tempfile

HOUSE = (b'host = "mail.test"\ndomains = ["mail.test"]\npostmaster = "ann"\n[[user]]\nname = "ann"\npassword = "a1"\n'
         b'[[user]]\nname = "bob"\npassword = "b2"\n[[user]]\nname = "carl"\npassword = "c3"\n[aliases]\nteam = ["ann", "bob"]\n')
SECTOR = 512

def calls_of(trace, store):
    """The writes (place, bytes) and syncs (None) of the store, in order."""
    calls, places, known = [], {}, {}
    for line in open(trace, errors='replace'):
        found = re.match(r'\d+ +(\w+)\((.*)\) += (-?\d+)', line)
        if not found or int(found[3]) < 0: continue
        name, words, result = found[1], found[2], int(found[3])
        if name == 'openat':
            if bytes(eval('b' + re.search(r'"(?:[^"\\]|\\.)*"', words)[0])) == store.encode(): known[result], places[result] = True, 0
            continue
        fd = int(words.split(',')[0])
        if fd not in known: continue
        if name == 'lseek': places[fd] = result
        elif name == 'read': places[fd] += result
        elif name == 'write':
            text = bytes(eval('b' + re.search(r'"(?:[^"\\]|\\.)*"', words)[0]))
            if len(text) < result: sys.exit('strace cut a write')
            calls.append((places[fd], text[:result])); places[fd] += result
        elif name == 'pwrite64':
            text = bytes(eval('b' + re.search(r'"(?:[^"\\]|\\.)*"', words)[0]))
            if len(text) < result: sys.exit('strace cut a write')
            calls.append((int(words.rpartition(',')[2]), text[:result]))
        elif name in ('fsync', 'fdatasync'): calls.append(None)
        elif name == 'close': del known[fd]
    return calls

def sectors(writes):
    """Each write cut where sectors end."""
    parts = []
    for place, text in writes:
        while text:
            room = SECTOR - place % SECTOR
            parts.append((place, text[:room])); place, text = place + room, text[room:]
    return parts

def choices(count, most):
    """Sets of sectors that are on the disk: all of them where they are few."""
    if 2 ** count <= most: return [set(it for it in range(count) if n >> it & 1) for n in range(2 ** count)]
    fronts = [set(range(n)) for n in range(count + 1)] + [set(range(n, count)) for n in range(count + 1)]
    single = [{n} for n in range(count)] + [set(range(count)) - {n} for n in range(count)]
    some = [set(n for n in range(count) if random.random() < 0.5) for _ in range(most)]
    few = fronts + single
    return (random.sample(few, most // 2) if len(few) > most // 2 else few) + some[:most // 2]

def written(image, parts):
    image = bytearray(image)
    for place, text in parts:
        if len(image) < place + len(text): image.extend(bytes(place + len(text) - len(image)))
        image[place:place + len(text)] = text
    return bytes(image)

def images_at(image, pending, most):
    """What a crash leaves: an image whose missing tail is cut, or there as zeros."""
    parts = sectors(pending)
    longest = max([len(image)] + [place + len(text) for place, text in parts])
    for chosen in choices(len(parts), most):
        left = written(image, [parts[n] for n in sorted(chosen)])
        yield left
        if len(left) < longest: yield left + bytes(longest - len(left))

def gates(image):
    """The place of each gate up to the first that is not open."""
    at, found = 0, [0]
    while at < len(image) and image[at] == 0x55 and at + 5 <= len(image):
        at += 5 + struct.unpack('>I', image[at + 1:at + 5])[0]; found.append(at)
    return found

def main(program, script, most='400'):
    program, most, bad = os.path.abspath(program), int(most), 0
    random.seed(1)
    with tempfile.TemporaryDirectory(dir='/dev/shm' if os.path.isdir('/dev/shm') else None) as folder:
        store = f'{folder}/store'
        subprocess.run([program, 'init', store], input=HOUSE, check=True)
        first = open(store, 'rb').read()
        with open(script, 'rb') as text:
            done = subprocess.run(['strace', '-f', '-xx', '-s', '100000000', '-e', 'trace=openat,lseek,read,write,pwrite64,fsync,fdatasync,close', '-o', f'{folder}/trace', program, 'script', store],
                                  stdin=text, stdout=subprocess.DEVNULL)
        if done.returncode: sys.exit(f'the script ended with status {done.returncode}')
        last = open(store, 'rb').read()
        number = itertools.count()
        def told(image):
            at = f'{folder}/image{next(number)}'
            with open(at, 'wb') as file: file.write(image)
            done = subprocess.run([program, 'check', at], stdout=subprocess.PIPE, stderr=subprocess.STDOUT)
            os.remove(at)
            return done.returncode, done.stdout
        ends = gates(last)
        stores = {end: told(last[:end] + b'\0') for end in ends[len(gates(first)) - 1:]}
        if any(status for status, _ in stores.values()): sys.exit('a store of the run cannot be opened')
        image, pending, moments, tried = first, [], 0, 0
        with concurrent.futures.ThreadPoolExecutor(os.cpu_count()) as pool:
            for call in calls_of(f'{folder}/trace', store):
                if call: pending.append(call)
                else: image, pending = written(image, pending), []
                before, after = gates(image)[-1], gates(written(image, pending))[-1]
                allowed = [stores[before], stores[after]]
                found = sorted(set(images_at(image, pending, most)))
                moments, tried = moments + 1, tried + len(found)
                for left, answer in zip(found, pool.map(told, found)):
                    if answer not in allowed:
                        bad += 1
                        print(f'after call {moments}: an image of {len(left)} octets is told as {answer}')
        if image != last: sys.exit('the calls do not make the store that the program left')
        print(f'{len(ends) - len(gates(first))} records, {moments} moments, {tried} images: {bad} bad')
    return bad > 0

if __name__ == '__main__':
    if len(sys.argv) not in (3, 4): sys.exit(__doc__)
    sys.exit(main(*sys.argv[1:]))
