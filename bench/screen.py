#!/usr/bin/python3
"""Works the windows of GTK programs by what they tell screen readers (AT-SPI): commands on standard input, an answer for each on standard output, both JSON, a line each.

usage: bench/screen.py      below Xvfb and a session bus (Debian: python3-pyatspi, xdotool); bench/windows.py starts it
"""
import json, subprocess, sys, time
import pyatspi

def all_of(it, depth=40):
    """What is seen of an accessible and below it."""
    yield it
    if depth:
        for n in range(it.childCount):
            try: child = it.getChildAtIndex(n)
            except Exception: continue
            if child is not None: yield from all_of(child, depth - 1)

def applications(): return [it for it in pyatspi.Registry.getDesktop(0) if it is not None]

def shown(it):
    states = it.getState()
    return states.contains(pyatspi.STATE_SHOWING)

def windows(): return [window for it in applications() for window in it if window is not None]

def window(title):
    """The last window whose title holds this."""
    found = [it for it in windows() if title in (it.name or '')]
    return found[-1] if found else None

def found(at, role, name=None, showing=True):
    return [it for it in all_of(at) if it.getRoleName() == role and (name is None or (it.name or '').replace('_', '') == name) and (not showing or shown(it))]

def acts(it, *names):
    actions = it.queryAction()
    for n in range(actions.nActions):
        if not names or actions.getName(n) in names: return actions.doAction(n)
    return False

def asked(command):
    what, *rest = command
    if what == 'windows': return [[it.getRoleName(), it.name] for it in windows()]
    if what == 'dump':
        at = window(rest[0])
        return [[it.getRoleName(), it.name, shown(it)] for it in all_of(at)] if at else None
    if what == 'menu':                                # a menu's item by its name, wherever it stands in the window
        title, name = rest
        for it in found(window(title), 'menu item', name, False): return acts(it, 'click')
        return None
    if what == 'press':
        title, name = rest
        for it in found(window(title), 'push button', name): return acts(it, 'click')
        return None
    if what == 'type':                                # the nth entry of a window
        title, at, text = rest
        them = [it for role in ('text', 'password text') for it in found(window(title), role)]
        if len(them) <= at: return None
        return them[at].queryEditableText().setTextContents(text)
    if what == 'labels': return [it.name for it in found(window(rest[0]), 'label')]
    if what == 'cells':                               # what the lists of a window show: text, and where
        cells = [it for it in all_of(window(rest[0])) if it.getRoleName() == 'table cell' and it.name]
        return [[it.name, *(lambda box: (box.x, box.y, box.width, box.height))(it.queryComponent().getExtents(pyatspi.DESKTOP_COORDS))] for it in cells]
    raise ValueError(what)

def main():
    for line in sys.stdin:
        try: said = {'said': asked(json.loads(line))}
        except Exception as fault: said = {'fault': f'{type(fault).__name__}: {fault}'[:300]}
        print(json.dumps(said), flush=True)

if __name__ == '__main__': main()
