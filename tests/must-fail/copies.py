"""What `check` and `controls` share: the replacements of an edit, and a check of a crate's copy with them. The copy begins with what the checkout has proved, in the
`out` folders of its crates, and nothing in the checkout changes."""
import os
import re
import shutil
import subprocess
import tempfile
from concurrent.futures import ThreadPoolExecutor

PARTS = ('src', 'specs', 'proofs')


def text(path):
    with open(path, encoding='utf-8') as f:
        return f.read()


def programs(edit):
    """The wrong programs of a file: name, the place that it says, its replacements as file, old and new text."""
    found, name, old = [], '', ''
    for line in text(edit).splitlines():
        key, _, rest = line.partition(': ')
        if key == 'wrong' or not found:
            found.append({'name': rest if key == 'wrong' else os.path.basename(edit)[:-5], 'at': '', 'changes': []})
        if key == 'at':
            found[-1]['at'] = rest
        elif key == 'file':
            name = rest
        elif key == 'old':
            old = rest
        elif key in ('new', 'new:'):
            found[-1]['changes'].append((name, old, rest))
    return found


def below():
    """The crates that each crate of crates.txt stands on."""
    uses = {}
    for line in text('crates.txt').splitlines():
        name, _, rest = line.partition('#')[0].partition(':')
        if name.strip():
            uses[name.split()[0]] = rest.split()

    def all_of(name, seen):
        for use in uses.get(name, []):
            if use in uses and use not in seen:
                seen.add(use)
                all_of(use, seen)
        return seen

    return {name: all_of(name, set()) for name in uses}


def linked(path, to):
    """A second name for a file, or a copy where there can be none: rt writes such a file anew, and into none."""
    try:
        return os.link(path, to)
    except OSError:
        return shutil.copy2(path, to)


def linked_if_proved(path, to):
    return linked(path, to) if path.endswith('.oantt') else shutil.copy2(path, to)


def copy(folder, to, by):
    if os.path.isdir(folder):
        shutil.copytree(folder, to, copy_function=by)


def rt_check(folder, words=()):
    return subprocess.run(['rt', 'check', *words], cwd=folder, stdin=subprocess.DEVNULL, stdout=subprocess.PIPE, stderr=subprocess.STDOUT, text=True, errors='replace')


def newest(crate):
    return max(os.stat(f'{at}/{name}').st_mtime for part in PARTS for at, _, names in os.walk(f'crates/{crate}/{part}') for name in names)


def unproved(crates):
    """Those of the crates that are not proved as they stand. One is checked here first where its `out`, or that of a crate below, lacks what a copy begins with."""
    uses = below()

    def is_kept(crate):
        stamps = [f'crates/{name}/out/rlib/stamp' for name in uses[crate]]
        return os.path.isdir(f'crates/{crate}/out/incremental') and all(os.path.exists(it) and newest(it.split('/')[1]) <= os.stat(it).st_mtime for it in stamps)

    lacking = [name for name in uses if name in crates and not is_kept(name)]
    return {name for name, ran in side_by_side(lambda it: rt_check(f'crates/{it}'), lacking) if ran.returncode}


def checked(crate, edits, words=()):
    """`rt check` of a copy of the crate with these files of edits applied: its status and what it printed. None where an edit does not fit."""
    with tempfile.TemporaryDirectory(prefix='must-fail-') as room:
        names = below()[crate] | {crate}
        with open(f'{room}/crates.txt', 'w', encoding='utf-8') as f:
            f.writelines(line + '\n' for line in text('crates.txt').splitlines() if re.split(r'[\s:]', line)[0] in names)
        if os.path.exists('HANDLES'):
            shutil.copy2('HANDLES', room)
        for name in names:
            for part in PARTS:
                copy(f'crates/{name}/{part}', f'{room}/crates/{name}/{part}', shutil.copy2 if name == crate else linked)
            if name != crate:
                copy(f'crates/{name}/out/rlib', f'{room}/crates/{name}/out/rlib', linked)
        copy(f'crates/{crate}/out/incremental', f'{room}/crates/{crate}/out/incremental', linked_if_proved)
        for name, old, new in [c for e in edits for p in programs(e) for c in p['changes']]:
            path = f'{room}/crates/{crate}/{name}'
            was = text(path) if os.path.exists(path) else ''
            if was.count(old) != 1:
                return None
            with open(path, 'w', encoding='utf-8') as f:
                f.write(was.replace(old, new))
        ran = rt_check(f'{room}/crates/{crate}', ['--jobs', '1', *words])
        return ran.returncode, ran.stdout


def side_by_side(call, items):
    """The answers of a call to each item, as many at a time as there are processors, and as memory holds at 3 GB each."""
    free = int(re.search(r'MemAvailable:\s+(\d+)', text('/proc/meminfo')).group(1)) // 3000000
    at_once = int(os.environ.get('RT_JOBS') or max(1, min(len(os.sched_getaffinity(0)), free)))
    with ThreadPoolExecutor(at_once) as pool:
        yield from zip(items, pool.map(call, items))
