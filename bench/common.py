"""What the scripts of the bench share: programs built by gcc over libplanner.a (PLANNER_LIB names its folder, else target/staticlib at the
repository's root), the sheets, the geometric mean."""
import importlib.machinery
import importlib.util
import math
import os
import subprocess
import sys
import tempfile

HERE = os.path.dirname(os.path.abspath(__file__))
ROOT = os.path.dirname(HERE)
SHARED = os.environ.get('SHARED_BENCH', os.path.join(ROOT, '..', 'shared', 'bench'))


def script(name):
    """A script of the bench as a module."""
    loader = importlib.machinery.SourceFileLoader(name, os.path.join(HERE, name))
    module = importlib.util.module_from_spec(importlib.util.spec_from_loader(name, loader))
    loader.exec_module(module)
    return module


def compiled(folder, name, *words):
    """A program of some sources, by gcc -O2."""
    program = os.path.join(folder, name)
    subprocess.run(['gcc', '-O2', '-std=gnu11', '-Wall', '-Wextra', '-Werror', '-o', program, *words], check=True)
    return program


def built(folder, name, *words):
    """The program of NAME.c over the library."""
    library = os.path.join(os.environ.get('PLANNER_LIB', os.path.join(ROOT, 'target', 'staticlib')), 'libplanner.a')
    return compiled(folder, name, *words, '-I', os.path.join(ROOT, 'bindings', 'c'), os.path.join(HERE, name + '.c'), library)


def run(name, *words):
    """Builds the program of NAME.c and runs it; its status is the script's."""
    with tempfile.TemporaryDirectory() as folder:
        sys.exit(subprocess.run([built(folder, name, *words)]).returncode)


def printed(*command):
    """The words that a program prints."""
    return subprocess.run(command, capture_output=True, text=True, check=True).stdout.split()


def sheets(folder, *others):
    """The sheets that `make` writes to a folder, then those of others that are there."""
    subprocess.run([os.path.join(HERE, 'make'), folder], check=True)
    return [os.path.join(place, file) for place in [folder, *others] if os.path.isdir(place)
            for file in sorted(os.listdir(place)) if file.endswith('.sheet')]


def title(sheet):
    """A sheet's name."""
    return os.path.basename(sheet)[:-len('.sheet')]


def geometric(column):
    return math.exp(sum(map(math.log, column)) / len(column))
