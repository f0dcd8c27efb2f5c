"""What the tools share: the repository that they lie in, its crates, and calls of `rt`."""
import argparse
import os
import shutil
import subprocess
import sys

TOP = os.path.dirname(os.path.dirname(os.path.abspath(__file__)))
NAME = os.path.basename(sys.argv[0])


def stop(why):
    """Ends the tool for bad usage."""
    print('%s: %s' % (NAME, why), file=sys.stderr)
    sys.exit(2)


class Arguments(argparse.ArgumentParser):
    """The arguments of a tool whose documentation has its usage in the second paragraph."""

    def __init__(self, told):
        super().__init__(description=told, formatter_class=argparse.RawDescriptionHelpFormatter, usage=argparse.SUPPRESS)
        self.told = told

    def error(self, message):
        stop('%s\nusage: %s' % (message, self.told.split('\n\n')[1].strip()))


def read(path):
    with open(path, encoding='utf-8') as f:
        return f.read()


def write(path, text):
    os.makedirs(os.path.dirname(path), exist_ok=True)
    with open(path, 'w', encoding='utf-8') as f:
        f.write(text)


def files_below(top, ends):
    """The files below a folder whose names end so, without what `rt` made."""
    for folder, folders, names in os.walk(top):
        folders[:] = sorted(d for d in folders if d not in ('out', 'target', '.git', '__pycache__'))
        for name in sorted(names):
            if name.endswith(ends):
                yield os.path.normpath(os.path.join(folder, name))


def crates():
    """The crates of crates.txt, in its order."""
    lines = (line.split('#')[0] for line in read(os.path.join(TOP, 'crates.txt')).split('\n'))
    return [line.split(':')[0].split()[0] for line in lines if line.strip()]


def known(crate):
    if crate not in crates():
        stop("crates.txt has no crate '%s'" % crate)


def folder_of(crate):
    return os.path.join(TOP, 'crates', crate)


def rt(crate, *words):
    """Whether `rt` with these words succeeded in the crate's folder, and all that it said."""
    if not shutil.which('rt'):
        stop("no 'rt' on the PATH: the Rattle toolchain is needed")
    done = subprocess.run(['rt', *words], cwd=folder_of(crate), capture_output=True, text=True, stdin=subprocess.DEVNULL)
    return done.returncode == 0, done.stdout + done.stderr


def offered(lines, at):
    """The file that the check offers from line `at` on, indented by four, and the line after it."""
    body = []
    while at < len(lines) and lines[at].startswith('    '):
        body.append(lines[at][4:])
        at += 1
    return '\n'.join(body).rstrip() + '\n', at
