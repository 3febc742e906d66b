"""The static libraries for C that the tests link, and the programs that they run."""

import ctypes
import pathlib
import subprocess
import tempfile

ROOT = pathlib.Path(__file__).resolve().parent.parent


def archive(crate):
    """The crate's static library; proved and built where there is none, or where a file of the crates is newer."""
    path = ROOT / 'target' / 'staticlib' / f'lib{crate}.a'
    files = (file for part in ('src', 'specs', 'proofs') for file in (ROOT / 'crates').glob(f'*/{part}/**/*'))
    newest = max(file.stat().st_mtime for file in files)
    if not path.exists() or path.stat().st_mtime < newest:
        subprocess.run([ROOT / 'tools' / 'archive', crate], check=True, stdout=subprocess.DEVNULL)
    return path


def program(crate):
    """The crate's program, which `rt ci`, and `rt run` in the crate's folder, leave there."""
    return ROOT / 'crates' / crate / 'out' / crate


def shared(sources, name, *flags, compiler='gcc'):
    """A shared library of C sources and archives. Its file may go once it is loaded."""
    with tempfile.TemporaryDirectory() as folder:
        path = pathlib.Path(folder) / f'{name}.so'
        whole = ['-Wl,--whole-archive', *map(str, sources), '-Wl,--no-whole-archive']
        subprocess.run([compiler, '-shared', '-fPIC', *flags, '-o', str(path), *whole], check=True)
        return ctypes.CDLL(str(path))
