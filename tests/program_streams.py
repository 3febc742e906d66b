"""How a program reads standard input and writes standard output: tests for test_program.py, test_verdict.py and test_drift.py,
whose classes say which program, an input and what it prints."""

import os
import pathlib
import resource
import signal
import subprocess
import tempfile

UNREADABLE, UNWRITABLE = b'unreadable\n', b'unwritable\n'

# A read and a write that move at most two bytes, to be loaded before the C library's.
SHORT_COUNTS = b"""
#include <sys/syscall.h>
#include <unistd.h>
static size_t least(size_t n) { return n < 2 ? n : 2; }
ssize_t read(int fd, void *buf, size_t n) { return syscall(SYS_read, fd, buf, least(n)); }
ssize_t write(int fd, const void *buf, size_t n) { return syscall(SYS_write, fd, buf, least(n)); }
"""


def lines_of(data):
    """The lines, each ended by a newline, which the last may lack."""
    lines = data.split(b'\n')
    return lines[:-1] if lines[-1] == b'' else lines


class Streams:
    """`program` is its path, `data` an input, `output` what it prints."""

    def hold(self, output, errors, stdin=None, redirect='', stdout=subprocess.PIPE, **options):
        """What it writes to standard output and to standard error, with a redirection of the shell's."""
        run = subprocess.run(['sh', '-c', f'exec "$0" {redirect}', str(self.program)], stdin=stdin, stdout=stdout,
                             stderr=subprocess.PIPE, check=True, timeout=60, **options)
        self.assertEqual((run.stdout or b'', run.stderr), (output, errors))

    def piped(self):
        """A pipe that holds the input, its two ends."""
        ends = os.pipe()
        os.write(ends[1], self.data)
        return ends

    def test_input_that_cannot_be_read(self):
        """A program that takes a read that fails for the end of its input."""
        for redirect in ('<&-', '< /', '0> /dev/null'):
            with self.subTest(redirect):
                self.hold(UNREADABLE, b'', redirect=redirect)

    def test_read_that_fails_later(self):
        """A program that answers on the part of its input that it could read: the second read finds no bytes and no end."""
        source, sink = self.piped()
        os.set_blocking(source, False)
        self.hold(UNREADABLE, b'', source)
        os.close(source)
        os.close(sink)

    def test_output_that_cannot_be_written(self):
        """A program that says nothing of a write that fails."""
        for redirect in ('> /dev/full', '>&-', '1< /dev/null'):
            with self.subTest(redirect):
                self.hold(b'', UNWRITABLE, subprocess.DEVNULL, redirect)

    def test_write_that_fails_later(self):
        """A program that takes a part for all that it wrote: a file that may have so many bytes and no more."""
        def limit():
            signal.signal(signal.SIGXFSZ, signal.SIG_IGN)
            resource.setrlimit(resource.RLIMIT_FSIZE, (4, 4))

        source, sink = self.piped()
        os.close(sink)
        with tempfile.TemporaryFile() as file:
            self.hold(b'', UNWRITABLE, source, stdout=file, preexec_fn=limit)
            file.seek(0)
            self.assertEqual(file.read(), self.output[:4])
        os.close(source)

    def test_reads_and_writes_of_a_part(self):
        """A program that stops at a read or a write of fewer bytes than it asked for."""
        with tempfile.TemporaryDirectory() as folder:
            library = pathlib.Path(folder) / 'short_counts.so'
            subprocess.run(['cc', '-shared', '-fPIC', '-x', 'c', '-', '-o', library], input=SHORT_COUNTS, check=True)
            short = subprocess.run([self.program], input=self.data, capture_output=True, check=True, env={'LD_PRELOAD': str(library)})
        self.assertEqual((short.stdout, short.stderr), (self.output, b''))
