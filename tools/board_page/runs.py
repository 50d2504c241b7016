"""Runs of the program: what they read and write are files without a name, so nothing is left, whatever ends them."""
import contextlib
import os
import signal
import subprocess
import tempfile

from tree_page.program import started

PATIENCE = 2  # seconds for a run that is asked to end; the program itself ends at once


def file_of(content):
    """A file without a name that holds these bytes."""
    file = tempfile.TemporaryFile()
    file.write(content)
    file.flush()
    return file


class Run:
    """The program with some words, which reads a file from its beginning and writes another one."""

    def __init__(self, words, source):
        self.words, self.output = words, tempfile.TemporaryFile()
        source.seek(0)
        # A session of its own: what the terminal sends reaches this server alone, which ends the run with all it
        # started.
        self.program = started(*words, stdin=source, stdout=self.output, start_new_session=True)

    def has_ended(self):
        return self.program.poll() is not None

    @property
    def status(self):
        return self.program.returncode

    def written(self):
        return content_of(self.output)

    def answer(self):
        """The first line of what was written."""
        return self.written().partition(b"\n")[0].decode("latin-1")

    def stop(self):
        self.signal(signal.SIGTERM)
        try:
            self.program.wait(PATIENCE)
        except subprocess.TimeoutExpired:
            self.signal(signal.SIGKILL)
            self.program.wait()
        self.output.close()

    def signal(self, number):
        with contextlib.suppress(ProcessLookupError):
            os.killpg(self.program.pid, number)


def content_of(file, length=None):
    """The bytes of a file, read without moving the place at which a run reads it."""
    return os.pread(file.fileno(), os.fstat(file.fileno()).st_size if length is None else length, 0)
