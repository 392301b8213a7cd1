"""One run of labctl, whose replies are told as they come."""
import os
import signal

from .programs import labctl
from .replies import Replies


def held(script):
    """Gives a file that holds the bytes of a script, to be read from its beginning."""
    if hasattr(os, "memfd_create"):
        it = os.fdopen(os.memfd_create("script"), "w+b")
    else:
        import tempfile
        it = tempfile.TemporaryFile()
    it.write(script)
    it.flush()
    it.seek(0)
    return it


def as_text(line):
    """Gives a line of a reply as text, without its end."""
    return line.decode(errors="replace").rstrip("\n")


class Spawned:
    """A program that reads a file and writes to a pipe. It is begun without the module subprocess, whose import takes as long as a small run."""

    def __init__(self, words, source, kept):
        reading, writing = os.pipe()
        for file in kept:
            os.set_inheritable(file, True)
        files = [(os.POSIX_SPAWN_DUP2, source.fileno(), 0), (os.POSIX_SPAWN_DUP2, writing, 1)]
        try:
            self.number = os.posix_spawn(words[0], words, os.environ, file_actions=files, setsigdef=[signal.SIGPIPE])
        except BaseException:
            os.close(reading)
            raise
        finally:
            os.close(writing)
        self.stdout, self.code = os.fdopen(reading, "rb"), None

    def __enter__(self):
        return self

    def __exit__(self, *_):
        self.stdout.close()
        self.wait()

    def wait(self):
        """Waits for the end, and gives the exit code, below 0 where a signal ended it."""
        if self.code is None:
            self.code = os.waitstatus_to_exitcode(os.waitpid(self.number, 0)[1])
        return self.code


class Run(Replies):
    """One run of labctl over a folder, or in memory where there is none."""

    def __init__(self, folder, lock=None, quiet=False, cost=None, kept_back=()):
        super().__init__(quiet, kept_back)
        self.words = [labctl(), *(["--cost", cost] if cost else []), *([] if folder is None else ["--dir", os.path.join(".", folder)])]
        self.kept = () if lock is None else (lock,)

    def start(self):
        """Starts the program with a pipe at both ends."""
        import subprocess
        return subprocess.Popen(self.words, stdin=subprocess.PIPE, stdout=subprocess.PIPE, pass_fds=self.kept)

    def status(self, running):
        code = running.wait()
        return self.worst.status if code == 0 else 128 - code if code < 0 else code

    def over(self, source):
        """Runs the script of a file to its end."""
        with Spawned(self.words, source, self.kept) as running:
            for line in running.stdout:
                self.see(as_text(line))
            return self.status(running)

    def of(self, script):
        """Runs a script to its end."""
        with held(script) as source:
            return self.over(source)

    def turned(self, command, exp, progress):
        """Opens a swap and takes it turn by turn, each of which is told to `progress`; only the last reply is told."""
        with self.start() as running:
            running.stdin.write(b"open " + command.script())
            running.stdin.flush()
            turns = 0
            while line := running.stdout.readline():
                text = as_text(line)
                if text.partition(" ")[0] not in ("more", "trouble"):
                    break
                progress(turns, text if text.startswith("trouble") else "")
                running.stdin.write(f"turn {exp}\n".encode())
                running.stdin.flush()
                turns += 1
            if line:
                self.see(text)
            running.stdin.close()
            return self.status(running)
