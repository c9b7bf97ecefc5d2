"""Runs of a program with their processor time and their memory."""
import os
import resource
import signal
import sys
import tempfile


class Ran:
    """status is None where the run was ended at its limit."""

    def __init__(self, status, out, user, system, peak):
        self.status, self.out, self.seconds, self.megabytes = status, out, user + system, peak / 1024


def run(words, seconds):
    """Runs a program, at most so many seconds of processor time."""
    with tempfile.TemporaryFile() as out:
        child = os.fork()
        if child == 0:
            try:
                resource.setrlimit(resource.RLIMIT_CPU, (seconds, seconds + 1))
                os.dup2(out.fileno(), 1)
                os.dup2(os.open(os.devnull, os.O_WRONLY), 2)
                os.execvp(words[0], words)
            finally:
                os._exit(127)
        _, told, used = os.wait4(child, 0)
        out.seek(0)
        text = out.read()
    if os.WIFSIGNALED(told):
        if os.WTERMSIG(told) not in (signal.SIGXCPU, signal.SIGKILL):
            sys.exit(f"{' '.join(words)}: signal {os.WTERMSIG(told)}")
        return Ran(None, text, used.ru_utime, used.ru_stime, used.ru_maxrss)
    return Ran(os.WEXITSTATUS(told), text, used.ru_utime, used.ru_stime, used.ru_maxrss)


def least(words, seconds, times):
    """The run with the least processor time of so many; one that was ended is made once."""
    best = run(words, seconds)
    for _ in range(times - 1):
        if best.status is None:
            break
        again = run(words, seconds)
        if again.status is not None and again.seconds < best.seconds:
            best = again
    return best
