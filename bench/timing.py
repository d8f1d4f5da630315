"""What the scripts of this folder share: a proved program is found and run, and processor times are compared within one run."""
import os
import resource
import statistics
import subprocess
import sys
import tempfile

ROOT = os.path.dirname(os.path.dirname(os.path.abspath(__file__)))


class Program:
    """The proved program of a crate, as LLVM built it."""

    def __init__(self, crate):
        self.path = os.path.join(ROOT, "crates", crate, "out", crate)
        if not os.access(self.path, os.X_OK):
            sys.exit(f"{crate} is not built. This proves and builds it: ./run --prove {crate}")

    def run(self, *words, given=None, memory=None):
        """A run with these words over what is given as standard input: its status, its output, and its processor time, the user's and the
        system's. It gets at most so many kibibytes for its data."""
        if given:
            given.seek(0)
        bound = memory and (lambda: resource.setrlimit(resource.RLIMIT_DATA, (memory << 10, memory << 10)))
        before = resource.getrusage(resource.RUSAGE_CHILDREN)
        done = subprocess.run([self.path, *map(str, words)], stdin=given or subprocess.DEVNULL, stdout=subprocess.PIPE,
                              stderr=subprocess.DEVNULL if memory else None, preexec_fn=bound)
        after = resource.getrusage(resource.RUSAGE_CHILDREN)
        return done.returncode, done.stdout, after.ru_utime - before.ru_utime, after.ru_stime - before.ru_stime

    def timed(self, *words, given=None, system=False, answers=None):
        """A run that can be timed again and again: a function that makes it, and gives its processor time. The system's counts only where
        that is said, since it gives fresh pages to long files. Where answers are counted, so many are ` ok `."""
        def seconds():
            status, out, user, kernel = self.run(*words, given=given)
            assert status == 0, f"{self.path} {words} ended with {status}"
            assert answers is None or out.count(b" ok ") == answers, f"{out.count(b' ok ')} answers of {answers}"
            return user + kernel if system else user
        return seconds


def given(data):
    """These bytes as the standard input of runs."""
    file = tempfile.TemporaryFile()
    file.write(data)
    file.flush()
    return file


def medians(tries, *runs, middle=statistics.median):
    """The median times of some runs. Each is made once before, to warm up; then all are made in turn, so that what else the machine does
    meets each of them alike."""
    for run in runs:
        run()
    rounds = [[run() for run in runs] for _ in range(tries)]
    return [middle(times) for times in zip(*rounds)]


def means(tries, *runs):
    """The mean times, of runs that are shorter than the ticks by which the system counts them."""
    return medians(tries, *runs, middle=statistics.fmean)


def tell(what, ratio, wanted, *costs):
    """Prints a ratio, beside the one that is wanted, and what else is told."""
    print(", ".join([f"{what}: {ratio:.2f} (wanted: about {wanted})", *costs]), flush=True)
