"""Runs of tools whose workers start at once, and the threads that they start, which the library of ci/starting.c counts.

A tool starts workers once a run has taken so long that they are worth their start, and most documents are too short for that. Under this variable of the
environment it starts as many as it is asked for, whatever the time and the processors.
"""
import os
import subprocess
import tempfile

from cases import ROOT

AT_ONCE = "FANNULAVO_WORKERS_AT_ONCE"
LIBRARY = "starting.so"
IDLE = "executed 0 redelivered 0"  # of an update for which no run has to be made


def threads_of(runs, workers):
    """How many threads so many workers of a tool start for runs, of which these are the blocks, at least and at most. Each run has a crew of its own, of which
    the calling thread is one, and no process is worked by two."""
    processes = sum(line.startswith("memory") for line in runs[0]) if runs else 0
    crew = max(min(workers, processes) - 1, 0)
    return crew * sum(IDLE not in run for run in runs), crew * len(runs)


class Started:
    """A run, or several: the variables of its environment, and how many threads have started."""

    def __init__(self, folder, variables):
        file, self.path = tempfile.mkstemp(dir=folder)
        os.close(file)
        self.variables = {"STARTED_COUNT": self.path, "LD_PRELOAD": f"{folder}/{LIBRARY}", **variables}

    def environment(self):
        return {**os.environ, **self.variables}

    def count(self):
        return os.stat(self.path).st_size

    def differences(self, runs, workers):
        """What is wrong with the number of threads that so many workers started for runs."""
        count, (least, most) = self.count(), threads_of(runs, workers)
        return [] if least <= count <= most else [f"{count} threads started, where {least} to {most} have to"]


class Starting:
    """A folder with the library, and with the count of each run."""

    def __init__(self, room):
        self.folder = tempfile.mkdtemp(dir=room)
        source = f"{ROOT}/ci/starting.c"
        subprocess.run(["cc", "-O2", "-shared", "-fPIC", "-o", f"{self.folder}/{LIBRARY}", source], check=True)

    def run(self, is_at_once=True, **refused):
        """A run whose workers start at once, or in time, and of which these starts are refused, as the library takes them."""
        return Started(self.folder, {**({AT_ONCE: "1"} if is_at_once else {}), **refused})

    def total(self):
        """How many threads all runs have started."""
        counts = [name for name in os.listdir(self.folder) if name != LIBRARY]
        return sum(os.stat(f"{self.folder}/{name}").st_size for name in counts)
