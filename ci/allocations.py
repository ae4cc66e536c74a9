"""Runs programs under the library of ci/refusing.c, which counts their allocations and can refuse one of them."""
import os
import subprocess
import tempfile

from cases import ROOT, SECONDS


def build_library(room):
    """Builds the library in a folder, by `cc`, and answers its path."""
    library = f"{room}/refusing.so"
    subprocess.run(["cc", "-O2", "-shared", "-fPIC", "-o", library, f"{ROOT}/ci/refusing.c"], check=True)
    return library


def environment(library, refused, count, is_between_marks):
    marks = {"REFUSE_AFTER": "begin\n", "REFUSE_UNTIL": "end\n"} if is_between_marks else {}
    return {"LD_PRELOAD": library, "REFUSE_NUMBER": str(refused), "REFUSE_COUNT": count, **marks}


def run_measured(library, words, document, refused=0, is_between_marks=False, started=None):
    """Runs a program on a document, with the allocation of this number refused, or none where it is 0. Answers how it ended, and the numbers that ci/refusing.c
    tells: how many allocations it made, from the start of its `main` on or between the lines `begin` and `end` of its output, how many bytes more it had in
    the end, and how many threads. There are none where it did not come to tell. With `started` its threads are counted there too."""
    with tempfile.NamedTemporaryFile() as count, open(document, "rb") as given:
        how = environment(library, refused, count.name, is_between_marks)
        if started:
            how = {**started.variables, **how, "LD_PRELOAD": f"{library}:{started.variables['LD_PRELOAD']}"}
        ended = subprocess.run(words, stdin=given, capture_output=True, timeout=SECONDS, env={**os.environ, **how})
        return ended, [int(number) for number in count.read().split()]


def run_counted(*given, **more):
    """How a program ended that was run so, and how many allocations it made; None where it did not come to tell."""
    ended, numbers = run_measured(*given, **more)
    return ended, numbers[0] if numbers else None
