"""A folder in which the scripts of the gate run on programs that stand for the built ones."""
import os
import shutil
import subprocess
import tempfile
import unittest

from cases import OPTIONS, ROOT, without_updates
from limits import SOURCE
from model import answer, reports_with

JOB = b'program = "heat"\nlimit = 9\ng = 1\nl = 1\nmemory = [[0, 8, 0]]\nargs = [[1]]\nbatches = [[["word", 0, 1, 4]]]\n'
REPORT = answer("heat", JOB).report.encode()
REPORTS = reports_with("heat", JOB, OPTIONS)
ENVIRONMENT = {name: value for name, value in os.environ.items() if not name.startswith(("GIT_", "RT_", "STUB_"))}
ENVIRONMENT["GIT_CONFIG_GLOBAL"] = os.devnull

# Reads its input, and writes the report that lies beside it: as heat does, on one document.
PROGRAM = """here=$(dirname "$0")
size=$(wc -c 2> /dev/null) || { echo fault read >&2; exit 1; }
[ "$size" -lt 1000000 ] || { echo fault memory >&2; exit 1; }
name=report
for word; do case $word in --scratch | --places | --changes | --why | --update-cost) name=$name-${word#--};; esac; done
cat "$here/$name" 2> /dev/null || { echo fault write >&2; exit 1; }"""

# Writes STUB_BEGIN and STUB_END, and makes allocations in between: 16 for each byte of the document where STUB_ALLOCATES is `bytes`, so many for each as it
# has quotation marks where it is `product`, one for each 64 pairs of bytes where it is `square`, 1 where it is anything else, and none where it is not
# there. Does nothing where its first word is not STUB_TEST. Where one is refused it says `fault memory` as a tool does, or ends with STUB_REFUSED.
# With STUB_KEEPS it gives no memory back, and with STUB_STAYS it has a second thread.
ALLOCATING = r"""#include <pthread.h>
#include <stdlib.h>
#include <string.h>
#include <unistd.h>
static void say(const char *text) { if (text && write(1, text, strlen(text)) < 0) _exit(2); }
static long wanted(const char *how) {
    char all[4096];
    long bytes = 0, quotes = 0;
    for (ssize_t got; (got = read(0, all, sizeof all)) > 0; bytes += got)
        for (ssize_t i = 0; i < got; i++) quotes += all[i] == '"';
    return !how ? 0 : !strcmp(how, "bytes") ? 16 * bytes : !strcmp(how, "product") ? bytes * quotes : !strcmp(how, "square") ? bytes * bytes / 64 : 1;
}
static int refused(void) {
    const char *said = "fault memory\n", *status = getenv("STUB_REFUSED");
    if (status) return atoi(status);
    return write(2, said, strlen(said)) < 0 ? 2 : 1;
}
static void *wait(void *given) {
    pause();
    return given;
}
int main(int words, char **word) {
    if (words > 1 && getenv("STUB_TEST") && strcmp(word[1], getenv("STUB_TEST"))) return 0;
    pthread_t stays;
    if (getenv("STUB_STAYS") && pthread_create(&stays, NULL, wait, NULL)) return 2;
    say(getenv("STUB_BEGIN"));
    for (long count = wanted(getenv("STUB_ALLOCATES")); count > 0; count--) {
        void *volatile made = malloc(8);
        if (!made) return refused();
        if (!getenv("STUB_KEEPS")) free(made);
    }
    say(getenv("STUB_END"));
    return 0;
}
"""


class Place:
    """A folder with the scripts of the gate, programs in the place of the built ones, and a command `rt`."""

    def __init__(self):
        self.root = tempfile.mkdtemp(prefix="gate-")
        shutil.copytree(f"{ROOT}/ci", f"{self.root}/ci", ignore=shutil.ignore_patterns("__pycache__"))
        shutil.copytree(f"{ROOT}/python", f"{self.root}/python", ignore=shutil.ignore_patterns("__pycache__"))
        shutil.copytree(f"{ROOT}/bench", f"{self.root}/bench")
        for script in ("build", "check", "run", "try"):
            shutil.copy(f"{ROOT}/{script}", self.root)
        self.write("crates.txt", b"")
        os.makedirs(os.path.dirname(f"{self.root}/{SOURCE}"))
        shutil.copy(f"{ROOT}/{SOURCE}", f"{self.root}/{SOURCE}")
        os.mkdir(f"{self.root}/cases")
        os.mkdir(f"{self.root}/examples")
        self.script("bin/rt", ":")

    def write(self, path, content=b""):
        os.makedirs(os.path.dirname(f"{self.root}/{path}"), exist_ok=True)
        with open(f"{self.root}/{path}", "wb") as file:
            file.write(content)

    def script(self, path, *lines):
        self.write(path, "\n".join(["#!/bin/sh", *lines, ""]).encode())
        os.chmod(f"{self.root}/{path}", 0o755)

    def program(self, crate, *lines):
        self.script(f"crates/{crate}/out/{crate}", *(lines or [PROGRAM]))
        self.write(f"crates/{crate}/out/report", REPORT)
        self.write(f"crates/{crate}/out/report-scratch", without_updates(REPORT))
        for words, report in REPORTS.items():
            self.write(f"crates/{crate}/out/report{''.join(word.removeprefix('-') for word in words)}", report)

    def case(self, path, document=JOB, report=REPORT, status=b"0\n"):
        for ending, content in (("toml", document), ("txt", report), ("status", status)):
            self.write(f"cases/{path}.{ending}", content)

    def allocating(self, path):
        """Builds the program that makes allocations."""
        self.write("allocating.c", ALLOCATING.encode())
        self.write(path)
        subprocess.run(["cc", "-pthread", "-o", f"{self.root}/{path}", f"{self.root}/allocating.c"], check=True)

    def commit(self):
        settings = ["-c", "user.name=nobody", "-c", "user.email=nobody"]
        for words in (["init", "-q"], ["add", "."], ["commit", "-q", "-m", "all"]):
            subprocess.run(["git", *settings, *words], cwd=self.root, check=True, env=ENVIRONMENT)

    def run(self, *words, **more):
        """The status and the lines of a command of the place."""
        how = {"stdin": subprocess.DEVNULL, "stdout": subprocess.PIPE, "stderr": subprocess.STDOUT, "text": True}
        environment = {**ENVIRONMENT, "PATH": f"{self.root}/bin:{os.environ['PATH']}", **more}
        said = subprocess.run([f"{self.root}/{words[0]}", *words[1:]], env=environment, **how)
        return said.returncode, said.stdout.splitlines()


class InAPlace(unittest.TestCase):
    def setUp(self):
        self.place = Place()
        self.addCleanup(shutil.rmtree, self.place.root)

    def passes(self, counts, *words, **more):
        status, lines = self.place.run(*words, **more)
        self.assertEqual((status, lines[-1:]), (0, [counts]), lines)

    def fails(self, counts, said, *words, **more):
        status, lines = self.place.run(*words, **more)
        self.assertEqual((status, lines[-1:]), (1, [counts]), lines)
        self.assertTrue(any(said in line for line in lines), lines)
