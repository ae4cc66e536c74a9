"""What passed and what failed of a part of the gate."""
import sys
import unittest


class Counts:
    """How many tries passed and how many failed, and how many threads they started, where that is counted. A part that tries nothing has shown nothing, so
    that is a failure."""

    def __init__(self):
        self.passed = 0
        self.failed = 0
        self.threads = None

    def record(self, found):
        """Counts a try by what was wrong with it, and prints that."""
        print("".join(f"{line}\n" for line in found), end="", flush=True)
        self.add(int(not found), int(bool(found)))

    def add(self, passed, failed):
        self.passed += passed
        self.failed += failed

    def end(self):
        """Prints the last lines, and answers the exit status."""
        if not self.passed and not self.failed:
            self.record(["nothing was tried"])
        if self.threads is not None:
            print(f"{self.threads} threads started")
        print(f"{self.passed} passed, {self.failed} failed")
        return 1 if self.failed else 0


class CountedTests(unittest.TextTestResult):
    """Tells how many tests passed and how many failed."""

    def counts(self):
        wrong = {test.id() for test, _ in [*self.failures, *self.errors]} | {test.id() for test in self.unexpectedSuccesses}
        counts = Counts()
        counts.add(max(self.testsRun - len(wrong) - len(self.skipped), 0), len(wrong))
        return counts


def run_tests(suite):
    """Runs tests, prints the last line, and answers the exit status."""
    runner = unittest.TextTestRunner(stream=sys.stdout, resultclass=CountedTests, verbosity=0)
    return runner.run(suite).counts().end()
