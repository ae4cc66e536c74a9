"""A client of live sessions."""
import contextlib
import os
import re
import select
import subprocess
import time

from cases import difference

SECONDS = float(os.environ.get("LIVE_SECONDS") or 60)  # that an answer may take


class Wrong(Exception):
    """What differs from what had to come."""


FAILURES = (Wrong, OSError, subprocess.TimeoutExpired)


class Client:
    """The two ends of a session's pipes. Its standard error goes to a file."""

    def __init__(self, command, path, *words, environment=None):
        self.errors = open(f"{path}.errors", "w+b")
        pipes = {"stdin": subprocess.PIPE, "stdout": subprocess.PIPE, "stderr": self.errors, "bufsize": 0}
        # A write to a pipe that nobody reads fails then, and ends no process.
        self.process = subprocess.Popen([*command, "--follow", path, *words], restore_signals=False, env=environment, **pipes)
        self.heard = b""

    def say(self, text):
        """Writes, and reads what comes meanwhile: neither side waits for the other for ever."""
        given, taken, end = self.process.stdin.fileno(), self.process.stdout.fileno(), time.monotonic() + SECONDS
        os.set_blocking(given, False)
        while text:
            ready, writable, _ = select.select([taken], [given], [], max(end - time.monotonic(), 0))
            if not ready and not writable:
                raise Wrong(f"no more is read after {SECONDS} seconds")
            if ready and not self.hear():
                raise Wrong("it has ended before all was said")
            if writable:
                text = text[os.write(given, text) :]

    def hear(self):
        """Reads what is there, or waits for it. Answers false at the end."""
        more = os.read(self.process.stdout.fileno(), 1 << 16)
        self.heard += more
        return bool(more)

    def wait_for(self, is_there):
        """Reads on until what was heard is enough."""
        end = time.monotonic() + SECONDS
        while not is_there(self.heard):
            ready, _, _ = select.select([self.process.stdout], [], [], max(end - time.monotonic(), 0))
            if not ready or not self.hear():
                raise Wrong(
                    f"{'the end' if ready else f'nothing more after {SECONDS} seconds'}, behind {self.heard[-80:]!r}"
                )

    def take(self, count):
        taken, self.heard = self.heard[:count], self.heard[count:]
        return taken

    def expect(self, what, text):
        """Reads a text, which has to be this."""
        wanted = text.encode()
        with contextlib.suppress(Wrong):
            self.wait_for(lambda heard: len(heard) >= len(wanted) or not wanted.startswith(heard))
        found = difference(what, self.heard[: len(wanted)], wanted)
        if found:
            raise Wrong(found[0])
        self.take(len(wanted))

    def expect_nothing(self, what):
        """Sees that nothing has come. What comes later is seen where the next text is expected."""
        if self.heard or select.select([self.process.stdout], [], [], 0.002)[0]:
            raise Wrong(f"{what}: an answer before the line was whole, or one too many")

    def document(self):
        """Reads a document, which stands between two lines."""
        self.expect("the first line", "document\n")
        self.wait_for(lambda heard: heard.endswith(b"\nend\n"))
        return self.take(len(self.heard)).removesuffix(b"end\n")

    def end(self, errors=()):
        """Ends the input. Nothing more may come, and on standard error the lines of these patterns."""
        self.process.stdin.close()
        with contextlib.suppress(Wrong):
            self.wait_for(lambda heard: False)
        self.ended_with(0, "".join(f"{each}\n" for each in errors), self.heard)

    def ended_with(self, status, error, rest=b""):
        """Sees how the session has ended: its status, and the pattern of what went to standard error."""
        try:
            found = self.process.wait(SECONDS)
        except subprocess.TimeoutExpired:
            raise Wrong(f"no end after {SECONDS} seconds") from None
        self.errors.seek(0)
        said = self.errors.read().decode(errors="replace")
        if (found, rest) != (status, b"") or not re.fullmatch(error, said):
            what = f"status {found}, {said[:300]!r} on standard error and {rest[:80]!r} more"
            raise Wrong(f"{what}, in place of {status} and {error[:300]!r}")

    def close(self):
        """Leaves nothing behind."""
        if self.process.poll() is None:
            self.process.kill()
        self.process.wait()
        for file in (self.process.stdin, self.process.stdout, self.errors):
            file.close()
        os.remove(self.errors.name)


@contextlib.contextmanager
def opened(command, path, document, *words, environment=None):
    with open(path, "wb") as file:
        file.write(document)
    client = Client(command, path, *words, environment=environment)
    try:
        yield client
    finally:
        client.close()
        os.remove(path)
