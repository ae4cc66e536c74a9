"""Programs that are compiled without their proofs, and run once."""
import re
import subprocess
import sys

ENDED = re.compile(r"run=ended status=(\d+) ")
OF_RT = re.compile(r"(rt|checked|interpreted|races|run|note): |run=")


def try_program(folder, given):
    """Runs `rt try` in the folder of a crate, with these words for the program, and writes what the program wrote. Answers its exit status, or None
    where it gave no answer."""
    command = ["rt", "try", *(["--", *given] if given else [])]
    tried = subprocess.run(command, cwd=folder, stdout=subprocess.PIPE, stderr=subprocess.PIPE)
    said = tried.stderr.decode(errors="replace").splitlines()
    ended = next((match for match in map(ENDED.match, said) if match), None)
    sys.stdout.buffer.write(tried.stdout)
    print("".join(f"{line}\n" for line in said if not ended or not OF_RT.match(line)), end="", file=sys.stderr)
    return int(ended[1]) if ended else None
