"""The crates of the repository by level, and which of them a working tree changes against a commit."""
import subprocess


def lines_of(root, *words):
    return subprocess.run(words, cwd=root, check=True, stdout=subprocess.PIPE, text=True).stdout.splitlines()


def needs_in(lines):
    """The libraries of each crate, by the lines of a crates.txt."""
    rows = [line.partition("#")[0].partition(":") for line in lines]
    return {name.split()[0]: needs.split() for name, _, needs in rows if name.strip()}


def needs(root):
    with open(f"{root}/crates.txt", encoding="utf-8") as file:
        return needs_in(file)


def crates_by_level(root, *tops):
    """These crates, or all, and those that they stand on, each after those that it stands on: the order in which `rt` proves them."""
    below, crates = needs(root), []

    def add(crate):
        if crate in below and crate not in crates:
            for it in below[crate]:
                add(it)
            crates.append(crate)

    for crate in tops or below:
        add(crate)
    return crates


def crates_above(root, changed):
    """These crates and all that stand on one of them, the lowest first."""
    below, found = needs(root), set(changed)
    ordered = crates_by_level(root)
    for crate in ordered:
        if found.intersection(below[crate]):
            found.add(crate)
    return [crate for crate in ordered if crate in found]


def nearest(root):
    """Of each crate the crates of the repository on which it stands, without those on which one of them stands."""
    own = needs(root)
    below = {crate: {it for it in crates_by_level(root, crate) if it != crate} for crate in own}
    return {crate: [it for it in own if it in own[crate] and not any(it in below[other] for other in own[crate] if other in own)] for crate in own}


def changed_crates(root, commit):
    """The crates whose proofs may have changed since a commit, and those with another file changed too: the latter's edits are to be tried."""
    paths = lines_of(root, "git", "diff", "--name-only", commit)
    paths += lines_of(root, "git", "ls-files", "--others", "--exclude-standard")
    parts = [path.split("/") for path in paths if path.startswith("crates/") and path.count("/") > 1]
    now, before = needs(root), needs_in(lines_of(root, "git", "show", f"{commit}:crates.txt"))
    moved = {crate for crate in now if now[crate] != before.get(crate)}
    proofs = moved | {part[1] for part in parts if part[2] in ("src", "specs", "proofs")}
    edits = proofs | {part[1] for part in parts if part[2] == "must-fail"}
    return proofs, [crate for crate in crates_by_level(root) if crate in edits]
