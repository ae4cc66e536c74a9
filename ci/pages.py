"""The pages of the repository: README.md and docs/*.md, their sentences, and the files, functions, types and options that they name."""
import fnmatch
import glob
import os
import re
import subprocess

MOST_WORDS = 25
FENCE = "```"
BULLET = re.compile(r"\s*(?:[-*]|\d+\.)\s+")
LINK = re.compile(r"!?\[[^\]]*\]\(([^)\s]+)\)")
CODE = re.compile(r"``.+?``|`[^`]+`")
END = re.compile(r"[.!?][\"')\]*_]*(?=\s|$)")
WORD = re.compile(r"\w")
PATH = re.compile(r"[\w.*/-]+")
SUFFIXES = (".antt", ".c", ".edit", ".json", ".md", ".py", ".rt", ".status", ".svg", ".toml", ".txt")

NAME = re.compile(r"[A-Za-z_]\w{2,}")
CALLED = re.compile(r"([A-Za-z_]\w{2,})\(|::([A-Za-z_]\w{2,})")
DEFINED = re.compile(r"\b(?:fn|def|macro_rules!|struct|enum|trait|type|class|record|data)\s+(\w+)|^\s*(?:pub\s+)?(\w+)\s*[{(,:=]", re.M)
# Names of other libraries, of the toolchain's commands, messages and attributes, and examples of names: no source of the repository has them, or none defines them.
FOREIGN = frozenset(
    "Allgatherv Alltoallv Gatherv bsp_begin bsp_end bsp_hpget bsp_hpmove bsp_hpput bsp_init bsp_pop_reg bsp_push_reg bsp_time "
    "BAD NOT REFUSED apt declaration orphan determined gt1 inline kernel lemma plant rli tactic tidy using xargs "
    "dict encode get_mut min range str tuple unwrap "
    "Beam HeatProgram beam length_of_own_cells own_cell REASON".split()
)


def pages_of(root):
    return sorted(path for path in (f"{root}/README.md", *glob.glob(f"{root}/docs/*.md")) if os.path.exists(path))


def text_of(page):
    with open(page, encoding="utf-8") as file:
        return file.read()


def without_blocks(text):
    """The lines of a page, with an empty one for each line of a code block."""
    inside = False
    lines = []
    for line in text.splitlines():
        fence = line.strip().startswith(FENCE)
        lines.append("" if inside or fence else line)
        inside ^= fence
    return lines


def pieces_of(text):
    """The paragraphs, headings, items of lists and cells of tables of a page, each with the number of its first line."""
    pieces = []
    begun = False
    for number, line in enumerate(without_blocks(text), 1):
        line = line.lstrip("> ")
        bullet = BULLET.match(line)
        if line.startswith("|"):
            cells = re.split(r"(?<!\\)\|", line)
            pieces += [(number, cell) for cell in cells]
            begun = False
        elif not line.strip() or line.startswith("#"):
            pieces.append((number, line))
            begun = False
        elif begun and not bullet:
            pieces[-1] = (pieces[-1][0], f"{pieces[-1][1]} {line.strip()}")
        else:
            pieces.append((number, line[bullet.end() :] if bullet else line))
            begun = True
    return pieces


def sentences_of(text):
    """Each sentence with the number of the line on which its piece begins. A link and a piece of code are a word each."""
    for number, piece in pieces_of(text):
        piece = CODE.sub("code", LINK.sub("link", piece))
        begin = 0
        for end in END.finditer(piece):
            yield number, piece[begin : end.end()].strip()
            begin = end.end()
        if piece[begin:].strip():
            yield number, piece[begin:].strip()


def words_of(sentence):
    return [word for word in sentence.split() if WORD.search(word)]


def long_sentences(root):
    """A line for each sentence of more than MOST_WORDS words."""
    for page in pages_of(root):
        for number, sentence in sentences_of(text_of(page)):
            count = len(words_of(sentence))
            if count > MOST_WORDS:
                yield f"{os.path.relpath(page, root)}:{number}: a sentence of {count} words: {sentence[:60]}"


def files_of(root):
    """The files of the repository, those that are not committed yet among them."""
    words = ["git", "-C", root, "ls-files", "--cached", "--others", "--exclude-standard"]
    listed = subprocess.run(words, stdout=subprocess.PIPE, text=True, check=True).stdout.splitlines()
    return [path for path in listed if os.path.exists(f"{root}/{path}")]


def looks_like_a_path(text):
    """Whether a piece of code names a file or a folder. `.rt` is an ending, and NAME.toml stands for any name."""
    if not PATH.fullmatch(text) or text.startswith((".", "/")) or ".." in text or re.search(r"\bNAME\b", text):
        return False
    return text.endswith(SUFFIXES) or "/" in text.rstrip("/")


def names_in(page):
    """The names of files and folders in code and in links outside of code blocks, with the numbers of their lines."""
    for number, line in enumerate(without_blocks(text_of(page)), 1):
        for target in LINK.findall(line):
            if "://" not in target and not target.startswith("#"):
                yield number, os.path.normpath(f"{os.path.dirname(page)}/{target.partition('#')[0]}"), True
        for code in CODE.findall(LINK.sub("link", line)):
            name = code.strip("`").removeprefix("./")
            if looks_like_a_path(name):
                yield number, name.rstrip("/"), False


def tails_of(files):
    """The last parts of all files and folders, from one part on."""
    tails = set()
    for file in files:
        parts = file.split("/")
        tails |= {"/".join(parts[begin:end]) for end in range(1, len(parts) + 1) for begin in range(end)}
    return tails


def is_there(name, tails):
    """Whether a file or a folder has this name, or last parts that are this name: `*` stands for any characters."""
    return name in tails or ("*" in name and bool(fnmatch.filter(tails, name)))


def missing_files(root):
    """A line for each file that a page names and that the repository does not have."""
    tails = tails_of(files_of(root))
    for page in pages_of(root):
        for number, name, linked in names_in(page):
            there = os.path.exists(name) if linked else is_there(name, tails)
            if not there:
                yield f"{os.path.relpath(page, root)}:{number}: there is no {os.path.relpath(name, root) if linked else name}"


def sources_of(root):
    """The texts of the files that are no pages and no pictures."""
    for path in files_of(root):
        if not path.endswith((".md", ".svg", ".png")):
            with open(f"{root}/{path}", encoding="utf-8", errors="replace") as file:
                yield path, file.read()


def names_of(root):
    """The words of all sources, and those that the code defines."""
    there, defined = set(), set()
    for path, text in sources_of(root):
        there |= {*NAME.findall(text), *re.split(r"[/.]", path)}
        if not path.startswith("cases/"):
            defined |= {name for pair in DEFINED.findall(text) for name in pair}
    return there, defined


def codes_in(page):
    """The pieces of code of a page outside of code blocks, with the numbers of their lines. A file that is named is no such piece."""
    for number, line in enumerate(without_blocks(text_of(page)), 1):
        for code in CODE.findall(LINK.sub("link", line)):
            if not looks_like_a_path(code.strip("`").removeprefix("./")):
                yield number, code


def missing_names(root):
    """A line for each name in code that no source has, and for each call or member that none defines."""
    there, defined = names_of(root)
    for page in pages_of(root):
        for number, code in codes_in(page):
            called = {name for pair in CALLED.findall(code) for name in pair if name}
            wrong = {name for name in NAME.findall(code) if name not in there} | {name for name in called if name not in defined}
            for name in sorted(wrong - FOREIGN):
                yield f"{os.path.relpath(page, root)}:{number}: there is no {name}"
