"""Shows that the pages of the repository have short sentences, name files and functions that are there and tell updates as they are, and that wrong pages are
found: tests of ci/test_gate."""
import os
import re
import shutil
import subprocess
import tempfile
import unittest

from cases import ROOT
from changes import nearest
from pages import FOREIGN, MOST_WORDS, NAME, codes_in, long_sentences, missing_files, missing_names, pages_of, text_of


CRATE = re.compile(r"^\| `(\w+)` \| ([^|]*)\|", re.M)
UPDATE = re.compile(r"(?:^|`)((?:turns|deliveries|why turn|why delivery|update|executed) [\w ]*\d[\w ]*)(?:$|`)", re.M)


def words(count):
    return " ".join(["word"] * count)


class Pages(unittest.TestCase):
    """A folder with a page and a few files."""

    FILES = ("check", "ci/live", "ci/pages.py", "ci/modelled/runs.py", "docs/page.md")

    def setUp(self):
        self.root = tempfile.mkdtemp(prefix="pages-")
        self.addCleanup(shutil.rmtree, self.root)
        for path in self.FILES:
            os.makedirs(os.path.dirname(f"{self.root}/{path}"), exist_ok=True)
            self.write(path, "")
        subprocess.run(["git", "init", "-q", self.root], check=True)

    def write(self, path, text):
        with open(f"{self.root}/{path}", "w", encoding="utf-8") as file:
            file.write(text)

    def lines_of(self, find, text):
        """The lines that are found for the page with this text."""
        self.write("docs/page.md", text)
        return list(find(self.root))

    def test_sentences_of_the_repository_are_short(self):
        self.assertEqual(list(long_sentences(ROOT)), [])

    def test_files_that_pages_name_are_there(self):
        self.assertEqual(list(missing_files(ROOT)), [])

    def test_names_in_code_are_there(self):
        self.assertEqual(list(missing_names(ROOT)), [])

    def test_foreign_names_are_used_and_are_foreign(self):
        used = {name for page in pages_of(ROOT) for _, code in codes_in(page) for name in NAME.findall(code)}
        self.assertEqual(sorted(FOREIGN - used), [])

    def test_crates_are_told_as_they_stand_on_one_another(self):
        crates = text_of(f"{ROOT}/docs/architecture.md").partition("## The crates")[2].partition("\n## ")[0]
        told = {name: re.findall(r"`(\w+)`", below) for name, below in CRATE.findall(crates)}
        self.assertEqual(told, nearest(ROOT))
        for place, name in enumerate(told):
            self.assertLessEqual(set(told[name]), set(list(told)[:place]), name)

    def test_a_whole_kernel_is_told_as_it_stands(self):
        hello = text_of(f"{ROOT}/crates/bsp_tests/src/hello.rt")
        self.assertIn(f"```rust\n{hello}```", text_of(f"{ROOT}/docs/kernels.md"))

    def test_the_readme_is_short(self):
        self.assertLessEqual(len(text_of(f"{ROOT}/README.md").split()), 1_500)

    def test_updates_are_told_as_in_stored_reports(self):
        """Each line of an update on docs/updates.md stands in a report that the page is about."""
        reports = ("bsp_tool/why_prefix_of_eight", "heat/why_a_cell_that_rounding_absorbs")
        stored = "".join(text_of(f"{ROOT}/cases/{name}.txt") for name in reports).splitlines()
        told = UPDATE.findall(text_of(f"{ROOT}/docs/updates.md"))
        self.assertGreater(len(told), 25)
        self.assertEqual([line for line in told if line not in stored], [])

    def test_a_long_sentence_is_found_everywhere(self):
        most, long = words(MOST_WORDS), words(MOST_WORDS + 1)
        forms = ["{}", "Short. {}.", "# {}", "> {}", "- {}", "2. {}", "- short\n- {}", "| a | {} |\n|---|---|", "({})", "**{}.**", "one\n\n{}", "```\ncode\n```\n{}"]
        for form in forms:
            with self.subTest(form=form):
                self.assertEqual(self.lines_of(long_sentences, form.format(most)), [])
                self.assertEqual(len(self.lines_of(long_sentences, form.format(long))), 1)

    def test_a_sentence_goes_over_lines(self):
        text = f"Short. {words(20)}\n{words(6)}. Short."
        self.assertEqual(self.lines_of(long_sentences, text), [f"docs/page.md:1: a sentence of 26 words: {words(20)[:60]}"])

    def test_sentences_items_and_cells_are_counted_by_themselves(self):
        part = words(15)
        for text in (f"{part}. {part}! {part}? {part}", f"- {part}\n- {part}\n  {words(10)}", f"| {part} | {part} |", f"{part}\n\n{part}", f"# {part}\n{part}"):
            with self.subTest(text=text):
                self.assertEqual(self.lines_of(long_sentences, text), [])

    def test_code_and_links_are_a_word_each(self):
        code = " ".join(["`let it = be;`", "[a link of words](docs/page.md)", "w + h·g - l"] * 5)
        self.assertEqual(self.lines_of(long_sentences, code), [])
        self.assertEqual(len(self.lines_of(long_sentences, f"{code} a")), 1)

    def test_code_blocks_have_no_sentences(self):
        self.assertEqual(self.lines_of(long_sentences, f"a\n```\n{words(50)}\n```\n- b\n  ```\n  {words(50)}\n  ```\n"), [])

    def test_a_file_that_is_not_there(self):
        for name in ("`ci/none.py`", "`./ci/none.py`", "`none.py`", "`docs/none/`", "`crates/none`", "`docs/*.toml`", "[a page](none.md)", "![a picture](none.svg)", "[a page](page.md) and `ci/none`"):
            with self.subTest(name=name):
                found = self.lines_of(missing_files, f"Text.\n\nSee {name}.")
                self.assertEqual([line.partition(": there is no ")[0] for line in found], ["docs/page.md:3"])

    def test_files_that_are_there(self):
        names = ["`ci/pages.py`", "`./check`", "`pages.py`", "`modelled/runs.py`", "`ci/modelled/`", "`ci/*.py`", "[this](page.md#part)", "[a script](../ci/live)"]
        self.assertEqual(self.lines_of(missing_files, " ".join(names)), [])

    def test_a_name_that_is_not_there(self):
        self.write("ci/pages.py", "def find_all(pages):\n    return other.method(pages)\n\nclass Page:\n    pass\n")
        for name in ("`find_none`", "`find_none(pages)`", "`method(..)`", "`Page::method`", "`--none`", "`other.none`"):
            with self.subTest(name=name):
                found = self.lines_of(missing_names, f"Text.\n\nSee {name}.")
                self.assertEqual([line.partition(": there is no ")[0] for line in found], ["docs/page.md:3"])
        names = "`find_all` `find_all(pages)` `Page::find_all` `method` `x + y` `ci/none.py` `Beam`"
        self.assertEqual(self.lines_of(missing_names, f"{names}\n```\nfind_none\n```"), [])

    def test_names_that_are_no_files(self):
        names = ["`.rt`", "`w/..`", "`NAME.toml`", "`NAME/stdin`", "`l.count`", "`a b/c.md`", "`/tmp/x.md`", "[Rattle](https://none.md)", "[above](#part)"]
        self.assertEqual(self.lines_of(missing_files, f"{' '.join(names)}\n```\nnone.md\n```"), [])
