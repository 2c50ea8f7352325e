"""The documents: every block that begins with a command is run, and what it prints compared."""
import re
import unittest

from planner.library import MEANINGS
from support import ROOT, shell

DOCUMENTS = {"README.md": 1, "docs/USING.md": 20}  # and how many such blocks there are, at least


def blocks(text):
    """The indented blocks of a document that begin with a command: for each its (command, expected output) pairs."""
    for block in re.findall(r"(?:^    .*\n(?:\n(?=    (?!\$ )))?)+", text, re.MULTILINE):
        lines = [line[4:] for line in block.splitlines()]
        if lines[0].startswith("$ "):
            pairs = []
            for line in lines:
                if line.startswith("$ "):
                    pairs.append([line[2:], ""])
                else:
                    pairs[-1][1] += line + "\n"
            yield pairs


def differs(pairs):
    """How the commands of a block, run in one shell, print other than expected; None if they don't. '...' stands for any lines before."""
    mark = "-- next command --\n"
    printed, _ = shell(f"\necho -n '{mark}'\n".join(command for command, _ in pairs))
    parts = printed.split(mark)
    if len(parts) != len(pairs):
        return f"of {len(pairs)} commands {len(parts)} were run:\n{printed}"
    for (command, expected), said in zip(pairs, parts):
        same = said.endswith("\n" + expected[4:]) if expected.startswith("...\n") else said == expected
        if not same:
            return f"$ {command}\n{said}-- expected --\n{expected}"
    return None


class Documents(unittest.TestCase):
    def test_blocks(self):
        for name, least in DOCUMENTS.items():
            found = list(blocks((ROOT / name).read_text("utf-8")))
            self.assertGreaterEqual(len(found), least)
            for pairs in found:
                with self.subTest(document=name, command=pairs[0][0]):
                    self.assertIsNone(differs(pairs))

    def test_a_wrong_block_is_noticed(self):
        wrong = ("    $ echo a\n    b\n", "    $ x=a\n    $ echo $x\n    a\n    b\n", "    $ echo a b\n    ...\n    b\n", "    $ echo a\n",
            "    $ exit\n    $ echo a\n    a\n",
                 "    $ printf 'a\\n\\nb\\n'\n    a\n    b\n")  # fmt: skip
        for (pairs,) in map(blocks, wrong):
            self.assertIsNotNone(differs(pairs))
        (pairs,) = blocks("    $ x=a\n    $ echo b; echo $x\n    ...\n    a\n")
        self.assertIsNone(differs(pairs))
        (pairs,) = blocks("    $ printf 'a\\n\\nb\\n'\n    a\n\n    b\n")
        self.assertIsNone(differs(pairs))

    def test_refusals(self):
        """USING.md has a row for every refusal, and provokes each."""
        text = (ROOT / "docs/USING.md").read_text("utf-8")
        rows = re.findall(r"^\| (\d+) \|.*\|.*\|", text, re.MULTILINE)
        self.assertEqual(sorted(map(int, rows)), sorted(MEANINGS))
        provoked = set(re.findall(r'"refused": (\d+)', text)) | set(re.findall(r"^    refused (\d+) at", text, re.MULTILINE))
        self.assertEqual(sorted(map(int, provoked)), sorted(MEANINGS))

    def test_make_comes_first(self):
        """No line of README needs what only a later one builds."""
        lines = re.findall(r"^    (?:\$ )?((?:make|cc|c\+\+|cargo)\b.*)", (ROOT / "README.md").read_text("utf-8"), re.MULTILINE)
        self.assertEqual(lines[0], "make && ./planner solve examples/sea.txt")
        self.assertTrue(any(line.startswith("cc ") for line in lines))

    def test_links(self):
        """Every link in a document leads to a file."""
        for path in (ROOT / "README.md", ROOT / "CONTRIBUTING.md", *(ROOT / "docs").glob("*.md")):
            for link in re.findall(r"\]\(([^)#]+)[^)]*\)", path.read_text("utf-8")):
                self.assertTrue(link.startswith("https://") or (path.parent / link).is_file(), f"{path}: {link}")

    def test_words(self):
        """Nothing speaks of tools that are gone."""
        for path in [ROOT / "docs/USING.md", ROOT / "planner", *(ROOT / "python").rglob("*.py"), *(ROOT / "examples").rglob("*.txt")]:
            if path.name != "test_documents.py":
                self.assertNotRegex(path.read_text("utf-8"), r"tools/|target/solve")
