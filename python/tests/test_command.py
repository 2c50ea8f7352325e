"""The command: answers as text and as JSON, statuses, what goes wrong in one line, output that is lost, Ctrl-C, progress."""
import json
import os
import pty
import re
import shutil
import signal
import subprocess
import sys
import tempfile
import time
import unittest
from pathlib import Path
from unittest import mock

import planner
from planner import commandline, formats
from support import EXAMPLES, FOUR, ROOT, planner as command, shell

LONG_RUN = "chart examples/regrade/gulf.txt\nopen 20000000 0 0\nrun 18446744073709551615\n"


class Answers(unittest.TestCase):
    def test_text(self):
        for words, said in (
            (("solve", "examples/four.txt"), ("cost 12\nround 1-2-3-4-1\nlegs 1 3 4 6\nnodes 1\n", "", 0)),
            (("solve", "examples/four.txt", "--ceiling", 11), ("none\nnodes 1\n", "", 1)),
            (("solve", "examples/four.txt", "--ceiling", -5), ("none\nnodes 0\n", "", 1)),
            (("solve", "examples/regrade/split.txt"), ("none\nnodes 1\n", "", 1)),
            (("solve", "examples/regrade/gulf.txt", "--nodes", 0), ("going on\nno round costs 412 or less\nnodes 0\n", "", 3)),
            (("solve", "examples/four.txt", "--ceiling", 5000000001), 
                ("", "examples/four.txt: refused 13 at 0: ceiling out of range; allowed is -5000000000 to 5000000000\n", 2)),
            (("rule", "examples/four.txt", "--ceiling", 12),
             ("bound 10 ceiling 12\n1 1-2 keep\n2 1-3 keep\n3 1-4 keep\n4 2-3 force\n5 2-4 bar\n6 3-4 force\n", "", 0)),
            (("rule", "examples/four.txt", "--ceiling", 9), ("dead\n", "", 1)),
            (("rule", "examples/four.txt", "--ceiling", 11, "--dues", "0,0,1,-1"), ("dead\n", "", 1)),
            (("rule", "examples/four.txt", "--ceiling", 12, "--dues", "0, 0 0"),
                ("", "examples/four.txt: refused 11 at 0: a list of wrong length\n", 2)),
            (("tree", "examples/four.txt"), ("bound 10\n1 1-2 4\n2 1-3 3\n4 2-3 2\n6 3-4 1\n", "", 0)),
            (("tree", "examples/four.txt", "--dues", "0,0,1,-1"), ("bound 12\n1 1-2 4\n2 1-3 3\n4 2-3 2\n6 3-4 1\n", "", 0)),
            (("tree", "examples/four.txt", "--dues=-1,0,0,0"),
                ("", "examples/four.txt: refused 12 at 0: a due out of range, or the first not 0; allowed is -1000000 to 1000000\n", 2)),
            (("tree", "examples/four.txt", "--dues", "0,0,1,-1", "--denominator", 2),
                ("bound 22 denominator 2\n1 1-2 4\n2 1-3 3\n4 2-3 2\n6 3-4 1\n", "", 0)),
            (("tree", "examples/four.txt", "--denominator", 1001), ("", "examples/four.txt: refused 32 at 0: the denominator is not 1 to 1,000\n", 2)),
            (("rule", "examples/four.txt", "--ceiling", 10, "--dues", "0,0,1,-1", "--denominator", 2), ("dead\n", "", 1)),
            (("rule", "examples/four.txt", "--ceiling", 11, "--dues", "0,0,1,-1", "--denominator", 2),
                ("bound 22 ceiling 11 denominator 2\n1 1-2 force\n2 1-3 force\n3 1-4 bar\n4 2-3 force\n5 2-4 bar\n6 3-4 force\n", "", 0)),
            (("rule", "examples/four.txt", "--ceilings", 11, 10, "--dues", "0,0,1,-1", "--denominator", 2),
                ("bound 22 ceilings 11 10 denominator 2\n11: 1 1-2 force\n11: 2 1-3 force\n11: 3 1-4 bar\n11: 4 2-3 force\n11: 5 2-4 bar\n"
                 "11: 6 3-4 force\n10: dead\n", "", 0)),
            (("preview", "examples/four.txt", 1, 2, "--dues", "0,0,1,-1", "--denominator", 2),
                ("bound 23 denominator 2\n2 1-3 3\n3 1-4 5\n4 2-3 2\n6 3-4 1\n", "", 0)),
            (("preview", "examples/four.txt", 7, 3, "--denominator", 0),
                ("", "examples/four.txt: refused 32 at 0: the denominator is not 1 to 1,000\n", 2)),
            (("compare", "examples/four.txt", "--denominator", 1001), ("", "examples/four.txt: refused 32 at 0: the denominator is not 1 to 1,000\n", 2)),
            (("page", "examples/four.txt", "--denominator", 1001), ("", "examples/four.txt: refused 32 at 0: the denominator is not 1 to 1,000\n", 2)),
            (("preview", "examples/four.txt", 5, "required"), ("bound 14\n1 1-2 4\n2 1-3 3\n5 2-4 6\n6 3-4 1\n", "", 0)),
            (("preview", "examples/four.txt", 6, 2), ("bound 15\n1 1-2 4\n2 1-3 3\n4 2-3 2\n5 2-4 6\n", "", 0)),
            (("preview", "examples/four.txt", 7, 1),
                ("", "examples/four.txt: refused 30 at 0: no such leg, or a new mark that is not 1 or 2\n", 2)),
            (("preview", "examples/four.txt", 1, 0),
                ("", "examples/four.txt: refused 30 at 0: no such leg, or a new mark that is not 1 or 2\n", 2)),
            (("tree", "examples/regrade/loop.chart"), ("", "examples/regrade/loop.chart: refused 6 at 3: record met before\n", 2)),
        ):  # fmt: skip
            with self.subTest(words):
                self.assertEqual(command(*words), said)
        self.assertEqual(command("tree", "-", given="buoys 3\n"), ("no tree\n", "", 1))
        self.assertEqual(command("solve", "-", given="buoys 3\n1-9 4\n")[1:],
            ("standard input:2: buoy 9 is out of range; allowed is 1 to 3\n", 2))

    def test_json(self):
        four = {"file": "examples/four.txt"}
        refused = {"file": "examples/regrade/loop.chart", "refused": 6, "place": 3, "meaning": "record met before"}
        for words, said, status in (
            (("solve", "examples/four.txt"),
                four | {"verdict": "cost", "cost": 12, "round": [1, 2, 3, 4, 1], "legs": [1, 3, 4, 6], "first": True, "nodes": 1}, 0),
            (("solve", "examples/four.txt", "--ceiling", 11), four | {"verdict": "none", "nodes": 1}, 1),
            (("solve", "examples/regrade/gulf.txt", "--nodes", 0),
                {"file": "examples/regrade/gulf.txt", "verdict": "going on", "above": 412, "nodes": 0}, 3),
            (("rule", "examples/four.txt", "--ceiling", 12), four | {"ceiling": 12, "bound": 10,
                "rulings": ["keep", "keep", "keep", "force", "bar", "force"]}, 0),
            (("rule", "examples/four.txt", "--ceiling", 9), four | {"ceiling": 9, "verdict": "dead"}, 1),
            (("tree", "examples/four.txt"), four | {"bound": 10, "legs": [1, 2, 4, 6]}, 0),
            (("tree", "examples/four.txt", "--denominator", 1), four | {"bound": 10, "legs": [1, 2, 4, 6]}, 0),
            (("tree", "examples/four.txt", "--denominator", 7), four | {"denominator": 7, "bound": 70, "legs": [1, 2, 4, 6]}, 0),
            (("rule", "examples/four.txt", "--ceiling", 9, "--denominator", 7), four | {"ceiling": 9, "denominator": 7, "verdict": "dead"}, 1),
            (("compare", "examples/four.txt", "--ceiling", 12, "--pairs", "0/0", "--denominator", 7),
                four | {"denominator": 7, "pairs": [{"sweeps": 0, "step": 0, "nodes": 5}]}, 0),
            (("tree", "examples/four.txt", "--denominator", 0),
                four | {"refused": 32, "place": 0, "meaning": "the denominator is not 1 to 1,000"}, 2),
            (("solve", "examples/regrade/loop.chart"), refused, 2),
            (("rule", "examples/regrade/loop.chart", "--ceiling", 3), refused, 2),
        ):
            with self.subTest(words):
                out, complaints, ended = command(*words, "--json")
                self.assertEqual((json.loads(out), out.count("\n"), complaints, ended), (said, 1, "", status))

    def test_convert(self):
        with tempfile.TemporaryDirectory() as folder:
            for ending, form in formats.ENDINGS.items():
                out = Path(folder, f"four{ending}")
                self.assertEqual(command("convert", "examples/four.txt", out), ("", "", 0))
                self.assertEqual(out.read_bytes(), formats.written(FOUR, form, "four"))
                other = Path(folder, "other")
                self.assertEqual(command("convert", out, other, "--to", "table"), ("", "", 0))
                self.assertEqual(planner.load(other), FOUR)
            self.assertEqual(command("convert", Path(folder, "four.csv"), "-")[0], formats.written(FOUR, "table").decode())
            self.assertEqual(command("convert", Path(folder, "four.chart"), "-", "--to", "csv")[0], formats.written(FOUR, "csv").decode())
            self.assertEqual(command("convert", "-", "-", given=(EXAMPLES / "sea.chart").read_bytes())[0].splitlines()[:2],
                ["buoys 11", "1-2 34"])

    def test_convert_faults(self):
        allowed = "allowed are .chart (chart), .csv (csv), .tsp (tsplib), .txt (table), or --to FORM"
        with tempfile.TemporaryDirectory() as folder:
            wrong = Path(folder, "wrong.txt")
            wrong.write_text("buoys 3\n1-9 4\n", encoding="utf-8")
            out = Path(folder, "out.chart")
            self.assertEqual(command("convert", wrong, out), ("", f"{wrong}:2: buoy 9 is out of range; allowed is 1 to 3\n", 2))
            self.assertEqual(command("convert", "examples/sea.txt", f"{folder}/out.tsp")[1:],
                             ("examples/sea.txt: leg 1-6 is missing, which TSPLIB cannot say: there every pair of cities has a free or "
                              "a fixed edge\n", 2))  # fmt: skip
            partly = Path(folder, "partly.txt")
            partly.write_text("buoys 3\nat 1 0 0\n", encoding="utf-8")
            said = f"{partly}: buoy 2 has no line 'at'; allowed are positions for all buoys or for none\n"
            self.assertEqual(command("draw", partly, f"{folder}/x.svg"), ("", said, 2))
            partly.unlink()
            self.assertEqual(command("convert", "examples/sea.txt", f"{folder}/out.dat")[1:],
                (f"{folder}/out.dat: the name does not say the form; {allowed}\n", 2))
            self.assertEqual(command("convert", "examples/sea.txt", f"{folder}/no/x.csv")[1:],
                (f"{folder}/no/x.csv: No such file or directory\n", 2))
            self.assertEqual(command("draw", "examples/sea.txt", folder)[1:], (f"{folder}: Is a directory\n", 2))
            self.assertEqual(os.listdir(folder), ["wrong.txt"])
            turned = Path(folder, "turned.txt")
            turned.write_text("buoys 3\n2-3 3\n1-2 1\n1-3 2\n", encoding="utf-8")
            said = command("convert", turned, f"{folder}/out.tsp")[1:]
            self.assertEqual(said, (f"{turned}: legs are numbered anew: TSPLIB has them in the order 1-2, 1-3, ..\n", 0))

    def test_never_over_the_input(self):
        """By any name that leads to it."""
        with tempfile.TemporaryDirectory() as folder:
            path, link, hard = (Path(folder, name) for name in ("a.txt", "link.chart", "hard.chart"))
            data = (EXAMPLES / "sea.txt").read_bytes()
            path.write_bytes(data)
            link.symlink_to(path)
            os.link(path, hard)
            for verb in ("convert", "draw"):
                for out in (path, link, hard, f"{folder}/../{Path(folder).name}/a.txt"):
                    said = command(verb, path, out, *(("--to", "chart") if verb == "convert" else ()))
                    self.assertEqual(said, ("", f"{out}: the file that is read; name another one to write\n", 2))
                    self.assertEqual(path.read_bytes(), data)
            said = shell(f"./planner convert - {path} < {path}")
            self.assertEqual((said, path.read_bytes()), ((f"{path}: the file that is read; name another one to write\n", 2), data))


class Usage(unittest.TestCase):
    def test_help(self):
        out, _, status = command("--help")
        self.assertEqual(status, 0)
        names = re.findall(r"^    (\w+) ", out, re.MULTILINE)
        self.assertEqual(names, ["solve", "rule", "tree", "preview", "recent", "simulate", "compare", "class", "regrade", "convert", "draw", "page", "calls"])
        for name in names:
            out, complaints, status = command(name, "--help")
            self.assertEqual((out.startswith(f"usage: planner {name} "), complaints, status), (True, "", 0))

    def test_bad_usage(self):
        """One line, not long, status 2."""
        long = "9" * 100_000
        for words in ((), ("walk",), ("solve",), ("solve", "a", "b"), ("rule", "examples/four.txt"),
            ("solve", "examples/four.txt", "--ceiling", "x"),
                      ("solve", "examples/four.txt", "--ceiling", 2**63), ("solve", "examples/four.txt", "--ceiling", long),
                      ("tree", "examples/four.txt", "--dues", "0,x"),
                      ("tree", "examples/four.txt", "--dues", 2**31), ("tree", "examples/four.txt", "--dues", long),
                      ("convert", "examples/four.txt"), ("preview", "examples/four.txt", 1), ("preview", "examples/four.txt", "x", 1),
                      ("preview", "examples/four.txt", 1, "free"), ("preview", "examples/four.txt", 1, 2**32),
                      ("recent", "examples/four.txt", "examples/season.csv"), ("recent", "examples/four.txt", "--last", 2),
                      ("recent", "examples/four.txt", "examples/season.csv", "--last", "x"),
                      ("convert", "examples/four.txt", "-", "--to", "tapes"), ("solve", "examples/four.txt", "--nodes", -1), ("draw",),
                      ("page",), ("page", "examples/four.txt", "b.html"), ("page", "examples/four.txt", "--low", "x"),
                      (long,)):  # fmt: skip
            out, complaints, status = command(*words)
            self.assertEqual((out, complaints.count("\n"), status), ("", 1, 2), words)
            self.assertTrue(complaints.startswith("planner") and complaints.endswith(" --help\n") and len(complaints) < 260, complaints[:300])

    def test_bad_denominators(self):
        """Whatever is sent, what is allowed is said; by the library where the number fits."""
        for verb, *more in (("tree",), ("rule", "--ceiling", 9), ("preview",), ("compare",), ("page",)):
            for word in ("x", "1/2", -1, 2**64, "0.5"):
                out, complaints, status = command(verb, "examples/four.txt", *more, "--denominator", word)
                said = f"planner {verb}: argument --denominator: denominator '{word}' is out of range; allowed is 1 to 1000; see planner {verb} --help\n"
                self.assertEqual((out, complaints, status), ("", said, 2))
            for word in (0, 1_001, 2**64 - 1):
                said = "examples/four.txt: refused 32 at 0: the denominator is not 1 to 1,000\n"
                self.assertEqual(command(verb, "examples/four.txt", *more, "--denominator", word), ("", said, 2))
        self.assertEqual(command("solve", "examples/four.txt", "--denominator", 2)[2], 2)

    def test_bad_lifting(self):
        """It is a yes or a no, where nodes are counted; 'solve' chooses by itself."""
        for word in ("x", "1", "YES", "", "yes no"):
            said = f"planner compare: argument --lifting: lifting '{word}' is unknown; allowed are yes and no; see planner compare --help\n"
            self.assertEqual(command("compare", "examples/four.txt", "--lifting", word), ("", said, 2))
        for verb, *more in (("solve",), ("tree",), ("rule", "--ceiling", 9), ("class",), ("compare", "--lifting")):
            words = ("--lifting", "yes") if verb != "compare" else ()
            out, complaints, status = command(verb, "examples/four.txt", *more, *words)
            self.assertEqual((out, complaints.count("\n"), status), ("", 1, 2), verb)

    def test_files(self):
        """What cannot be read: one line, status 2, for every command that takes a file."""
        with tempfile.TemporaryDirectory() as folder:
            empty, binary, line = (Path(folder, name) for name in ("empty.txt", "binary.txt", "line\n.txt"))
            empty.write_bytes(b"")
            binary.write_bytes(b"\xff\xfe\0\1")
            for path, message in ((Path(folder, "none"), "No such file or directory"), (folder, "Is a directory"),
                (binary, "a text in UTF-16; save it in UTF-8"),
                                  (empty, "the file is empty; allowed is a sea as a table, a chart's bytes, CSV or TSPLIB"),
                                  (line, "No such file or directory")):  # fmt: skip
                shown = str(path).replace("\n", "?")
                for words in (("solve", path), ("tree", path), ("rule", path, "--ceiling", 1), ("draw", path), ("page", path), ("convert", path, "-")):
                    self.assertEqual(command(*words), ("", f"{shown}: {message}\n", 2))
            self.assertEqual(command("calls", folder), ("", f"{folder}: Is a directory\n", 2))
            self.assertEqual(command("calls", f"{folder}/none"), ("", f"{folder}/none: No such file or directory\n", 2))

    def test_two_megabytes(self):
        with tempfile.TemporaryDirectory() as folder:
            path = Path(folder, "long.txt")
            path.write_text("buoys 3\n1-2 " + "x" * 900_000, encoding="utf-8")
            for words in (("solve", path), ("calls", path)):
                _, said, status = command(*words)
                self.assertEqual((status, max(map(len, said.splitlines())) < 300), (2, True))
            path.write_text("x" * 2_000_000, encoding="utf-8")
            self.assertEqual(command("solve", path)[1:], (f"{path}: the text is longer than 1048576 bytes; no sea is\n", 2))

    def test_missing_library(self):
        said = shell("./planner solve examples/four.txt", PLANNER_LIBRARY="/nonexistent/x.so")
        self.assertEqual(said, ("the library /nonexistent/x.so is missing: run make\n", 2))
        self.assertEqual(shell("./planner --help > /dev/null", PLANNER_LIBRARY="/nonexistent/x.so"), ("", 0))

    def test_mistakes(self):
        """Even a mistake in the command itself is one line."""
        with mock.patch.object(commandline, "parser", lambda: 1 // 0), mock.patch.object(commandline, "complain") as said:
            self.assertEqual(commandline.main(["solve"]), 2)
        self.assertRegex(said.call_args[0][0], r"^planner: ZeroDivisionError at test_command.py:\d+: integer division or modulo by zero$")

    def test_python_m(self):
        self.assertEqual(shell("PYTHONPATH=python python3 -B -m planner solve examples/four.txt | head -n 1"), ("cost 12\n", 0))

    def test_installed(self):
        """By a link from elsewhere, and as make install puts it: PREFIX/bin, PREFIX/lib and the package below PREFIX/lib."""
        library = Path(planner.library.library()._name).resolve()
        asked = f"tree {ROOT}/examples/four.txt | head -n 1"
        with tempfile.TemporaryDirectory() as folder:
            os.symlink(ROOT / "planner", f"{folder}/planner")
            self.assertEqual(shell(f"cd {folder} && ./planner {asked}", PLANNER_LIBRARY=str(library)), ("bound 10\n", 0))
        for package in ("lib/python", "lib/python3.10/site-packages", "lib/python3/dist-packages"):
            with tempfile.TemporaryDirectory() as prefix:
                Path(prefix, "bin").mkdir()
                shutil.copytree(ROOT / "python/planner", Path(prefix, package, "planner"), ignore=shutil.ignore_patterns("__pycache__"))
                shutil.copy(ROOT / "planner", f"{prefix}/bin/planner")
                shutil.copy(library, f"{prefix}/lib/libplanner.so")
                self.assertEqual(shell(f"unset PLANNER_LIBRARY; cd / && {prefix}/bin/planner {asked}"), ("bound 10\n", 0))


class Lost(unittest.TestCase):
    """Output that is lost is never success, and never a traceback."""

    COMMANDS = (
        "solve examples/four.txt", "solve examples/four.txt --json", "rule examples/four.txt --ceiling 12", "tree examples/four.txt",
        "regrade examples/regrade",
        "regrade examples/regrade --csv", "regrade examples/regrade --json", "convert examples/four.txt -",
        "convert examples/four.txt - --to chart", "draw examples/four.txt", "page examples/four.txt",
        "--help", "solve --help", "calls <<< tell", "calls --json <<< tell",
    )  # fmt: skip

    def test_full_disk(self):
        for words in self.COMMANDS:
            verb, *given = words.split(" <<< ")
            said = shell(f"./planner {verb} > /dev/full" + (f" <<< {given[0]}" if given else ""))
            self.assertEqual(said, ("planner: standard output: No space left on device\n", 4), words)
        for words in ("convert examples/four.txt /dev/full --to csv", "draw examples/four.txt /dev/full", "page examples/four.txt -o /dev/full"):
            self.assertEqual(shell(f"./planner {words}"), ("planner: /dev/full: No space left on device\n", 4))
        self.assertEqual(shell("./planner solve examples/four.txt > /dev/full 2> /dev/full"), ("", 4))

    def test_nothing_half_written(self):
        """A limit on the size of files stands for a disk that fills up while a file is written."""
        with tempfile.TemporaryDirectory() as folder:
            for words in (f"draw examples/sea.txt {folder}/x.svg", f"page examples/sea.txt -o {folder}/x.html", f"convert examples/regrade/gulf.txt {folder}/x.csv"):
                out = words.split()[-1]
                self.assertEqual(shell(f"ulimit -f 1; ./planner {words}"), (f"planner: {out}: File too large\n", 4))
                self.assertEqual(os.listdir(folder), [])

    def test_closed_pipe(self):
        for words in self.COMMANDS:
            verb, *given = words.split(" <<< ")
            read, write = os.pipe()
            os.close(read)
            done = subprocess.run(["bash", "-c", f"./planner {verb}"], cwd=ROOT, stdout=write, stderr=subprocess.PIPE, check=False,
                input=given[0].encode() if given else b"")
            os.close(write)
            self.assertEqual((done.stderr, done.returncode), (b"", 4), words)

    def test_closed_output(self):
        for words in self.COMMANDS[:4]:
            self.assertEqual(shell(f"./planner {words} >&-"), ("planner: standard output: closed\n", 4))

    def test_closed_errors(self):
        self.assertEqual(shell("./planner solve none.txt 2>&-"), ("", 2))
        self.assertEqual(shell("./planner solve none.txt 2> /dev/full"), ("", 2))
        self.assertEqual(shell("./planner calls <<< nonsense 2> /dev/full"), ("", 2))
        self.assertEqual(shell("./planner calls <&-"), ("", 0))
        self.assertEqual(shell("./planner solve - <&-")[1], 2)

    def test_names_in_a_plain_locale(self):
        """Whatever encoding the terminal is said to have, names and answers are written."""
        with tempfile.TemporaryDirectory() as folder:
            planner.save(FOUR, f"{folder}/Zürich ☂.txt")
            Path(folder, "costs.csv").write_text("name,cost\nZürich ☂.txt,12\n", encoding="utf-8")
            for locale in ({"LC_ALL": "C", "PYTHONIOENCODING": "ascii"}, {"LC_ALL": "C.UTF-8"},
                {"LC_ALL": "C", "PYTHONCOERCECLOCALE": "0", "PYTHONUTF8": "0"}):
                said, status = shell(f"./planner regrade {folder}; ./planner solve '{folder}/Zürich.txt'", **locale)
                self.assertNotIn("Traceback", said)
                self.assertIn("1 in all: 1 right", said)


class Signals(unittest.TestCase):
    def started(self, words, **more):
        """The command in its own session, with Ctrl-C as a terminal's user has it."""
        arguments = [sys.executable, ROOT / "planner", *words]
        return subprocess.Popen(arguments, cwd=ROOT, start_new_session=True, preexec_fn=lambda: signal.signal(signal.SIGINT, signal.SIG_DFL),
            **more)

    def test_interrupt(self):
        """By the signal, quietly: within a search, at a prompt, and at any moment of the start."""
        for given, wait in ((LONG_RUN, 0.2), ("tell\n", 0.2), *(("", 0.02 * turn) for turn in range(8))):
            process = self.started(["calls"], stdin=subprocess.PIPE, stdout=subprocess.PIPE, stderr=subprocess.PIPE)
            process.stdin.write(given.encode())
            process.stdin.flush()
            answer = process.stdout.readline() if given else b""
            time.sleep(wait)
            process.send_signal(signal.SIGINT)
            try:
                out, complaints = process.communicate(timeout=10)
            finally:
                process.kill()
            if given:
                self.assertEqual((out, complaints, process.returncode), (b"", b"", -signal.SIGINT))
                self.assertEqual(answer, b"accepted\n" if given == LONG_RUN else b"refused 20 at 0\n")

    def test_progress_on_a_terminal(self):
        """After a second, nodes and best so far on standard error; the line is taken away; answers are as ever."""
        leader, follower = pty.openpty()
        script = LONG_RUN.replace("run 18446744073709551615", "run 4000000")
        process = self.started(["calls"], stdin=subprocess.PIPE, stdout=subprocess.PIPE, stderr=follower)
        os.close(follower)
        out, _ = process.communicate(script.encode(), timeout=100)
        shown = b""
        try:
            while chunk := os.read(leader, 65536):
                shown += chunk
        except OSError:
            pass  # the terminal's other end is closed
        os.close(leader)
        self.assertEqual((out, process.returncode), (b"accepted\ngoing on nodes 4000000\n", 0))
        lines = shown.decode().split("\r\033[K")
        self.assertGreater(len(lines), 2, shown)
        for line in lines[1:-1]:
            self.assertRegex(line, r"^nodes \d+, (best so far \d+|no round yet), ceiling 20000000$")
        self.assertEqual(lines[-1], "")

    def test_no_progress_elsewhere(self):
        script = LONG_RUN.replace("run 18446744073709551615", "run 50000")
        self.assertEqual(command("calls", given=script), ("accepted\ngoing on nodes 50000\n", "", 0))
