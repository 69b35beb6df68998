"""The benchmark, the man page, the client's commands and the example."""

import contextlib
import gzip
import hashlib
import importlib.machinery
import importlib.util
import io
import os
import shutil
import subprocess
import sys
import unittest

from support import PATIENCE, PROGRAM, SAMPLES, TEXT, TOP, ProgramCase, RoomCase, bytes_of, needs_program, small_search

from hammockdove import PROBLEMS, ProgramFailed, Solver
from hammockdove.__main__ import main


def load(path):
    """A script as a module."""
    loader = importlib.machinery.SourceFileLoader(path.name, str(path))
    made = importlib.util.module_from_spec(importlib.util.spec_from_loader(path.name, loader))
    sys.modules[path.name] = made
    loader.exec_module(made)
    return made


def said(call, *words):
    """The status of a call, and what it wrote to standard output and to standard error."""
    with contextlib.redirect_stdout(io.StringIO()) as out, contextlib.redirect_stderr(io.StringIO()) as err:
        status = call(list(map(str, words)))
    return status, out.getvalue(), err.getvalue()


class CommandTests(RoomCase):
    def test_convert(self):
        status, out, err = said(main, "convert", "rudy", SAMPLES / "halves.mc")
        self.assertEqual((status, out.splitlines()[:2]), (0, ["4 5", "1 2 50"]))
        self.assertEqual(err, "note: weights have decimals: all were multiplied by 100, and so is every value\n")
        self.assertEqual(said(main, "convert", "pisinger", SAMPLES / "two.csv", "--number", 2)[1], "3 9\n7 4\n13 9\n5 4\n")
        self.assertIn("end depot", said(main, "convert", "afg", SAMPLES / "way.tw", "--end-depot")[2])

    def test_refusals(self):
        path = self.room / "three.wcnf"
        path.write_text("h 1 2 3 0\n")
        status, out, err = said(main, "convert", "wcnf", path)
        self.assertEqual((status, out), (3, ""))
        self.assertEqual(err, f"{path}: line 1, column 7: MAX-2SAT has at most two literals in a clause, found '3'\n")
        self.assertEqual(said(main, "convert", "wcnf", self.room / "none")[0], 3)

    def test_no_program(self):
        solver = Solver("/nowhere/hammockdove")
        for call in (lambda: solver.knows("knapsack"), lambda: solver.solve(("knapsack", "0 1\n"), journal=False)):
            self.assertRaisesRegex(ProgramFailed, "does not start: No such file or directory; .HAMMOCKDOVE names the program", call)

    def test_show(self):
        path = self.room / "kept.journal"
        path.write_bytes(bytes_of(small_search(2)))
        status, out, _ = said(main, "show", path)
        self.assertEqual((status, out.splitlines()[0], out.splitlines()[-1]), (0, "version 2", "end 397"))
        self.assertEqual(said(main, "show", path, "--instance")[1].encode(), TEXT)
        done = subprocess.run([TOP / "tools/journal/show", path], capture_output=True, text=True, timeout=PATIENCE, check=False)
        self.assertEqual((done.returncode, done.stdout), (0, out))
        path.write_bytes(bytes_of(small_search(2))[:150])
        status, out, err = said(main, "show", path)
        self.assertEqual((status, out.splitlines()[-1], err), (3, "end 137", f"{path}: journal damaged at byte 137: the file ends inside a record\n"))
        self.assertEqual(said(main, "show", self.room / "none")[::2], (3, f"{self.room / 'none'}: No such file or directory\n"))
        path.write_bytes(b"no journal")
        self.assertEqual(said(main, "show", path)[2], f"{path} is no journal: its first byte is neither 0 nor 1\n")
        path.write_bytes(b"\0")
        self.assertEqual(said(main, "show", path)[2], f"{path} holds no journal yet: it has at most one byte, or its first gate is closed\n")

    def test_watch_and_plot(self):
        path = self.room / "kept.journal"
        path.write_bytes(bytes_of(small_search(2)))
        status, out, _ = said(main, "watch", path)
        self.assertEqual((status, out), (0, "knapsack  best 120  bound 120  gap 0 (0.0%)  finished 3  open 0  done\n"))
        self.assertEqual(said(main, "plot", path)[1], f"{self.room / 'kept.svg'}\n")
        path.write_bytes(bytes_of(small_search(2))[:100])
        self.assertEqual(said(main, "plot", path)[2], f"{path}: journal damaged at byte 75: the file ends inside a record\n")


class ReorderTests(RoomCase):
    def run_tool(self, words, given=None):
        done = subprocess.run([sys.executable, TOP / "tools/reorder.py", *words], input=given, capture_output=True, text=True, timeout=PATIENCE, check=False)
        return done.returncode, done.stdout

    def test_values_stay(self):
        for model, example in (("knapsack", "camping.txt"), ("maxcut", "six-towns.txt"), ("max2sat", "menu.wcnf"), ("qubo", "stalls.txt")):
            path = TOP / "examples" / model / example
            old = PROBLEMS[model].from_text(path.read_text())
            new = PROBLEMS[model].from_text(self.run_tool([model, path])[1])
            for ones in (6, 10):
                found = [ones >> at & 1 for at in range(new.size)]
                if new.value(found) is not None:
                    report = f"value {new.value(found)}\n{' '.join(map(str, ('assignment', *found)))}\n"
                    back = self.run_tool([model, path, "--back"], report)[1].splitlines()
                    self.assertEqual(old.value([int(it) for it in back[1].split()[1:]]), new.value(found), model)

    def test_items_over_lines(self):
        """Each text is an instance, however its tokens are spread over lines."""
        path = self.room / "file"
        for model, text, wanted in (
            ("knapsack", "2 10 60 5\n50 4\n", "2 10\n50 4\n60 5\n"),
            ("knapsack", "2\n10\n60\n5 2\n50 4", "2 10\n50 4\n60 5 2\n"),
            ("max2sat", "p cnf 2 2\n1 2 0\n-1 2 0\n%\n0\n", "p wcnf 2 2\n1 1 2 0\n1 -1 2 0\n"),
            ("maxcut", "3 3 1 1 4 1 2 5\n2 3 -2\n", "3 3\n1 1 4\n1 2 5\n2 3 -2\n"),
        ):
            with self.subTest(model=model, text=text):
                path.write_text(text)
                self.assertEqual(self.run_tool([model, path]), (0, wanted))

    def test_what_is_no_instance_is_refused(self):
        """No text that the program refuses becomes another instance."""
        path = self.room / "file"
        for model, text in (
            ("knapsack", "3 10 60 5 50 4 70 6\n"),
            ("knapsack", "3 10\n60 5\n50 4\n70 6\n0 1 1\n"),
            ("knapsack", "4 10\n60 5\n50 4\n70 6\n"),
            ("maxcut", "3 3\n1 2\n2 3\n1 3\n"),
            ("maxcut", "3 3\n1 2 4\n2 3 1\n"),
            ("maxcut", "3 1\n0 2 4\n"),
            ("max2sat", "p wcnf 1 3 4\n4 1 0\n3 -1 0\n3 -1 0\n"),
            ("max2sat", "p wcnf 2 3\n1 1 0\n1 2 0\n"),
            ("max2sat", "p wcnf 2 1\n1 1 2\n"),
            ("qubo", "2 1\n2 1 5\n"),
        ):
            with self.subTest(model=model, text=text):
                path.write_text(text)
                self.assertEqual(self.run_tool([model, path]), (1, ""))

    def test_wrong_words(self):
        self.assertEqual(self.run_tool([])[0], 1)
        self.assertEqual(self.run_tool(["maxcut", self.room / "none"])[0], 1)


class ManPageTests(unittest.TestCase):
    def test_page(self):
        page = load(TOP / "tools/man_page.py").page(
            "# Title\n\nFirst `--width N` words, **strong**, *stressed*, 2 * 3 * 4, [a link](X.md).\n\n- [One](#one), [two](#two)\n\n## A part\n\n"
            "```\n$ ./hammockdove check\n.dot\n```\n\n| Option | What it does | Without it |\n|---|---|---|\n| `--width N` | a \\| b | 100 |\n\n"
            "- one\n  more\n- two\n<!-- left out -->\n"
        )
        for line in (
            r"First \fB\-\-width N\fR words, \fBstrong\fR, \fIstressed\fR, 2 * 3 * 4, a link.",
            '.SH "A PART"',
            "$ hammockdove check",
            r"\&.dot",
            r"\fB\-\-width N\fR",
            "a | b; Without it: 100",
            "one more",
        ):
            self.assertIn(f"\n{line}\n", page)
        self.assertNotIn("left out", page)
        self.assertNotIn("Title", page)
        self.assertNotIn("One", page)

    @unittest.skipUnless(shutil.which("groff"), "groff is not there")
    def test_roff_takes_it(self):
        words = [sys.executable, TOP / "tools/man_page.py", TOP / "docs/USING.md", TOP / "README.md"]
        made = subprocess.run(words, capture_output=True, check=True)
        shown = subprocess.run(["groff", "-k", "-man", "-Tutf8", "-ww"], input=made.stdout, capture_output=True, check=True)
        self.assertEqual(shown.stderr, b"")
        self.assertIn(b"solve MODEL", shown.stdout)


@needs_program
class BenchmarkTests(ProgramCase):
    def setUp(self):
        super().setUp()
        was = os.environ.get("HAMMOCKDOVE")
        os.environ["HAMMOCKDOVE"] = PROGRAM
        self.addCleanup(lambda: os.environ.pop("HAMMOCKDOVE") if was is None else os.environ.__setitem__("HAMMOCKDOVE", was))
        self.folder = self.room / "instances"
        self.folder.mkdir()
        for name in ("two.csv", "rota.wcnf"):
            shutil.copy(SAMPLES / name, self.folder)
        self.benchmark = load(TOP / "tools/benchmark")

    def test_table_and_profile(self):
        (self.folder / "known.csv").write_text("rota,2\n")
        words = (self.folder, "--limit", PATIENCE, "--jobs", 2, "--config", "plain=", "--config", "narrow=--width 2")
        status, out, _ = said(self.benchmark.main, *words)
        self.assertEqual(status, 0, out)
        table = (self.folder / "results/table.md").read_text()
        self.assertIn("| rota.wcnf | plain | 4 | proved | unsatisfied weight 2; all hard clauses hold | 2 | 0 |", table)
        self.assertIn("| two.csv | narrow | 4 | proved | profit 24 | 24 | 0 |", table)
        profile = (self.folder / "results/profile.csv").read_text().splitlines()
        self.assertEqual([line.split(",")[:2] for line in profile[1:]], [["plain", "2"], ["narrow", "2"]])
        self.assertEqual(len((self.folder / "results/results.csv").read_text().splitlines()), 5)

    def test_another_optimum_and_a_bad_file(self):
        (self.folder / "known.csv").write_text("rota.wcnf,3\n")
        (self.folder / "bad.mc").write_text("2 1\n1 9 1\n")
        status, out, err = said(self.benchmark.main, self.folder, "--limit", PATIENCE)
        self.assertEqual(status, 1)
        self.assertIn("3 **differs**", out)
        self.assertIn("line 2, column 3", out)
        self.assertIn("differs or failed: bad.mc rota.wcnf", err)

    def test_configurations(self):
        self.assertEqual(self.benchmark.Config.of("a=--width 10 --cutset=frontier").options, {"width": 10, "cutset": "frontier"})
        self.assertRaises(ValueError, self.benchmark.Config.of, "a=--color red")


@needs_program
@unittest.skipUnless(shutil.which("make"), "make is not there")
class InstallTests(RoomCase):
    def test_install_and_uninstall(self):
        prefix, modules = self.room / "usr", self.room / "modules"
        words = ["make", "-s", "-C", TOP, f"PREFIX={prefix}", f"PYTHONDIR={modules}", f"PROGRAM={PROGRAM}", f"PYTHON={sys.executable}"]
        subprocess.run([*words, "install"], check=True, capture_output=True)
        identity = dict(line.split(" ", 1) for line in (prefix / "share/doc/hammockdove/IDENTITY").read_text().splitlines())
        self.assertEqual(identity["program-sha256"], hashlib.sha256((prefix / "bin/hammockdove").read_bytes()).hexdigest())
        self.assertEqual(set(identity), {"program-sha256", "source-commit", "kit"})
        self.assertIn(b".TH HAMMOCKDOVE 1", gzip.decompress((prefix / "share/man/man1/hammockdove.1.gz").read_bytes()))
        environment = {"PATH": f"{prefix}/bin:/usr/bin:/bin", "PYTHONPATH": str(modules), "PYTHONDONTWRITEBYTECODE": "1"}
        client = [sys.executable, "-m", "hammockdove", "convert", "rudy", SAMPLES / "wheel.rudy"]
        ran = subprocess.run(client, env=environment, capture_output=True, text=True, check=True)
        self.assertTrue(ran.stdout.startswith("6 10\n1 2 1\n"))
        subprocess.run([*words, "uninstall"], check=True, capture_output=True)
        self.assertEqual([it for it in self.room.rglob("*") if it.is_file()], [])


@needs_program
class ExampleTests(ProgramCase):
    def test_cut(self):
        environment = {**os.environ, "HAMMOCKDOVE": PROGRAM, "PYTHONPATH": str(TOP / "python"), "PYTHONDONTWRITEBYTECODE": "1"}
        words = [sys.executable, TOP / "examples/python/cut.py", "12", str(PATIENCE)]
        ran = subprocess.run(words, cwd=self.room, env=environment, capture_output=True, text=True)
        self.assertEqual(ran.returncode, 0, ran.stderr)
        self.assertIn("accepted: True", ran.stdout)
        self.assertTrue((self.room / "cut-search.svg").is_file())

    def test_solve_command(self):
        os.environ["HAMMOCKDOVE"], was = PROGRAM, os.environ.get("HAMMOCKDOVE")
        self.addCleanup(lambda: os.environ.pop("HAMMOCKDOVE") if was is None else os.environ.__setitem__("HAMMOCKDOVE", was))
        self.assertIn("no solution satisfies all hard clauses of the file", said(main, "solve", "wcnf", SAMPLES / "clash.wcnf")[1])
        self.assertIn("in the file's measure: return time", said(main, "solve", "tsptw", SAMPLES / "van.tsptw")[1])


if __name__ == "__main__":
    unittest.main()
