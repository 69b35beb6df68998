"""The examples in documents, and the types."""

import doctest
import os
import re
import shutil
import subprocess
import unittest

from support import PROGRAM, TOP, ProgramCase, needs_program

import hammockdove


@needs_program
class DocumentTests(ProgramCase):
    def test_examples(self):
        was = os.environ.get("HAMMOCKDOVE")
        os.environ["HAMMOCKDOVE"] = PROGRAM
        self.addCleanup(lambda: os.environ.pop("HAMMOCKDOVE") if was is None else os.environ.__setitem__("HAMMOCKDOVE", was))
        runner = doctest.DocTestRunner()
        for name, text in (("PYTHON.md", (TOP / "docs/PYTHON.md").read_text()), ("hammockdove", hammockdove.__doc__)):
            code = "".join(re.findall(r"```python\n(.*?)```", text, re.S)) if name.endswith(".md") else text
            runner.run(doctest.DocTestParser().get_doctest(code, {}, name, None, 0))
        self.assertEqual(runner.summarize(verbose=False).failed, 0)
        self.assertGreater(runner.tries, 8)


    def test_commands_of_files(self):
        (self.room / "hammockdove").write_text(f'#!/bin/sh\nexec {PROGRAM} "$@"\n')
        (self.room / "hammockdove").chmod(0o755)
        (self.room / "examples").symlink_to(TOP / "examples")
        (self.room / "python").symlink_to(TOP / "python")
        environment = {**os.environ, "HAMMOCKDOVE": PROGRAM, "PYTHONPATH": "python", "PYTHONDONTWRITEBYTECODE": "1"}
        tried = 0
        for block in re.findall(r"```\n(\$ .*?)```", (TOP / "docs/FILES.md").read_text(), re.S):
            for shown in block.removeprefix("$ ").split("\n$ "):
                command, _, wanted = shown.partition("\n")
                words = ["bash", "-c", f"exec 2>&1; {command}"]
                found = subprocess.run(words, cwd=self.room, env=environment, capture_output=True, text=True).stdout
                pattern = "".join("(.*\n)*" if line == "..." else re.escape(line) + "\n" for line in wanted.splitlines())
                self.assertRegex(found, f"\\A{pattern}\\Z", command)
                tried += 1
        self.assertGreater(tried, 3)


class TypeTests(unittest.TestCase):
    @unittest.skipUnless(shutil.which("mypy"), "mypy is not there")
    def test_mypy(self):
        words = ["mypy", "--strict", "--python-version", "3.11", "--cache-dir", os.devnull, "hammockdove"]
        ran = subprocess.run(words, cwd=TOP / "python", capture_output=True, text=True)
        self.assertEqual(ran.returncode, 0, ran.stdout)

    def test_documents_name_every_error(self):
        text = (TOP / "docs/PYTHON.md").read_text()
        for name in hammockdove.__all__:
            found = getattr(hammockdove, name)
            if isinstance(found, type) and issubclass(found, Exception) and name != "Refused":
                self.assertIn(f"`{name}`", text)


if __name__ == "__main__":
    unittest.main()
