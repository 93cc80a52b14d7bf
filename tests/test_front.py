"""What ./asl refuses at once where no program is built: wrong command lines, and files that aren't there. The program refuses each of them too."""
import os
import shutil
import subprocess
import sys
import tempfile
import unittest

from program import TOP, run_program

DEFINITION, MOCKS, INPUT = (f"{TOP}/examples/hello/{it}.json" for it in ("definition", "mocks", "input"))
PROJECT = f"{TOP}/examples/asl.toml"
RUN = [DEFINITION, MOCKS, "Hello", INPUT]

WRONG = [
    (["rnu", *RUN], "there is no command 'rnu'"),
    (["--frobnicate"], "there is no command '--frobnicate'"),
    (["help", "rnu"], "there is no command 'rnu'"),
    (["print"], "DEF is missing"),
    (["check", DEFINITION, DEFINITION], f"{DEFINITION!r} is one word too many"),
    (["run", DEFINITION], "MOCKS is missing"),
    (["run", DEFINITION, "--mocks", MOCKS, "--case", "Hello"], "INPUT is missing"),
    (["run", *RUN, "again"], "'again' is one word too many"),
    (["run", *RUN, "--frmat", "json"], "there is no option --frmat"),
    (["run", *RUN, "--format"], "--format wants a value"),
    (["run", *RUN, "--format=yaml"], "--format is one of text, json"),
    (["graph", DEFINITION, "--run"], "MOCKS is missing"),
    (["explore", *RUN, "--prompt=yes"], "--prompt takes no value"),
    (["test", DEFINITION, MOCKS], "EXPECT is missing"),
]
MISSING = [
    ["check", "nowhere.json"],
    ["run", DEFINITION, "nowhere.json", "Hello", INPUT],
    ["run", DEFINITION, MOCKS, "--case", "Hello", "--input", "nowhere.json"],
    ["run", *RUN, "--steps=nowhere.json"],
    ["run", "order#shipped", "--project", "nowhere.json"],
    ["check", "--project=nowhere.json"],
    ["test", DEFINITION, MOCKS, "nowhere.json"],
]


class FrontTest(unittest.TestCase):
    @classmethod
    def setUpClass(cls):
        cls.room = tempfile.mkdtemp(prefix="asl-front-")
        cls.addClassCleanup(shutil.rmtree, cls.room)
        shutil.copy(f"{TOP}/asl", cls.room)
        shutil.copytree(f"{TOP}/tools", f"{cls.room}/tools")
        os.makedirs(f"{cls.room}/crates/asl")
        os.makedirs(f"{cls.room}/bin")
        os.symlink(sys.executable, f"{cls.room}/bin/python3")
        with open(f"{cls.room}/bin/rt", "w", encoding="utf-8") as file:
            file.write("#!/bin/sh\necho called >&2\nexit 9\n")
        os.chmod(f"{cls.room}/bin/rt", 0o755)

    def front(self, *words):
        """What ./asl answers where nothing is built, and a kit whose rt does nothing."""
        return subprocess.run(
            [f"{self.room}/asl", *words],
            cwd=self.room,
            env={"PATH": f"{self.room}/bin:/usr/bin:/bin"},
            stdin=subprocess.DEVNULL,
            capture_output=True,
            encoding="utf-8",
            timeout=60,
            check=False,
        )

    def test_wrong_command_lines(self):
        for words, why in WRONG:
            with self.subTest(words=words):
                ran = self.front(*words)
                self.assertEqual((ran.returncode, ran.stdout), (2, ""))
                self.assertTrue(ran.stderr.startswith(f"asl: {why}"), ran.stderr)
                self.assertEqual(run_program(*words).returncode, 2)

    def test_missing_files(self):
        for words in MISSING:
            with self.subTest(words=words):
                ran = self.front(*words)
                self.assertEqual((ran.returncode, ran.stdout, ran.stderr), (2, "", "fault: file nowhere.json\n"))
                self.assertEqual(run_program(*words).stderr, ran.stderr)

    def test_right_command_lines_are_compiled(self):
        for words in (["run", *RUN], ["check", "-"], ["run", "order#shipped", "--project", PROJECT], ["test", "--project", PROJECT], ["graph", DEFINITION], ["lint", DEFINITION, "--strict"]):
            with self.subTest(words=words):
                self.assertRegex(self.front(*words).stderr, "(?s)^asl: .*compiling the sources .*called")


if __name__ == "__main__":
    unittest.main()
