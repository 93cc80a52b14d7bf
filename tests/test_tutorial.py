"""The commands of docs/TUTORIAL.md do what the page shows."""
import os
import re
import shutil
import subprocess
import tempfile
import unittest

from program import PROGRAM, TOP

PAGE = f"{TOP}/docs/TUTORIAL.md"


def sessions(page):
    """The page's blocks of commands, each a list of commands with the lines that are shown behind it."""
    found = []
    for block in re.findall(r"^```console\n(.*?)^```$", page, re.M | re.S):
        commands = []
        for line in block.splitlines():
            if line.startswith("$ "):
                commands.append((line[2:], []))
            else:
                commands[-1][1].append(line)
        found.append(commands)
    return found


def shown(lines):
    """What fits the lines: `..` stands for any number of lines."""
    return "".join("(?:.*\n)*?" if line == ".." else re.escape(line) + "\n" for line in lines)


class Tutorial(unittest.TestCase):
    def test_every_command_prints_what_the_page_shows(self):
        with open(PAGE, encoding="utf-8") as file:
            page = file.read()
        with tempfile.TemporaryDirectory(prefix="asl-tutorial-") as room:
            shutil.copytree(f"{TOP}/docs/tutorial", f"{room}/files")
            os.symlink(PROGRAM, f"{room}/asl")
            words = {"cwd": f"{room}/files", "env": {**os.environ, "PATH": f"{room}:{os.environ['PATH']}"}}
            count = 0
            for commands in sessions(page):
                status = 0
                for command, lines in commands:
                    count += 1
                    with self.subTest(command=command):
                        done = subprocess.run(
                            ["bash", "-c", f"(exit {status}); {command}"],
                            **words,
                            stdin=subprocess.DEVNULL,
                            stdout=subprocess.PIPE,
                            stderr=subprocess.STDOUT,
                            encoding="utf-8",
                            timeout=60,
                        )
                        status = done.returncode
                        self.assertRegex(done.stdout, rf"\A{shown(lines)}\Z")
        self.assertGreater(count, 20)


if __name__ == "__main__":
    unittest.main()
