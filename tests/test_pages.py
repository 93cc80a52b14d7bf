"""The commands of README, docs/COMMANDS.md and docs/FORMATS.md do what these pages show."""
import re
import subprocess
import unittest

from program import PROGRAM, TOP

PAGES = ("README.md", "docs/COMMANDS.md", "docs/FORMATS.md")


def blocks(page):
    """The indented blocks of a page, without their indentation."""
    with open(f"{TOP}/{page}", encoding="utf-8") as file:
        found = re.findall(r"^    .*\n(?:\n*    .*\n)*", file.read(), re.M)
    return ["".join(line[4:] or "\n" for line in block.splitlines(keepends=True)) for block in found]


def shown(lines):
    """What fits the lines: a line `..` stands for any number of lines, and `..` in a line for any text."""
    return "".join(r"(?:.*\n)*?" if line == ".." else re.escape(line).replace(r"\.\.", ".*") + r"\n" for line in lines)


def ran(command, typed=""):
    """What the program prints for a command line, and what else it tells."""
    words = command.replace("./asl", PROGRAM, 1)
    done = subprocess.run(["bash", "-c", words], cwd=TOP, input=typed, capture_output=True, encoding="utf-8", timeout=120)
    return done.stdout + done.stderr


class Pages(unittest.TestCase):
    def test_each_command_prints_what_stands_below_it(self):
        count = 0
        for page in PAGES:
            for block in blocks(page):
                head, *lines = block.splitlines()
                if head.startswith("$ ./asl ") and not head.startswith("$ ./asl debug "):
                    with self.subTest(page=page, command=head):
                        self.assertRegex(ran(head[2:]), rf"\A{shown(lines)}\Z")
                    count += 1
        self.assertGreater(count, 10)

    def test_each_typed_line_is_answered_as_it_is_shown(self):
        count = 0
        for page in PAGES:
            for block in blocks(page):
                head, *lines = block.splitlines()
                if head.startswith("$ ./asl debug "):
                    typed = [line for line in lines if not line.startswith("  ")]
                    answers = [line[2:] for line in lines if line.startswith("  ")]
                    # behind the last line stand the history and the status
                    with self.subTest(page=page, command=head):
                        self.assertRegex(ran(head[2:], "".join(f"{line}\n" for line in typed)), rf"\A{shown([*answers, '..'])}\Z")
                    count += 1
        self.assertGreater(count, 1)

    def test_the_first_example_runs_as_readme_shows_it(self):
        install, history = [block for block in blocks("README.md") if "asl run examples/order" in block or block.startswith("1 0 ")]
        command = next(line for line in install.splitlines() if line.startswith("./asl run "))
        self.assertRegex(ran(command), rf"\A{shown(history.splitlines())}\Z")


if __name__ == "__main__":
    unittest.main()
