"""What a person at a terminal sees: the tree in the debugger, and colours."""
import os
import pty
import re
import subprocess
import unittest

from program import PROGRAM, TOP, ProgramTest, run_program

CONTROL = re.compile("\x1b\\[[0-9]+m")
DIM, RED, GREEN, YELLOW, PLAIN = (f"\x1b[{number}m" for number in (2, 31, 32, 33, 0))


def at_terminal(words, lines="", no_color=None, typed=True):
    """What the program writes to a terminal, where these lines are typed, or come from a pipe."""
    environment = {name: value for name, value in os.environ.items() if name != "NO_COLOR"}
    if no_color is not None:
        environment["NO_COLOR"] = no_color
    ours, theirs = pty.openpty()
    keys, pressed = pty.openpty() if typed else os.pipe()[::-1]
    ran = subprocess.Popen([PROGRAM, *words], stdin=pressed, stdout=theirs, stderr=subprocess.DEVNULL, env=environment)
    os.close(theirs)
    os.close(pressed)
    os.write(keys, lines.encode())
    if not typed:
        os.close(keys)
    told = b""
    try:
        while piece := os.read(ours, 65536):
            told += piece
    except OSError:  # The other end is closed.
        pass
    os.close(ours)
    if typed:
        os.close(keys)
    assert ran.wait(60) in (0, 1), ran
    return told.decode().replace("\r\n", "\n")


def setup(example, case):
    """The words of an execution."""
    folder = f"{TOP}/examples/{example}"
    given = f"{folder}/{case}.input.json" if os.path.exists(f"{folder}/{case}.input.json") else f"{folder}/input.json"
    return [f"{folder}/definition.json", f"{folder}/mocks.json", f"{example}#{case}", given]


EXAMPLES = [("order", "shipped"), ("order", "unpaid"), ("loan", "both"), ("approval", "rejected"), ("polling", "failed")]


def debugged(words, lines, *more):
    """What the debugger answers to lines that come from a pipe."""
    return subprocess.run([PROGRAM, "debug", *words, *more], input=lines, capture_output=True, encoding="utf-8", timeout=60)


class TreeInDebuggerTest(ProgramTest):
    def tree(self, words, lines):
        """The answers to these lines, with the tree."""
        ran = debugged(words, lines, "--format", "tree")
        self.assertEqual((ran.returncode, ran.stderr), (0, ""))
        return ran.stdout

    def transcript(self, words, lines):
        return debugged(words, lines).stdout

    def body(self, words):
        """The lines of the tree of a run, but the first and the last one; and the last one."""
        told = run_program("run", *words, "--format", "tree").stdout.splitlines(keepends=True)
        return "".join(told[1:-1]), told[-1]

    def places(self, words, lines):
        """What the branches are doing behind these lines."""
        before, after = self.transcript(words, lines), self.transcript(words, lines + "places\n")
        at = next((at for at, (a, b) in enumerate(zip(before, after)) if a != b), len(before))
        # (what is told of the branches stands where the history would begin)
        at = before.rindex("\n", 0, at) + 1 if "\n" in before[:at] else 0
        return after[at : at + len(after) - len(before)]

    def test_a_whole_run(self):
        for example, case in EXAMPLES:
            words = setup(example, case)
            with self.subTest(words):
                body, status = self.body(words)
                self.assertEqual(self.tree(words, "continue\n"), body + self.places(words, "continue\n") + status)

    def test_step_by_step(self):
        for example, case in EXAMPLES:
            words = setup(example, case)
            with self.subTest(words):
                body, status = self.body(words)
                count = len(run_program("run", *words, "--format", "steps").stdout.splitlines())
                wanted, told = "", self.tree(words, "next\n" * count)
                for number in range(1, count + 1):
                    now = self.tree(words, f"next {number}\n")
                    before = self.tree(words, f"next {number - 1}\n") if number > 1 else ""
                    lines = "next\n" * number
                    shown = self.places(words, lines)
                    one = now[: now.rindex(shown)]
                    earlier = before[: before.rindex(self.places(words, "next\n" * (number - 1)))] if number > 1 else ""
                    self.assertTrue(body.startswith(one) and one.startswith(earlier), lines)
                    wanted += one[len(earlier) :] + shown
                self.assertEqual(told, wanted + status)

    def test_what_takes_no_step_is_told_as_ever(self):
        words = setup("order", "unpaid")
        lines = "places\nbreak \"Not paid\"\nshow /\ndata /\nback 1\nevents\nsteps\nhelp\nfoo\nstep /0 1970-01-01T00:00:00Z\nresume /\nback 0\n"
        told, usual = self.tree(words, lines), self.transcript(words, lines)
        end = self.transcript(words, "")
        self.assertEqual(told, usual[: -len(end)] + end.splitlines(keepends=True)[-1])

    def test_going_back_and_on(self):
        words = setup("order", "unpaid")
        once = self.tree(words, "next\nnext\nnext\n").removesuffix("status RUNNING\n")
        last = once[len(self.tree(words, "next\nnext\n").removesuffix("status RUNNING\n")) :]
        self.assertTrue(last.startswith("00:05.000 /"), last)
        again = self.tree(words, "next\nnext\nnext\nback 1\nnext\n")
        self.assertEqual(again, once + "back 2\n" + self.places(words, "next\nnext\n") + last + "status RUNNING\n")
        there = self.places(words, "next\n")
        self.assertIn('/ Ready "Charge card" ok', there)
        self.assertTrue(self.tree(words, "next 3\nback 2\n").endswith(f"\nback 1\n{there}status RUNNING\n"))
        # (the transcript is that of a script)
        self.assertIn("\nback 1\nback 0\n1 0 ", self.transcript(words, "next 3\nback 2\nback 1\n"))
        self.assertEqual(self.tree(words, "next 3\nback 3\nnext 3\n").count("00:05.000 /    Charge card"), 2)

    def test_a_breakpoint(self):
        words = setup("order", "unpaid")
        told = self.tree(words, 'break "Not paid"\ncontinue\ncontinue\n').splitlines()
        self.assertEqual(told[0], "set")
        stop = told.index('/ Ready "Not paid" paused "Not paid"')
        self.assertTrue(told[stop - 1].startswith("00:05.000 /    Ask for another card  Task 0"))
        self.assertTrue(told[stop + 1].startswith("00:05.000 /    Not paid  Fail"))

    def test_a_first_step_starts_the_execution(self):
        told = self.tree(setup("order", "unpaid"), "step / 2024-01-01T00:00:00Z\n")
        self.assertTrue(told.startswith("00:00.000 /    Number order  Pass"), told)

    def test_steps_that_are_refused(self):
        words = setup("order", "unpaid")
        self.assertEqual(self.tree(words, "step /7 2024-01-01T00:00:00Z\n"), "S2 NoSuchPlace\nstatus RUNNING\n")

    def test_a_script_has_no_tree(self):
        words = setup("order", "shipped")
        ran = run_program("debug", *words, words[3], "--format", "tree")
        self.assertEqual((ran.returncode, ran.stdout), (2, ""))
        self.assertIn("a script is told as text", ran.stderr)


class TerminalTest(ProgramTest):
    def test_the_tree_is_the_default_where_a_person_types(self):
        words = setup("order", "unpaid")
        lines = "next 2\nquit\n"
        tree = debugged(words, lines, "--format", "tree").stdout
        self.assertIn(tree, at_terminal(["debug", *words], lines, no_color="1"))
        transcript = debugged(words, lines).stdout
        self.assertIn(transcript, at_terminal(["debug", *words, "--format", "text"], lines, no_color="1"))
        self.assertIn(transcript, at_terminal(["debug", *words], lines, no_color="1", typed=False))

    def test_colours_are_the_tree_with_controls(self):
        for example, case in EXAMPLES:
            words = setup(example, case)
            for form in ("tree", "data"):
                plain = run_program("run", *words, "--format", form).stdout
                self.assertNotIn("\x1b", plain)
                told = at_terminal(["run", *words, "--format", form])
                self.assertIn(DIM, told)
                self.assertEqual(CONTROL.sub("", told), plain)
                self.assertEqual(at_terminal(["run", *words, "--format", form], no_color="1"), plain)
                # (empty is as if it weren't set: https://no-color.org)
                self.assertEqual(at_terminal(["run", *words, "--format", form], no_color=""), told)
            self.assertNotIn("\x1b", at_terminal(["run", *words]))

    def test_what_is_coloured(self):
        told = at_terminal(["run", *setup("order", "unpaid"), "--format", "tree"]).split("\n")
        self.assertTrue(told[1].startswith(f"{DIM}00:00.000 / {PLAIN}   Number order  Pass"), told[1])
        self.assertTrue(told[1].endswith(f"{GREEN}passed                   -> Charge card{PLAIN}"), told[1])
        retried = next(line for line in told if "again at" in line)
        self.assertIn(f"{YELLOW}failed Bank.Busy", retried)
        caught = next(line for line in told if "catcher 0" in line)
        self.assertIn(f"{RED}failed Bank.Busy", caught)
        self.assertTrue(told[-2].startswith(f"{RED}status FAILED"), told[-2])
        good = at_terminal(["run", *setup("order", "shipped"), "--format", "tree"]).split("\n")
        self.assertTrue(good[-2].startswith(f"{GREEN}status SUCCEEDED") and good[-2].endswith(PLAIN), good[-2])
        stopped = next(line for line in at_terminal(["run", *setup("loan", "both"), "--format", "tree"]).split("\n") if "stopped" in line)
        self.assertIn(f"{DIM}stopped{PLAIN}", stopped)

    def test_colours_in_the_debugger(self):
        words = setup("order", "unpaid")
        lines = "next 2\nevents\nquit\n"
        told = at_terminal(["debug", *words], lines)
        plain = debugged(words, lines, "--format", "tree").stdout
        self.assertIn(plain, CONTROL.sub("", told))
        self.assertIn(f"{DIM}00:00.000 / {PLAIN}   Number order  Pass", told)
        # (an event begins with digits as well, and has no colour)
        self.assertIn("\n1 0 ", told)


if __name__ == "__main__":
    unittest.main()
