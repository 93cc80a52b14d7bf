"""--test: the case, the input and the steps of a test of a suite, for run, debug and explore."""
import json
import os
import subprocess
import tempfile
import unittest

from program import PROGRAM

# Two branches, so that steps matter: the one that steps first decides.
DEFINITION = {"StartAt": "P", "States": {"P": {"Type": "Parallel", "End": True, "Branches": [
    {"StartAt": "A", "States": {"A": {"Type": "Task", "Resource": "r", "End": True}}},
    {"StartAt": "B", "States": {"B": {"Type": "Task", "Resource": "r", "End": True}}}]}}}
MOCKS = {"StateMachines": {"M": {"TestCases": {"good": {"A": "one", "B": "one"}, "bad": {"A": "no", "B": "none"}}}, "N": {"TestCases": {"good": {}}}},
         "MockedResponses": {"one": {"0": {"Return": 1}}, "no": {"0": {"Throw": {"Error": "A"}}}, "none": {"0": {"Throw": {"Error": "B"}}}}}
STEPS = ["/ 2024-01-01T00:00:00.000Z", "/1 2024-01-01T00:00:01.000Z", "/ 2024-01-01T00:00:01.000Z"]
SUITE = [
    {"machine": "M", "case": "good", "input": {"n": 1}, "status": "SUCCEEDED"},
    {"machine": "M", "case": "bad", "input": 5, "status": "FAILED", "error": "A"},
    {"machine": "M", "case": "bad", "input": "text", "status": "FAILED", "error": "B", "steps": STEPS},
    {"machine": "M", "case": "good", "inputFile": "deep/input.json", "status": "SUCCEEDED"},
    {"machine": "M", "case": "", "input": None, "status": "FAILED", "error": "States.Runtime"},
    {"machine": "M", "case": "good", "inputFile": "lost.json", "status": "SUCCEEDED"},
    {"machine": "M", "case": "lost", "input": {}, "status": "SUCCEEDED"},
]


class OneTestTest(unittest.TestCase):
    maxDiff = None

    def setUp(self):
        room = tempfile.TemporaryDirectory(prefix="asl-test-")
        self.addCleanup(room.cleanup)
        self.room = room.name
        os.makedirs(f"{self.room}/suites/deep")
        for name, value in [("definition.json", DEFINITION), ("mocks.json", MOCKS), ("suites/suite.json", SUITE), ("suites/deep/input.json", [1, {"a": "b"}])]:
            self.write(name, json.dumps(value))

    def write(self, name, text):
        with open(f"{self.room}/{name}", "w", encoding="utf-8") as file:
            file.write(text)

    def asl(self, *words, typed=""):
        return subprocess.run([PROGRAM, *words], cwd=self.room, input=typed, capture_output=True, encoding="utf-8")

    def by_test(self, command, number, *words, **named):
        return self.asl(command, "definition.json", "mocks.json", "--test", f"suites/suite.json#{number}", *words, **named)

    def by_words(self, command, chosen, given, *words, **named):
        """The same by its case and its input."""
        self.write("given.json", json.dumps(given))
        return self.asl(command, "definition.json", "mocks.json", chosen, "given.json", *words, **named)

    def alike(self, one, other):
        self.assertEqual((one.stdout, one.stderr, one.returncode), (other.stdout, other.stderr, other.returncode))

    def test_a_test_stands_for_its_case_and_its_input(self):
        for number, chosen, given in [(1, "M#good", {"n": 1}), (2, "M#bad", 5), (4, "M#good", [1, {"a": "b"}]), (5, "M", None)]:
            with self.subTest(number):
                for words in [(), ("--format", "tree"), ("--format", "json"), ("--max-steps", "1")]:
                    self.alike(self.by_test("run", number, *words), self.by_words("run", chosen, given, *words))
                self.alike(self.by_test("explore", number), self.by_words("explore", chosen, given))
                self.alike(self.by_test("debug", number, typed="next\ndata\nquit\n"), self.by_words("debug", chosen, given, typed="next\ndata\nquit\n"))

    def test_run_takes_the_steps_of_a_test(self):
        self.write("steps.txt", "".join(f"{it}\n" for it in STEPS))
        self.alike(self.by_test("run", 3), self.by_words("run", "M#bad", "text", "--steps", "steps.txt"))
        self.assertIn('"B"', self.by_test("run", 3, "--format", "json").stdout)
        # Other steps stand in place of them.
        self.write("other.txt", f"{STEPS[0]}\n")
        self.alike(self.by_test("run", 3, "--steps", "other.txt"), self.by_words("run", "M#bad", "text", "--steps", "other.txt"))
        # A debugger and a search begin at the start.
        self.alike(self.by_test("debug", 3, typed="next\n"), self.by_words("debug", "M#bad", "text", typed="next\n"))
        self.alike(self.by_test("explore", 3), self.by_words("explore", "M#bad", "text"))

    def test_a_script_debugs_a_test(self):
        self.write("script.txt", "next\nnext\n")
        self.alike(self.by_test("debug", 2, "--script", "script.txt"), self.by_words("debug", "M#bad", 5, "script.txt"))

    def test_what_is_not_there(self):
        for command in ("run", "debug", "explore"):
            with self.subTest(command):
                lost = self.by_test(command, 8)
                self.assertEqual(("", 2), (lost.stdout, lost.returncode))
                self.assertEqual("fault: expectations: X4 NoTest 8\nsuites/suite.json: error: the file has the tests 1 to 7\n", lost.stderr)
                self.assertEqual("fault: expectations: X4 NoTest 8\n", self.by_test(command, 8, "--quiet").stderr)
                self.assertEqual("fault: file suites/lost.json\n", self.by_test(command, 6).stderr)
                case = self.by_test(command, 7)
                self.assertEqual(("fault: case: M8 NoCase", 2), (case.stderr.splitlines()[0], case.returncode))
                self.assertEqual("fault: file no.json\n", self.asl(command, "definition.json", "mocks.json", "--test", "no.json#1").stderr)
                self.assertEqual("fault: file no.json\n", self.asl(command, "no.json", "lost.json", "--test", "lost.json#1").stderr)
        self.write("one.json", json.dumps(SUITE[:1]))
        self.write("none.json", "[]")
        self.write("wrong.json", '[{"machine": 1}]')
        for name, told in [("one.json", "one.json: error: the file has one test: 1"), ("none.json", "none.json: error: the file has no test")]:
            self.assertEqual(told, self.asl("run", "definition.json", "mocks.json", "--test", f"{name}#2").stderr.splitlines()[1])
        self.assertEqual("fault: expectations: X2 Shape /0", self.asl("run", "definition.json", "mocks.json", "--test", "wrong.json#1").stderr.splitlines()[0])

    def test_wrong_words(self):
        files = ("definition.json", "mocks.json")
        for words, told in [
            ((*files, "--test", "suites/suite.json"), "a test is SUITE#N: the file of tests, and the number of one, from 1"),
            ((*files, "--test", "suites/suite.json#0"), "a test is SUITE#N: the file of tests, and the number of one, from 1"),
            ((*files, "--test", "suites/suite.json#+1"), "a test is SUITE#N: the file of tests, and the number of one, from 1"),
            ((*files, "M#good", "--test", "suites/suite.json#1"), "the argument '[CHOSEN]' cannot be used with '--test <SUITE#N>'"),
            ((*files, "--input", "{}", "--test", "suites/suite.json#1"), "the argument '--input <FILE>' cannot be used with '--test <SUITE#N>'"),
            ((*files, "--project", "asl.toml", "--test", "suites/suite.json#1"), "the argument '--project <FILE>' cannot be used with '--test <SUITE#N>'"),
            (("definition.json", "--test", "suites/suite.json#1"), "the following required arguments were not provided:"),
        ]:
            for command in ("run", "debug", "explore"):
                with self.subTest((command, words)):
                    wrong = self.asl(command, *words)
                    self.assertEqual(("", 2), (wrong.stdout, wrong.returncode))
                    self.assertIn(told, wrong.stderr)


if __name__ == "__main__":
    unittest.main()
