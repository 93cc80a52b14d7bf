"""The lines behind that of a fault: where it stands, in the words of lint, and which names there are."""
import os
import subprocess
import tempfile
import unittest

from program import PROGRAM, TOP, ProgramTest

PASS = '{"StartAt":"A","States":{"A":{"Type":"Pass","End":true}}}'
TASK = '{"StartAt":"T","States":{"T":{"Type":"Task","Resource":"x","End":true}}}'
MOCKS = """{"StateMachines":{"order":{"TestCases":{"shipped":{"T":"r"},"lost":{}}}},
 "MockedResponses":{"r":{"0":{"Return":1}}}}"""
STEP = "/ 2026-01-01T00:00:00.000Z\n"


class MendingTest(ProgramTest):
    def setUp(self):
        room = tempfile.TemporaryDirectory(prefix="asl-test-")
        self.addCleanup(room.cleanup)
        self.room = room.name

    def ran(self, *words, **texts):
        for name, text in texts.items():
            with open(os.path.join(self.room, name), "wb") as file:
                file.write(text if isinstance(text, bytes) else text.encode())
        return subprocess.run([PROGRAM, *words], cwd=self.room, stdin=subprocess.DEVNULL, capture_output=True, encoding="utf-8", timeout=60)

    def assert_mended(self, words, fault, lines, **texts):
        ran = self.ran(*words, **texts)
        self.assertEqual((ran.returncode, ran.stdout, ran.stderr), (2, "", "".join(f"{line}\n" for line in [f"fault: {fault}", *lines])))

    def test_each_command_tells_the_errors_of_a_definition_as_lint_does(self):
        bad = '{"StartAt":"A",\n "States":{"A":{"Type":"Pass","Next":"B"},\n  "C":{"Type":"Wait"}}}'
        linted = self.ran("lint", "d", d=bad).stdout.splitlines()
        errors = [line for line in linted if ": error " in line]
        self.assertEqual(len(errors), 3)
        run = ["d", "m", "order#shipped", "i"]
        for words in (["check", "d"], ["print", "d"], ["upgrade", "d"], ["graph", "d"], ["mocks", "d"], ["run", *run], ["debug", *run],
                      ["explore", *run], ["graph", "d", "--run", *run[1:]], ["test", "d", "m", "e"]):
            with self.subTest(words=words):
                self.assert_mended(words, "definition: F9 Neither /States/C", errors, m=MOCKS, i="{}", e="[]")

    def test_a_file_in_the_place_of_another(self):
        suite = '[{"machine":"order","case":"shipped","input":{},"status":"SUCCEEDED"}]'
        described = '{"stateMachineArn":"arn","definition":"{}"}'
        for words, texts, file, told in [
            (["check", "m"], {}, "m", "this is a mock file, and a definition is wanted"),
            (["run", "m", "d", "order#shipped", "i"], {}, "m", "this is a mock file, and a definition is wanted"),
            (["check", "e"], {}, "e", "this is an expectation file, and a definition is wanted"),
            (["run", "d", "e", "order#shipped", "i"], {}, "e", "this is an expectation file, and a mock file is wanted"),
            (["run", "d", "d", "order#shipped", "i"], {}, "d", "this is a definition, and a mock file is wanted"),
            (["test", "d", "m", "m"], {}, "m", "this is a mock file, and an expectation file is wanted"),
            (["test", "d", "m", "d"], {}, "d", "this is a definition, and an expectation file is wanted"),
            (["check", "x"], {"x": described}, "x",
                'this is what describe-state-machine prints, which has the definition as the text of its member "definition", and a definition is wanted'),
            (["check", "x"], {"x": '{"events":[]}'}, "x", "this is what get-execution-history prints, and a definition is wanted"),
            (["check", "x"], {"x": '{"Resources":{}}'}, "x",
                "this is a template of CloudFormation, of which a resource has the definition, and a definition is wanted"),
        ]:
            with self.subTest(words=words, texts=texts):
                ran = self.ran(*words, d=PASS, m=MOCKS, e=suite, i="{}", **texts)
                self.assertEqual((ran.returncode, ran.stdout), (2, ""))
                self.assertEqual(ran.stderr.splitlines()[1], f"{file}: error: {told}")
        # A file that is what is wanted, or of which nothing shows, isn't told of.
        for text in ('{"StartAt":1}', "{}", "[]", "[1]", "1"):
            self.assertNotIn(" is wanted", self.ran("check", "x", x=text).stderr, text)

    def test_a_definition_that_is_no_json(self):
        self.assert_mended(["check", "d"], "definition: F1 Json J1 Syntax 14",
                           ["d:2:1: error F1: the text ends too early: a quote, a bracket or a brace isn't closed"], d='{"StartAt": 1\n')

    def test_what_people_write_in_place_of_json(self):
        for text, place, told in [
            (" \n", "2:1", "the text is empty: a JSON text has a value"),
            ("StartAt: A\nStates:\n  A: {}\n", "1:1", "no JSON: this looks like YAML, which is to be converted to JSON first"),
            ("---\n- a\n", "1:2", "no JSON: this looks like YAML, which is to be converted to JSON first"),
            ("<xml/>", "1:1", "no JSON: this looks like XML"),
            ("states", "1:1", "no JSON: a value begins with a brace, a bracket, a quote, a digit, true, false or null"),
            ('{"a":True}', "1:6", "true, false and null are written so, in small letters"),
            ('{"a":NaN}', "1:6", "JSON has no such number"),
            ('{"a":${Timeout}}', "1:6", "a placeholder that is filled in later stands in double quotes, or is filled in first"),
            ("{\u201ca\u201d:1}", "1:2", "texts and keys stand in straight double quotes, and not in typographic ones"),
            ("{'a':1}", "1:2", "texts and keys stand in double quotes"),
            ('{"a":1}}', "1:8", "one value is a whole JSON text, and more stands behind it"),
            ('{"a":"\\"}"} {}', "1:13", "one value is a whole JSON text, and more stands behind it"),
            ('{"a":1 "b":2}', "1:8", "a comma or a colon is missing before it"),
            ("\ufeff{}", "1:1", "a text of JSON has no byte order mark before it"),
            ("{}".encode("utf-16"), "1:1", "the text is UTF-16, and JSON is UTF-8"),
            ("{}".encode("utf-16-le"), "1:2", "a byte 0: the text seems to be UTF-16, and JSON is UTF-8"),
        ]:
            with self.subTest(text=text):
                ran = self.ran("check", "d", d=text)
                self.assertEqual((ran.returncode, ran.stdout, ran.stderr.splitlines()[1:]), (2, "", [f"d:{place}: error F1: {told}"]))

    def test_the_errors_of_a_mock_file(self):
        bad = MOCKS.replace('"T":"r"', '"T":"q"')
        errors = [line for line in self.ran("lint", "d", "m", d=TASK, m=bad).stdout.splitlines() if ": error " in line]
        self.assertEqual(len(errors), 1)
        fault = "mocks: M5 NoResponse /StateMachines/order/TestCases/shipped/T"
        self.assert_mended(["run", "d", "m", "order#shipped", "i"], fault, errors, i="{}")
        self.assert_mended(["test", "d", "m", "e"], fault, errors, e="[]")

    def test_an_input_and_an_expectation_file_that_are_no_json(self):
        self.assert_mended(["run", "d", "m", "order", "i"], "input: J1 Syntax 5", ["i:1:6: error F1: the text ends too early: a quote, a bracket or a brace isn't closed"], d=PASS, m=MOCKS, i='{"a":')
        self.assert_mended(["test", "d", "m", "e"], "expectations: X1 Json J1 Syntax 1", ["e:1:2: error F1: the text ends too early: a quote, a bracket or a brace isn't closed"], e="[")

    def test_an_expectation_file_that_does_not_fit(self):
        good = '{"machine":"order","case":"lost","input":{},"status":"FAILED"'
        for text, place, at, told in [
            ("{}", "", "1:1", "an expectation file is a list of tests"),
            (f"[{good}}},\n {good},\"Status\":1}}]", "/1", "2:2", "a test is an object with machine, case, status, and input or inputFile"),
            (f'[{good.replace("FAILED", "ABORTED")}}}]', "/0/status", "1:55", "this is SUCCEEDED, FAILED or TIMED_OUT"),
            (f'[{good},"visits":{{"a/b":-1}}}}]', "/0/visits/a~1b", "1:80", "this is a whole number from 0"),
        ]:
            with self.subTest(text=text):
                ran = self.ran("test", "d", "m", "e", d=PASS, m=MOCKS, e=text)
                fault, line = ran.stderr.splitlines()
                self.assertEqual((ran.returncode, fault), (2, f"fault: expectations: X2 Shape{place and ' ' + place}"))
                self.assertTrue(line.startswith(f"e:{at}: error: {told}"), line)

    def test_the_names_of_the_cases_that_there_are(self):
        for chosen, fault, near in [("order#shiped", "M8 NoCase", '; did you mean "order#shipped"?'), ("orders#lost", "M7 NoMachine", '; did you mean "order#lost"?'),
                                    ("order#quite-another", "M8 NoCase", "")]:
            self.assert_mended(["run", "d", "m", chosen, "i"], f"case: {fault}",
                               [f'm: error: no test case is named "{chosen}"{near}; there are "order#shipped", "order#lost"'], d=TASK, m=MOCKS, i="{}")
        self.assert_mended(["explore", "d", "m", "order#x", "i"], "case: M8 NoCase", ['m: error: no test case is named "order#x"; the file has none'],
                           m='{"StateMachines":{"order":{"TestCases":{}}}}')
        many = ",".join(f'"c{number}":{{}}' for number in range(30))
        ran = self.ran("run", "d", "m", "order#none", "i", m='{"StateMachines":{"order":{"TestCases":{%s}}}}' % many)
        self.assertTrue(ran.stderr.endswith('"order#c19", ..\n'), ran.stderr)

    def test_a_line_that_is_no_step_and_one_that_is_no_command(self):
        shape = "; a step is written as in: /0 2026-01-01T00:00:00.000Z"
        for line, told in [("", "an empty line is no step"), ("/ 2026-01-01T00:00:00.000Z\r", "the line ends in a carriage return: lines end in a line feed alone"),
                           ("0 2026-01-01T00:00:00.000Z", "a step begins with the place of a branch, as / or /0/1"),
                           ("/0", "a step has a moment behind its place, and a space between"), ("/0 tomorrow", "this is no place with a timestamp in UTC behind it")]:
            with self.subTest(line=line):
                self.assert_mended(["run", "d", "m", "order", "i", "--steps", "s"], "steps: E1 StepLine 2", [f"s:2:1: error: {told}{shape}"],
                                   d=PASS, m=MOCKS, i="{}", s=f"{STEP}{line}\n{STEP}")
        commands = 'there are: step PLACE MOMENT, break "NAME", clear "NAME", resume PLACE, show PLACE, back N'
        self.assert_mended(["debug", "d", "m", "order", "i", "s"], "script: E2 ScriptLine 1", [f"s:1:1: error: this is no command; {commands}"], s="break Refund\n")

    def test_quiet_leaves_the_line_of_a_fault_alone(self):
        run = ["d", "m", "order#none", "i"]
        for words in (["check", "x"], ["print", "x"], ["upgrade", "x"], ["graph", "x"], ["mocks", "x"], ["run", *run], ["debug", *run], ["debug", *run[:2], "order", "i", "x"],
                      ["explore", *run], ["graph", "d", "--run", *run[1:]], ["test", "d", "m", "x"], ["explain", "F99"]):
            with self.subTest(words=words):
                told, hushed = (self.ran(*words, *more, x="[", d=TASK, m=MOCKS, i="{}") for more in ([], ["--quiet"]))
                self.assertEqual((hushed.returncode, hushed.stdout, hushed.stderr), (2, "", told.stderr.splitlines(keepends=True)[0]))
                self.assertTrue(hushed.stderr.startswith("fault: "))
                self.assertGreater(len(told.stderr), len(hushed.stderr))
        # A wrong command line, and a file that isn't there, are told as ever.
        for words in (["explore", *run[:2], "order", "i", "--witness", "9"], ["lint", "none"]):
            told, hushed = (self.ran(*words, *more, d=PASS, m=MOCKS, i="{}") for more in ([], ["--quiet"]))
            self.assertEqual((hushed.returncode, hushed.stderr), (2, told.stderr))
            self.assertNotEqual(told.stderr, "")

    def test_names_of_files_do_not_obey_a_terminal(self):
        ran = self.ran("check", "d\u202e", **{"d\u202e": "["})
        self.assertEqual(ran.stderr, "fault: definition: F1 Json J1 Syntax 1\nd\\u202e:1:2: error F1: the text ends too early: a quote, a bracket or a brace isn't closed\n")

    def test_the_readme_shows_what_is_told(self):
        told = subprocess.run([PROGRAM, "check", "examples/refused.json"], cwd=TOP, capture_output=True, encoding="utf-8", timeout=60).stderr
        with open(f"{TOP}/README.md", encoding="utf-8") as file:
            self.assertIn("".join(f"    {line}\n" for line in told.splitlines()), file.read())


if __name__ == "__main__":
    unittest.main()
