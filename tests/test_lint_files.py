"""The command lint on files of every kind: how they are told apart, what is found in each beside the others, and in which order."""
import json
import os
import subprocess
import tempfile

from program import PROGRAM, ProgramTest

TASK = '{"StartAt":"T","States":{"T":{"Type":"Task","Resource":"x","End":true}}}'
MOCKS = '{"StateMachines":{"order":{"TestCases":{"shipped":{"T":"r"}}}},"MockedResponses":{"r":{"0":{"Return":1}}}}'
TEST = '{"machine":"order","case":"shipped","input":{},"status":"SUCCEEDED"}'
STEPS = "/ 2026-01-01T00:00:00.000Z\n"
SCRIPT = 'break "T"\nstep / 2026-01-01T00:00:00.000Z\n'
GOOD = {"d": TASK, "m": MOCKS, "e": f"[{TEST}]", "s.txt": STEPS, "p.txt": SCRIPT, "i": '{"id":17}'}
ALL = ("d", "m", "./e", "s.txt", "p.txt", "--input", "i")
UNCLEAR = ("error kind: it isn't clear what this is: a definition has StartAt and States, a mock file StateMachines and MockedResponses, and an expectation file "
    "is a list of tests with machine and case; --input, --steps or --script names another file")


class LintFilesTest(ProgramTest):
    def setUp(self):
        room = tempfile.TemporaryDirectory(prefix="asl-test-")
        self.addCleanup(room.cleanup)
        self.room = room.name

    def lint(self, *words, **texts):
        """What lint does in a folder of the good files and of these."""
        for name, text in {**GOOD, **texts}.items():
            with open(os.path.join(self.room, name), "wb") as file:
                file.write(text if isinstance(text, bytes) else text.encode())
        return subprocess.run([PROGRAM, "lint", *words], cwd=self.room, stdin=subprocess.DEVNULL, capture_output=True, encoding="utf-8", timeout=60, check=False)

    def assert_found(self, words, lines, total, **texts):
        ran = self.lint(*words, **texts)
        self.assertEqual((ran.stdout.splitlines(), ran.stderr), ([*lines, total], ""))
        self.assertEqual(ran.returncode, 1 if ": error " in ran.stdout else 0)

    def test_nothing_is_wrong(self):
        self.assert_found(ALL, [], "no findings")
        self.assert_found((*ALL, "--strict"), [], "no findings")
        for order in (("m", "d"), ("./e", "m", "d"), ("s.txt",), ("p.txt", "s.txt"), ("e",), ("--mocks", "m"), ("--expect", "e", "--steps", "s.txt", "--script", "p.txt")):
            with self.subTest(order=order):
                self.assert_found(order, [], "no findings")

    def test_one_fault_of_each_kind(self):
        self.assert_found(
            ALL,
            [
                'd:1:30: error F9: a Task state needs one of Next and "End": true, and "T" has none',
                'd:1:66: error F6: End is the text "x"; it has to be true or false',
                'm:1:56: error M5: no response has the name "x"',
                'm:1:83: warning unused-response: no case names the response "r"',
                "./e:1:58: error X2: this is SUCCEEDED, FAILED or TIMED_OUT",
                "s.txt:2:1: error E1: an empty line is no step; a step is written as in: /0 2026-01-01T00:00:00.000Z",
                "p.txt:2:1: error E2: this is no command; there are: step PLACE MOMENT, break \"NAME\", clear \"NAME\", resume PLACE, show PLACE, back N",
                "i:1:2: error J1: texts and keys stand in double quotes",
            ],
            "7 errors, 1 warning",
            d=TASK.replace("true", '"x"'),
            m=MOCKS.replace('"T":"r"', '"T":"x"'),
            e=f"[{TEST.replace('SUCCEEDED', 'x')}]",
            **{"s.txt": STEPS + "\n" + STEPS, "p.txt": SCRIPT.replace("step ", "stop "), "i": "{'id':17}"},
        )

    def test_texts_that_are_no_json(self):
        for text, place, words in [
            (b"", "1:1", "the text is empty: a JSON text has a value"),
            (b"\xef\xbb\xbf{}", "1:1", "a text of JSON has no byte order mark before it"),
            ("{}".encode("utf-16"), "1:1", "the text is UTF-16, and JSON is UTF-8"),
            ("StartAt: A\n", "1:1", "no JSON: this looks like YAML, which is to be converted to JSON first"),
        ]:
            with self.subTest(text=text):
                # The first is a definition, the second a mock file, and of the third it isn't clear.
                ran = self.lint("x", "x.json", "./x", x=text, **{"x.json": text})
                self.assertEqual(ran.stdout.splitlines(), [f"x:{place}: error F1: {words}", f"x.json:{place}: error M1: {words}", f"./x:{place}: error kind: {words}", "3 errors, 0 warnings"])
                found = [line.split(": ")[1] for option in ("--expect", "--input") for line in self.lint(option, "x", x=text).stdout.splitlines()[:1]]
                self.assertEqual(found[0], "error X1")
                self.assertIn(found[1], ("error J1", "error J6"))

    def test_each_fault_of_an_input(self):
        for text, rule in [('{"a":1,"a":2}', "J2"), ("[" * 65 + "]" * 65, "J3"), ("1e99", "J4"), (" " * 1048577, "J5"), (b'"\xff"', "J6")]:
            with self.subTest(rule=rule):
                self.assertIn(f"error {rule}: ", self.lint("--input", "i", i=text).stdout)

    def test_files_of_which_it_is_not_clear_what_they_are(self):
        self.assert_found(("d", "m", "i", "x.json"), [f"i:1:1: {UNCLEAR}", f"x.json:1:1: {UNCLEAR}"], "2 errors, 0 warnings", **{"x.json": "[]"})
        described = "this is what describe-state-machine prints, which has the definition as the text of its member \"definition\", which lint doesn't judge"
        self.assert_found(("x",), [f"x:1:1: error kind: {described}"], "1 error, 0 warnings", x='{"stateMachineArn":"arn","definition":"{}"}')
        self.assert_found(("x",), ["x:1:1: error kind: this is what get-execution-history prints, which lint doesn't judge"], "1 error, 0 warnings", x='{"events":[]}')
        self.assert_found(("--input", "x"), [], "no findings", x='{"events":[]}')

    def test_cases_that_are_not_there(self):
        lost = f"[{TEST},\n {TEST.replace('shipped', 'shippd')}]"
        told = 'e:2:2: error nocase: no test case is named "order#shippd"; did you mean "order#shipped"?; there are "order#shipped"'
        self.assert_found(("d", "m", "--expect", "e"), [told], "1 error, 0 warnings", e=lost)
        # Without a mock file, or beside two, nothing is said of cases.
        self.assert_found(("d", "--expect", "e"), [], "no findings", e=lost)
        self.assert_found(("d", "m", "./n", "--expect", "e"), [], "no findings", e=lost, n=MOCKS)

    def test_several_definitions_and_mock_files(self):
        other = MOCKS.replace('"T"', '"U"')
        # Beside one definition each mock file is judged, beside two none.
        told = 'error unknown-state: case "shipped" has an answer for "U", and no Task has that name'
        self.assert_found(("d", "./n", "./m"), [f"./n:1:52: {told}"], "1 error, 0 warnings", n=other)
        self.assert_found(("d", "m", "n.json", "./d"), [], "no findings", **{"n.json": other})

    def test_machines(self):
        two = MOCKS.replace('"order":', '"other":{"TestCases":{}},"order":')
        self.assertIn(" error M7: ", self.lint("d", "m", m=two).stdout)
        for words in (("d", "m", "order"), ("d", "m", "--machine", "order"), ("d", "--mocks", "m", "--machine", "order"), ("d", "m", "./e", "--machine", "order")):
            with self.subTest(words=words):
                self.assert_found(words, [], "no findings", m=two)
        self.assertIn(" error M7: ", self.lint("d", "m", "lost", m=two).stdout)

    def test_formats(self):
        texts = {"d": TASK.replace("true", '"x"'), "i": "{'id':17}"}
        lines = [json.loads(line) for line in self.lint(*ALL, "--format", "json", **texts).stdout.splitlines()]
        self.assertEqual([(it["file"], it["name"]) for it in lines], [("d", "F9"), ("d", "F6"), ("i", "J1")])
        log = json.loads(self.lint(*ALL, "--format", "sarif", **texts).stdout)["runs"][0]
        self.assertEqual([it["ruleId"] for it in log["results"]], ["F9", "F6", "J1"])
        rules = [it["id"] for it in log["tool"]["driver"]["rules"]]
        self.assertEqual(rules[-12:], ["kind", "J1", "J2", "J3", "J4", "J5", "J6", "X1", "X2", "nocase", "E1", "E2"])
        # Of definitions and mock files alone the log has the rules of these.
        log = json.loads(self.lint("d", "m", "--format", "sarif", **texts).stdout)["runs"][0]
        self.assertEqual([it["id"] for it in log["tool"]["driver"]["rules"]], rules[:-12])
        for rule in rules:
            self.assertEqual(subprocess.run([PROGRAM, "explain", rule], capture_output=True, timeout=60, check=False).returncode, 0, rule)

    def test_words_that_are_wrong(self):
        for words in (("--machine", "order"), ("d", "--project", "asl.toml"), ("--mocks", "m", "--project", "asl.toml")):
            with self.subTest(words=words):
                ran = self.lint(*words)
                self.assertEqual((ran.returncode, ran.stdout), (2, ""))
        self.assertEqual(self.lint("d", "m", "./lost").stderr, "fault: file ./lost\n")
        self.assertEqual(self.lint("d", ".").stderr, "fault: file .: it is a folder\n")
