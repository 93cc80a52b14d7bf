"""Suites: what the command test reports, on any number of workers, in each format, and of each part of a suite."""
import json
import os
import re
import subprocess
import tempfile
from xml.etree import ElementTree

from program import PROGRAM, ProgramTest, run_program, without_mending

ONE_TASK = '{"StartAt":"T","States":{"T":{"Type":"Task","Resource":"r","End":true}}}'

# Its output is its input.
PASS_ON = '{"StartAt":"P","States":{"P":{"Type":"Pass","End":true}}}'

# The machine M: case A returns 1, B throws, C has no answers.
MOCKS = """{"StateMachines":{"M":{"TestCases":{"A":{"T":"one"},"B":{"T":"bad"},"C":{}}}},
"MockedResponses":{"one":{"0":{"Return":1}},"bad":{"0":{"Throw":{"Error":"E","Cause":"why"}}}}}"""

# A Task that throws at first, and what becomes of that; what is told of a test by which it is to succeed.
FAILING = [
    # Retried, and then there is no answer.
    ('"Retry":[{"ErrorEquals":["E"]}],"End":true', '{"Type":"Succeed"}', '{"Error":"States.Runtime","Cause":"no mocked answer"}; no answer 1 of the Task "T"'),
    # Caught, and then another Task has no answer.
    ('"Catch":[{"ErrorEquals":["E"],"Next":"F"}],"End":true', '{"Type":"Task","Resource":"r","End":true}',
        '{"Error":"States.Runtime","Cause":"no mocked answer"}; no answer 0 of the Task "F"'),
    # Caught, and then it fails for another reason.
    ('"Catch":[{"ErrorEquals":["E"],"Next":"F"}],"End":true', '{"Type":"Fail","Error":"X"}', '{"Error":"X"}'),
    ('"Catch":[{"ErrorEquals":["E"],"Next":"F"}],"End":true', '{"Type":"Fail","Error":"States.Runtime","Cause":"no mocked answer"}',
        '{"Error":"States.Runtime","Cause":"no mocked answer"}'),
    # Neither.
    ('"End":true', '{"Type":"Succeed"}', '{"Error":"E","Cause":"why"}'),
]

# A test of case A, which succeeds with 1, or of B, which fails with E and why; what is reported of it, and what is told behind.
ENDS = [
    ("A", "SUCCEEDED", {"name": "it \"pays\""}, 'ok M#A SUCCEEDED 7 "it \\"pays\\""', None),
    ("A", "SUCCEEDED", {"match": 1.0, "invocations": {"T": 1, "U": 0}, "calls": {"T": [{}], "U": []}}, "ok M#A SUCCEEDED 7", None),
    ("A", "SUCCEEDED", {"output": 2, "match": 2}, "output M#A SUCCEEDED 7", "output: wanted 2, came 1"),
    ("A", "SUCCEEDED", {"match": {"k": 1}, "error": None}, "match M#A SUCCEEDED 7", 'match: wanted {"k":1}, came 1'),
    ("B", "FAILED", {"match": None}, "match M#B FAILED 6", "match: wanted null, came nothing"),
    ("B", "FAILED", {"error": "E", "cause": "why"}, "ok M#B FAILED 6", None),
    # A success has no error output.
    ("A", "SUCCEEDED", {"error": None, "cause": None}, "error M#A SUCCEEDED 7", "error: wanted nothing, came no error"),
    ("A", "SUCCEEDED", {"cause": None}, "cause M#A SUCCEEDED 7", "cause: wanted nothing, came no error"),
    ("B", "FAILED", {"error": "F", "cause": "F"}, "error M#B FAILED 6", 'error: wanted "F", came {"Error":"E","Cause":"why"}'),
    ("B", "FAILED", {"error": None}, "error M#B FAILED 6", 'error: wanted nothing, came {"Error":"E","Cause":"why"}'),
    ("B", "FAILED", {"error": "E", "cause": "", "visits": {"T": 2}}, "cause M#B FAILED 6", 'cause: wanted "", came {"Error":"E","Cause":"why"}'),
    ("A", "SUCCEEDED", {"visits": {"T": 2}, "invocations": {"T": 2}}, "visits M#A SUCCEEDED 7", 'visits: "T" wanted 2, came 1'),
    ("A", "SUCCEEDED", {"invocations": {"T": 2}, "calls": {"T": []}}, "invocations M#A SUCCEEDED 7", 'invocations: "T" wanted 2, came 1'),
    ("A", "SUCCEEDED", {"calls": {"T": []}}, "calls M#A SUCCEEDED 7", 'calls: "T" at /0 wanted nothing, came {}'),
    ("A", "SUCCEEDED", {"calls": {"T": [{}, 1]}, "name": "n"}, 'calls M#A SUCCEEDED 7 "n"', 'calls: "T" at /1 wanted 1, came nothing'),
    ("A", "SUCCEEDED", {"calls": {"T": [{"k": 1}]}}, "calls M#A SUCCEEDED 7", 'calls: "T" at /0/k wanted 1, came nothing'),
]

# Tests of one Task that are `ok`: three whose run lacked an answer, and two that fail as they are to.
DOUBTS_OF_TASK = [("C", "FAILED", {}), ("", "FAILED", {"error": "States.Runtime"}), ("C", "FAILED", {"name": "named"}), ("B", "FAILED", {}), ("A", "SUCCEEDED", {})]

# Definitions that fail by accident, and the error.
ACCIDENTS = [
    ('{"StartAt":"P","States":{"P":{"Type":"Pass","InputPath":"$.no","End":true}}}', "States.Runtime"),
    ('{"StartAt":"P","States":{"P":{"Type":"Pass","Parameters":{"a.$":"$.no"},"End":true}}}', "States.ParameterPathFailure"),
    ('{"StartAt":"P","States":{"P":{"Type":"Pass","Parameters":{"a.$":"States.ArrayLength(1)"},"End":true}}}', "States.IntrinsicFailure"),
    ('{"StartAt":"P","States":{"P":{"Type":"Pass","Result":1,"ResultPath":"$[0]","End":true}}}', "States.ResultPathMatchFailure"),
]

# Values that a value holds, and values that it doesn't.
HELD = [({}, {"a": 1}), ({"a": {}}, {"b": 2, "a": {"c": []}}), ([{"a": 1}, 2.0], [{"a": 1.0, "b": 3}, 2]), ("x", "x"), (None, None), ({"a": []}, {"a": []})]
NOT_HELD = [
    ({"a": 1}, {}, "at /a wanted 1, came nothing"),
    ({"a": {"b": 1}}, {"a": {"b": 2, "c": 3}}, "at /a/b wanted 1, came 2"),
    ([1], [1, 2], "at /1 wanted nothing, came 2"),
    ([1, 2], [1], "at /1 wanted 2, came nothing"),
    ([], {}, "wanted [], came {}"),
    ({}, [], "wanted {}, came []"),
    ({"b": 2, "a": 1}, {"a": 2, "b": 2}, "at /a wanted 1, came 2"),
]

NOON = "2024-01-01T12:00:00.000Z"

# Tests with steps of their own of two branches, each a Task; what is reported of it, and what is told behind.
STEPPED = [
    (["/", "/1", "/0", "/"], {}, "ok M#D SUCCEEDED 16", None),
    # A step that is refused changes nothing.
    (["/0", "/", "/0", "/0", "/1", "/"], {}, "ok M#D SUCCEEDED 16", None),
    (["/", "/1", "/0", "/"], {"calls": {"T": [{}], "U": [{}]}, "visits": {"T": 1}}, "ok M#D SUCCEEDED 16", None),
    (["/", "/0", "/"], {}, "limit M#D UNFINISHED 8", "limit: the execution isn't over after the steps of the test"),
    ([], {}, "limit M#D UNFINISHED 1", "limit: the execution isn't over after the steps of the test"),
]

JUST_PASS = '{"StartAt":"P","States":{"P":{"Type":"Pass","End":true}}}'
PASS_LOOP = '{"StartAt":"P","States":{"P":{"Type":"Pass","Next":"P"}}}'

# Each verdict but `limit` and `visits`.
FIVE = [("A", "SUCCEEDED", {"output": 1}), ("B", "FAILED", {}), ("C", "FAILED", {}), ("A", "SUCCEEDED", {"output": 2}), ("X", "SUCCEEDED", {})]

FIVE_REPORTS = """ok M#A SUCCEEDED 7
ok M#B FAILED 6
ok M#C FAILED 6
output M#A SUCCEEDED 7
nocase M#X NONE 0
3 passed, 2 failed
"""


def tests(*rows):
    """An expectation file of these tests: case, status and further members."""
    return json.dumps([{"machine": "M", "case": case, "input": {}, "status": status, **more} for case, status, more in rows])


# Expectation files, and the faults for which they are refused.
REFUSED = [
    ("[", "X1 Json J1 Syntax 1"),
    ("{}", "X2 Shape"),
    ('[{"machine":"M","case":"A","input":{}}]', "X2 Shape /0"),
    ('[{"machine":"M","case":"A","input":{},"status":"SUCCEEDED","extra":1}]', "X2 Shape /0"),
    ('[{"machine":"M","case":"A","input":{},"status":"ABORTED"}]', "X2 Shape /0/status"),
    ('[{"machine":1,"case":"A","input":{},"status":"FAILED"}]', "X2 Shape /0/machine"),
    ('[{"machine":"M","case":null,"input":{},"status":"FAILED"}]', "X2 Shape /0/case"),
    ('[{"machine":"M","case":"A","input":{},"status":"FAILED","visits":[]}]', "X2 Shape /0/visits"),
    ('[{"machine":"M","case":"A","input":{},"status":"FAILED","visits":{"T":1,"a/b":-1}}]', "X2 Shape /0/visits/a~1b"),
    ('[{"machine":"M","case":"A","input":{},"status":"FAILED","visits":{"T":1.5}}]', "X2 Shape /0/visits/T"),
    ('[{"machine":"M","case":"A","input":{},"status":"FAILED"},3]', "X2 Shape /1"),
    ('[{"machine":"M","case":"A","input":{},"status":"FAILED","name":null}]', "X2 Shape /0/name"),
    ('[{"machine":"M","case":"A","input":{},"status":"FAILED","match":0,"error":1}]', "X2 Shape /0/error"),
    ('[{"machine":"M","case":"A","input":{},"status":"FAILED","error":null,"cause":[]}]', "X2 Shape /0/cause"),
    ('[{"machine":"M","case":"A","input":{},"status":"FAILED","invocations":1}]', "X2 Shape /0/invocations"),
    ('[{"machine":"M","case":"A","input":{},"status":"FAILED","invocations":{"T":[]}}]', "X2 Shape /0/invocations/T"),
    ('[{"machine":"M","case":"A","input":{},"status":"FAILED","calls":[]}]', "X2 Shape /0/calls"),
    ('[{"machine":"M","case":"A","input":{},"status":"FAILED","calls":{"T":[],"U":{}}}]', "X2 Shape /0/calls/U"),
    ('[{"machine":"M","case":"A","input":{},"status":"FAILED","calls":{"T":1},"visits":{"T":-1}}]', "X2 Shape /0/calls/T"),
    ('[{"machine":"M","case":"A","input":{},"status":"FAILED","steps":"/ 2024-01-01T00:00:00Z"}]', "X2 Shape /0/steps"),
    ('[{"machine":"M","case":"A","input":{},"status":"FAILED","steps":["/ 2024-01-01T00:00:00Z",null],"visits":1}]', "X2 Shape /0/steps/1"),
    ('[{"machine":"M","case":"A","input":{},"status":"FAILED","visits":1,"steps":[0]}]', "X2 Shape /0/visits"),
    ('[{"machine":"M","case":"A","input":{},"status":"FAILED","steps":["/ 2024-01-01T00:00:00Z\\n"]}]', "X2 Shape /0/steps/0"),
    ('[{"machine":"M","case":"A","input":{},"status":"FAILED","steps":["/01 2024-01-01T00:00:00Z"]}]', "X2 Shape /0/steps/0"),
    ('[{"machine":"M","case":"A","input":{},"status":"FAILED","steps":["/1000000000 2024-01-01T00:00:00Z"]}]', "X2 Shape /0/steps/0"),
    ('[{"machine":"M","case":"A","input":{},"status":"FAILED","steps":["/1/ 2024-01-01T00:00:00Z"]}]', "X2 Shape /0/steps/0"),
    ('[{"machine":"M","case":"A","input":{},"status":"FAILED","steps":["/1  2024-01-01T00:00:00Z"]}]', "X2 Shape /0/steps/0"),
    ('[{"machine":"M","case":"A","input":{},"status":"FAILED","steps":["/ now"]}]', "X2 Shape /0/steps/0"),
    ('[{"machine":"M","case":"A","status":"FAILED"}]', "X2 Shape /0"),
    ('[{"machine":"M","case":"A","input":{},"inputFile":"a","status":"FAILED"}]', "X2 Shape /0"),
    ('[{"machine":"M","case":"A","inputFile":["a"],"status":"FAILED"}]', "X2 Shape /0/inputFile"),
]

# Command lines that are wrong, behind the three files.
WRONG = [["--workers", "0"], ["--workers", "65"], ["--workers", "x"], ["--format", "html"], ["--shard", "0/2"], ["--shard", "3/2"],
    ["--shard", "1"], ["--shard", "1/"], ["--shard", "+1/2"], ["more"]]


class SuitesTest(ProgramTest):
    def on_suite(self, expectations, *words, definition=ONE_TASK, mocks=MOCKS):
        """What the command does for the texts of a suite."""
        return self.suite_texts(definition, mocks, expectations, *words)

    def test_five_verdicts_on_any_number_of_workers(self):
        for workers in [[], ["--workers", "1"], ["--workers", "2"], ["--workers", "8"], ["--workers", "64"]]:
            ran = self.on_suite(tests(*FIVE), *workers)
            self.assertEqual((ran.returncode, ran.stdout), (1, FIVE_REPORTS), workers)

    def test_visits_are_counted(self):
        ran = self.on_suite(tests(("A", "SUCCEEDED", {"visits": {"T": 1}}), ("A", "SUCCEEDED", {"visits": {"T": 2}}),
            ("A", "SUCCEEDED", {"visits": {"U": 0, "T": 1}})))
        self.assertEqual((ran.returncode, ran.stdout), (1, "ok M#A SUCCEEDED 7\nvisits M#A SUCCEEDED 7\nok M#A SUCCEEDED 7\n2 passed, 1 failed\n"))

    def test_the_first_verdict_that_applies(self):
        rows = [
            ("A", "FAILED", {"output": 2, "visits": {"T": 9}}, "status M#A SUCCEEDED 7"),
            ("A", "SUCCEEDED", {"output": 2, "visits": {"T": 9}}, "output M#A SUCCEEDED 7"),
            # An execution that failed has no output.
            ("B", "FAILED", {"output": None}, "output M#B FAILED 6"),
            ("A", "SUCCEEDED", {"output": 1.0}, "ok M#A SUCCEEDED 7"),
            ("", "FAILED", {}, "ok M# FAILED 6"),
            ("A", "TIMED_OUT", {}, "status M#A SUCCEEDED 7"),
        ]
        ran = self.on_suite(tests(*[row[:3] for row in rows]))
        self.assertEqual(ran.stdout.splitlines()[:-1], [row[3] for row in rows])

    def test_what_a_test_may_say_of_its_end(self):
        ran = self.on_suite(tests(*[row[:3] for row in ENDS]))
        self.assertEqual(ran.stdout.splitlines()[:-1], [row[3] for row in ENDS])
        told = [f'test {at} "M#{row[0]}"{" " + json.dumps(row[2]["name"]) if "name" in row[2] else ""}: {row[4]}'
            for at, row in enumerate(ENDS, 1) if row[4]]
        # `invocations` and `calls` of the second test name a state that isn't there.
        self.assertEqual(ran.stderr.splitlines(), [*told, *['note: test 2 "M#A": no state is named "U"'] * 2])
        self.assertEqual(ran.returncode, 1)

    def test_an_output_that_holds_a_part(self):
        for part, output in HELD:
            ran = self.on_suite(tests(("", "SUCCEEDED", {"input": output, "match": part})), definition=JUST_PASS)
            self.assertEqual((ran.stdout.splitlines()[0].split()[0], ran.stderr), ("ok", ""), (part, output))
        for part, output, told in NOT_HELD:
            ran = self.on_suite(tests(("", "SUCCEEDED", {"input": output, "match": part})), definition=JUST_PASS)
            self.assertEqual((ran.stdout.splitlines()[0].split()[0], ran.stderr), ("match", f'test 1 "M#": match: {told}\n'), (part, output))

    def test_calls_are_counted_over_retries_and_iterations(self):
        """What a Task is invoked with, in the order of its invocations; a retry invokes it again and enters no state."""
        retried = '{"StartAt":"T","States":{"T":{"Type":"Task","Resource":"r","Parameters":{"n.$":"$.k"},"Retry":[{"ErrorEquals":["E"]}],"End":true}}}'
        mocks = '{"StateMachines":{"M":{"TestCases":{"B":{"T":"R"}}}},"MockedResponses":{"R":{"0":{"Throw":{"Error":"E"}},"1-9":{"Return":1}}}}'
        more = {"input": {"k": 5}, "visits": {"T": 1}, "invocations": {"T": 2}, "calls": {"T": [{"n": 5}, {"n": 5}]}}
        ran = self.on_suite(tests(("B", "SUCCEEDED", more)), definition=retried, mocks=mocks)
        self.assertEqual((ran.returncode, ran.stderr), (0, ""), ran.stdout)
        each = '{"StartAt":"M","States":{"M":{"Type":"Map","Iterator":{"StartAt":"T","States":{"T":{"Type":"Task","Resource":"r","End":true}}},"End":true}}}'
        mocks = mocks.replace('"0":{"Throw":{"Error":"E"}},"1-9"', '"0-9"')
        more = {"input": [7, 8], "visits": {"T": 2}, "invocations": {"T": 2}, "calls": {"T": [7, 8]}}
        ran = self.on_suite(tests(("B", "SUCCEEDED", more)), definition=each, mocks=mocks)
        self.assertEqual((ran.returncode, ran.stderr), (0, ""), ran.stdout)

    def test_a_test_with_steps_takes_these(self):
        branches = ",".join('{"StartAt":"%s","States":{"%s":{"Type":"Task","Resource":"r","End":true}}}' % (name, name) for name in "TU")
        definition = '{"StartAt":"P","States":{"P":{"Type":"Parallel","Branches":[%s],"End":true}}}' % branches
        mocks = '{"StateMachines":{"M":{"TestCases":{"D":{"T":"R","U":"R"}}}},"MockedResponses":{"R":{"0-9":{"Return":1}}}}'
        rows = [("D", "SUCCEEDED", {**more, "steps": [f"{place} {NOON}" for place in places]}) for places, more, _, _ in STEPPED]
        ran = self.on_suite(tests(*rows), definition=definition, mocks=mocks)
        self.assertEqual(ran.stdout.splitlines()[:-1], [row[2] for row in STEPPED])
        self.assertEqual(ran.stderr.splitlines(), [f'test {at} "M#D": {row[3]}' for at, row in enumerate(STEPPED, 1) if row[3]])

    def test_a_test_with_steps_starts_at_the_first(self):
        asking = '{"StartAt":"P","States":{"P":{"Type":"Pass","Parameters":{"at.$":"$$.Execution.StartTime"},"End":true}}}'
        rows = [({"steps": [f"/ {NOON}"]}, NOON), ({}, "1970-01-01T00:00:00.000Z")]
        ran = self.on_suite(tests(*[("", "SUCCEEDED", {**more, "output": {"at": at}}) for more, at in rows]), definition=asking)
        self.assertEqual((ran.returncode, ran.stderr), (0, ""), ran.stdout)

    def test_the_error_of_an_execution_whose_time_is_over(self):
        timed = '{"StartAt":"W","TimeoutSeconds":1,"States":{"W":{"Type":"Wait","Seconds":9,"End":true}}}'
        rows = [({"error": "States.Timeout", "cause": None}, "ok"), ({"error": None}, "error"), ({"cause": "x"}, "cause")]
        ran = self.on_suite(tests(*[("", "TIMED_OUT", more) for more, _ in rows]), definition=timed)
        self.assertEqual([line.split()[0] for line in ran.stdout.splitlines()[:-1]], [word for _, word in rows], ran.stdout)

    def test_names_of_tests_in_formats_for_tools(self):
        rows = tests(("A", "SUCCEEDED", {"name": "<a>\n"}), ("A", "SUCCEEDED", {}))
        told = [json.loads(line) for line in self.on_suite(rows, "--format", "json").stdout.splitlines()]
        self.assertEqual([one.get("name") for one in told], ["<a>\n", None])
        cases = ElementTree.fromstring(self.on_suite(rows, "--format", "junit").stdout).findall("testsuite/testcase")
        self.assertEqual([one.get("name") for one in cases], ["1 A <a>\n", "2 A"])

    def test_a_test_that_may_not_mean_what_it_says_is_noted(self):
        ran = self.on_suite(tests(*DOUBTS_OF_TASK))
        self.assertEqual((ran.returncode, ran.stdout.splitlines()[-1]), (0, f"{len(DOUBTS_OF_TASK)} passed, 0 failed"))
        self.assertEqual(ran.stderr.splitlines(), [
            'note: test 1 "M#C": its run lacked an answer: no answer 0 of the Task "T"',
            'note: test 2 "M#": its run lacked an answer: no answer 0 of the Task "T"',
            'note: test 3 "M#C" "named": its run lacked an answer: no answer 0 of the Task "T"'])

    def assert_why(self, lines):
        """These are a note on a state that couldn't make its data, or nothing; test_why has its words."""
        self.assertLessEqual(len(lines), 1)
        for line in lines:
            self.assertRegex(line, r'\Anote: test 1 "M#": "\w+" at /: ')

    def test_strict_fails_what_is_noted(self):
        ran = self.on_suite(tests(*DOUBTS_OF_TASK), "--strict")
        words = ["unanswered M#C FAILED 6", "unanswered M# FAILED 6", 'unanswered M#C FAILED 6 "named"', "ok M#B FAILED 6", "ok M#A SUCCEEDED 7", "2 passed, 3 failed"]
        self.assertEqual((ran.returncode, ran.stdout.splitlines()), (1, words))
        self.assertEqual(ran.stderr.splitlines()[0], 'test 1 "M#C": unanswered: its run lacked an answer: no answer 0 of the Task "T"')
        self.assertEqual(len(ran.stderr.splitlines()), 3)
        told = [json.loads(line) for line in self.on_suite(tests(*DOUBTS_OF_TASK), "--strict", "--format", "json").stdout.splitlines()]
        self.assertEqual([one["verdict"] for one in told], ["unanswered"] * 3 + ["ok"] * 2)
        for definition, error in ACCIDENTS:
            ran = self.on_suite(tests(("", "FAILED", {}), ("", "FAILED", {"error": error})), "--strict", definition=definition)
            self.assertEqual((ran.returncode, [line.split()[0] for line in ran.stdout.splitlines()[:-1]]), (1, ["accident", "ok"]), definition)
            first, *why = ran.stderr.splitlines()
            self.assertEqual(first, f'test 1 "M#": accident: it names no error, and failed by accident: "{error}"')
            self.assert_why(why)
        # What isn't ok stays as it is.
        ran = self.on_suite(tests(("C", "SUCCEEDED", {}), ("C", "FAILED", {"output": 1})), "--strict")
        self.assertEqual([line.split()[0] for line in ran.stdout.splitlines()[:-1]], ["status", "output"])

    def test_failures_by_accident_are_noted(self):
        for definition, error in ACCIDENTS:
            ran = self.on_suite(tests(("", "FAILED", {}), ("", "FAILED", {"error": error})), definition=definition)
            first, *why = ran.stderr.splitlines()
            self.assertEqual((ran.returncode, first), (0, f'note: test 1 "M#": it names no error, and failed by accident: "{error}"'), definition)
            self.assert_why(why)
        meant = '{"StartAt":"F","States":{"F":{"Type":"Fail","Error":"E"}}}'
        self.assertEqual(self.on_suite(tests(("", "FAILED", {})), definition=meant).stderr, "")

    def test_names_of_states_that_arent_there_are_noted(self):
        definition = ('{"StartAt":"Charge","States":{"Charge":{"Type":"Task","Resource":"r","Next":"Each"},"Each":{"Type":"Map","Iterator":'
            '{"StartAt":"Pack item","States":{"Pack item":{"Type":"Pass","End":true}}},"End":true}}}')
        ran = self.on_suite(tests(("", "SUCCEEDED", {"visits": {"Charge": 0, "Chrage": 0}, "calls": {"Pack itme": []}}),
            ("", "FAILED", {"error": "E", "name": "n", "invocations": {"Zebra": 0, "Each": 0}})), definition=definition)
        self.assertEqual([line for line in ran.stderr.splitlines() if " no state " in line], [
            'note: test 1 "M#": no state is named "Chrage"; did you mean "Charge"?',
            'note: test 1 "M#": no state is named "Pack itme"; did you mean "Pack item"?',
            'note: test 2 "M#" "n": no state is named "Zebra"'])

    def test_a_run_without_an_end_meets_the_limit(self):
        ran = self.on_suite(tests(("", "SUCCEEDED", {})), definition=PASS_LOOP)
        self.assertEqual((ran.returncode, ran.stdout), (1, "limit M# UNFINISHED 20001\n0 passed, 1 failed\n"))

    def test_an_empty_suite_is_good(self):
        ran = self.on_suite("[]")
        self.assertEqual((ran.returncode, ran.stdout, ran.stderr), (0, "0 passed, 0 failed\n", ""))

    def test_bad_files_are_refused(self):
        for text, fault in REFUSED:
            ran = self.on_suite(text)
            self.assertEqual((ran.returncode, ran.stdout, without_mending(ran.stderr)), (2, "", f"fault: expectations: {fault}\n"), text)

    def test_files_are_judged_in_their_order(self):
        ran = self.on_suite("[", definition="[]", mocks="[")
        self.assertEqual((ran.returncode, without_mending(ran.stderr)), (2, "fault: definition: F2 NotObject\n"))
        ran = self.on_suite("[", mocks="[")
        self.assertEqual((ran.returncode, without_mending(ran.stderr)), (2, "fault: mocks: M1 Json J1 Syntax 1\n"))

    def test_wrong_command_lines(self):
        for words in WRONG:
            ran = self.on_suite("[]", *words)
            self.assertEqual((ran.returncode, ran.stdout), (2, ""), words)
            self.assertTrue(ran.stderr.startswith("error: "), ran.stderr)

    def test_shards_share_a_suite(self):
        whole = tests(*FIVE)
        lines = FIVE_REPORTS.splitlines()[:-1]
        for count in [1, 2, 3, 7]:
            told = {}
            for first in range(1, count + 1):
                ran = self.on_suite(whole, "--shard", f"{first}/{count}", "--workers", "2")
                *reports, last = ran.stdout.splitlines()
                told.update(zip(range(first - 1, len(lines), count), reports))
                good = sum(line.startswith("ok ") for line in reports)
                self.assertEqual(last, f"{good} passed, {len(reports) - good} failed")
                self.assertEqual(ran.returncode, 0 if good == len(reports) else 1)
            self.assertEqual([told[i] for i in range(len(lines))], lines)

    def test_a_filter_keeps_the_numbers(self):
        whole = tests(*FIVE)
        lines = FIVE_REPORTS.splitlines()[:-1]
        for word, numbers in [("M#", [1, 2, 3, 4, 5]), ("", [1, 2, 3, 4, 5]), ("#A", [1, 4]), ("X", [5]), ("x", []), ("#A ", [])]:
            ran = self.on_suite(whole, "--filter", word)
            self.assertEqual(ran.stdout.splitlines()[:-1], [lines[number - 1] for number in numbers], word)
            ran = self.on_suite(whole, "--filter", word, "--format", "json")
            self.assertEqual([json.loads(line)["test"] for line in ran.stdout.splitlines()], numbers, word)
        ran = self.on_suite(whole, "--filter", "#A", "--shard", "2/2")
        self.assertEqual(ran.stderr, 'test 4 "M#A": output: wanted 2, came 1\n')

    def test_a_filter_looks_into_names(self):
        suite = tests(("A", "SUCCEEDED", {"name": "one \u00e9"}), ("A", "SUCCEEDED", {"name": "two"}), ("B", "SUCCEEDED", {}))
        for word, numbers in [("\u00e9", [1]), ("tw", [2]), ("A", [1, 2]), ("e", [1]), ("o", [1, 2])]:
            ran = self.on_suite(suite, "--filter", word, "--list")
            self.assertEqual([int(line.split()[0]) for line in ran.stdout.splitlines()], numbers, word)

    def test_tests_are_listed_and_not_run(self):
        suite = tests(("A", "FAILED", {"name": "one"}), ("B", "FAILED", {}), ("C\n", "FAILED", {}))
        for words, listed in [([], '1 M#A "one"\n2 M#B\n3 M#C\\u000a\n'), (["--shard", "2/2", "--min", "100", "--format", "junit"], "2 M#B\n"), (["--filter", "z"], "")]:
            ran = self.on_suite(suite, "--list", *words)
            self.assertEqual((ran.returncode, ran.stdout, ran.stderr), (0, listed, ""), words)
        ran = self.on_suite("[", "--list")
        self.assertEqual((ran.returncode, ran.stdout, without_mending(ran.stderr)), (2, "", "fault: expectations: X1 Json J1 Syntax 1\n"))

    def test_what_isnt_ok_is_told_behind_the_text(self):
        ran = self.on_suite(tests(*FIVE))
        self.assertEqual(ran.stderr.splitlines(), [
            'test 4 "M#A": output: wanted 2, came 1',
            'test 5 "M#X": nocase: the mock file has no case "X" of the machine "M"',
            'note: test 3 "M#C": its run lacked an answer: no answer 0 of the Task "T"'])

    def test_quiet_tells_nothing_of_tests(self):
        ran = self.on_suite(tests(*FIVE), "--quiet")
        self.assertEqual((ran.returncode, ran.stdout, ran.stderr), (1, FIVE_REPORTS, ""))
        ran = self.on_suite(tests(*FIVE), "--quiet", "--min", "100")
        self.assertEqual((ran.returncode, ran.stdout), (1, FIVE_REPORTS))
        self.assertTrue(ran.stderr.startswith("coverage: "), ran.stderr)
        self.assertTrue(self.on_suite(tests(*FIVE), "--min", "100").stderr.endswith(ran.stderr))

    def on_files(self, rows, files, *words):
        """What the command does for tests in a folder `suite`, from the folder above it, in which such files lie."""
        with tempfile.TemporaryDirectory(prefix="asl-test-") as room:
            os.mkdir(os.path.join(room, "suite"))
            for name, text in {"d": PASS_ON, "m": MOCKS, "suite/tests.json": json.dumps(rows), **files}.items():
                with open(os.path.join(room, name), "w", encoding="utf-8") as out:
                    out.write(text)
            return subprocess.run([PROGRAM, "test", "d", "m", "suite/tests.json", *words], cwd=room, capture_output=True, encoding="utf-8", timeout=60, input="7")

    def test_inputs_in_files(self):
        def test_of(**more):
            return {"machine": "M", "case": "A", "status": "SUCCEEDED", **more}

        # The name goes from the folder of the tests, unless it begins with a slash; each file is read once.
        rows = [test_of(inputFile="a", output={"k": 1}), test_of(input=2, output=2), test_of(inputFile="../b", output="b"), test_of(inputFile="a", output={"k": 2}),
            test_of(inputFile="/dev/stdin", output=7), test_of(inputFile="/dev/stdin", output=7)]
        ran = self.on_files(rows, {"suite/a": '{"k":1}', "a": "0", "b": '"b"', "suite/b": "0"})
        self.assertEqual([line.split()[0] for line in ran.stdout.splitlines()[:-1]], ["ok", "ok", "ok", "output", "ok", "ok"])
        self.assertEqual(ran.stderr, 'test 4 "M#A": output: at /k wanted 2, came 1\n')
        # The first that can't be had is told; one of a test that isn't run isn't read.
        lost = [test_of(inputFile="a", name="first"), test_of(inputFile="no", name="second"), test_of(inputFile="bad", name="third")]
        files = {"suite/a": "1", "suite/bad": "[1,"}
        for words, told in [([], "fault: file suite/no\n"), (["--filter", "third"], "fault: input: J1 Syntax 3\nsuite/bad:1:4: error"), (["--shard", "1/3"], "")]:
            ran = self.on_files(lost, files, *words)
            self.assertEqual(ran.returncode, 2 if told else 0, words)
            self.assertTrue(ran.stderr.startswith(told), ran.stderr)
        self.assertEqual(self.on_files(lost, files, "--list").returncode, 0)

    def test_json_has_an_object_a_test(self):
        ran = self.on_suite(tests(*FIVE), "--format", "json")
        told = [json.loads(line) for line in ran.stdout.splitlines()]
        self.assertEqual([" ".join(str(one[k]) for k in ["verdict", "machine", "case", "status", "events"]) for one in told],
            [re.sub("#", " ", line) for line in FIVE_REPORTS.splitlines()[:-1]])
        self.assertEqual([one["test"] for one in told], [1, 2, 3, 4, 5])
        self.assertEqual(["difference" in one for one in told], [False, False, False, True, True])

    def test_junit_is_xml(self):
        ran = self.on_suite(tests(*FIVE), "--format", "junit")
        top = ElementTree.fromstring(ran.stdout)
        suite = top.find("testsuite")
        self.assertEqual((suite.get("tests"), suite.get("failures"), suite.get("errors")), ("5", "2", "0"))
        cases = suite.findall("testcase")
        self.assertEqual([(one.get("classname"), one.get("name")) for one in cases], [("M", "1 A"), ("M", "2 B"), ("M", "3 C"), ("M", "4 A"), ("M", "5 X")])
        self.assertEqual([one.find("failure").get("type") if one.find("failure") is not None else None for one in cases],
            [None, None, None, "output", "nocase"])

    def test_reports_are_written_to_files(self):
        suite, room = tests(*FIVE), tempfile.TemporaryDirectory(prefix="asl-test-")
        self.addCleanup(room.cleanup)

        def placeless(text):
            return re.sub(r"[^\s'\"]*/asl-test-[^/]*/", "", text)

        names = {kind: os.path.join(room.name, kind) for kind in ("junit", "json")}
        for words in ([], ["--workers", "3"], ["--format", "json"], ["--filter", "#A"]):
            plain = self.on_suite(suite, *words)
            for kinds in (["junit"], ["json"], ["json", "junit"]):
                with self.subTest(words, kinds=kinds):
                    ran = self.on_suite(suite, *words, *[word for kind in kinds for word in (f"--{kind}", names[kind])])
                    self.assertEqual((ran.returncode, placeless(ran.stdout), ran.stderr), (plain.returncode, placeless(plain.stdout), plain.stderr))
                    for kind in kinds:
                        alone = self.on_suite(suite, "--format", kind, *[word for word in words if word not in ("--format", "json")])
                        with open(names[kind], encoding="utf-8") as file:
                            self.assertEqual(placeless(file.read()), placeless(alone.stdout))
                        os.remove(names[kind])
                    self.assertEqual(os.listdir(room.name), [])

    def test_files_that_cant_be_written_are_told(self):
        with tempfile.TemporaryDirectory(prefix="asl-test-") as room:
            plain, json_file = self.on_suite(tests(*FIVE)), os.path.join(room, "json")
            for name, why in [(room, "it is a folder"), (os.path.join(room, "no", "file"), "there is no folder for it"), ("/dev/full", "a write failed")]:
                for words, has_json in [(["--junit", name], False), (["--junit", name, "--json", json_file], False), (["--json", name], False)]:
                    ran = self.on_suite(tests(*FIVE), *words)
                    self.assertEqual((ran.returncode, ran.stdout, ran.stderr), (2, plain.stdout, f"{plain.stderr}fault: file {name}: {why}\n"))
                    self.assertEqual(os.path.exists(json_file), has_json)
            for kind in ("junit", "json"):
                ran = self.on_suite(tests(*FIVE), "--list", f"--{kind}", json_file)
                self.assertEqual((ran.returncode, ran.stdout), (2, ""))
                self.assertIn(f"the argument '--list' cannot be used with '--{kind} <FILE>'", ran.stderr)
            self.assertEqual(os.listdir(room), [])

    def test_names_of_any_characters_are_written(self):
        for name in ["a&b<c>\"d'", "tab\t, line\n, bell\u0007", "\ufffe\uffff\U0001f600", "]]>", "#"]:
            rows = json.dumps([{"machine": "M", "case": name, "input": {}, "status": "FAILED"}])
            ran = self.on_suite(rows, "--format", "junit")
            case = ElementTree.fromstring(ran.stdout).find("testsuite/testcase")
            shown = re.sub("[\u0000-\u0008\u000b\u000c\u000e-\u001f\ufffe\uffff]", "\ufffd", name)
            self.assertEqual(case.get("name"), f"1 {shown}")
            self.assertEqual(json.loads(self.on_suite(rows, "--format", "json").stdout)["case"], name)

    def test_a_missing_answer_is_told_where_the_run_failed_for_it(self):
        for members, other, wanted in FAILING:
            # (F is entered by T's Catch alone; where T has none, a Choice before it leads there)
            definition = (
                f'{{"StartAt":"C","States":{{"C":{{"Type":"Choice","Choices":[{{"Variable":"$.f","IsPresent":true,"Next":"F"}}],'
                f'"Default":"T"}},"T":{{"Type":"Task","Resource":"r",{members}}},"F":{other}}}}}'
            )
            ran = self.on_suite(tests(("B", "SUCCEEDED", {})), definition=definition)
            self.assertEqual(ran.stderr, f'test 1 "M#B": status: wanted SUCCEEDED, came FAILED {wanted}\n', definition)

    def test_a_test_is_run_alone_as_told(self):
        """The command line that is told for a test shows the same execution."""
        with tempfile.TemporaryDirectory(prefix="asl test ") as room:
            names = []
            rows = [("A", "FAILED", {}), ("A", "FAILED", {"steps": [f"/ {NOON}", f"/0 {NOON}"]})]
            for name, text in [("it's.json", ONE_TASK), ("mocks.json", MOCKS), ("tests.json", tests(*rows))]:
                names.append(os.path.join(room, name))
                with open(names[-1], "w", encoding="utf-8") as out:
                    out.write(text)
            told = [json.loads(line)["alone"] for line in run_program("test", *names, "--format", "json").stdout.splitlines()]
            shown = [subprocess.run(["bash", "-c", alone], capture_output=True, encoding="utf-8",
                env={**os.environ, "PATH": f"{os.path.dirname(PROGRAM)}:{os.environ['PATH']}"}).stdout.splitlines() for alone in told]
            self.assertEqual([lines[-1] for lines in shown], ["status SUCCEEDED 1"] * 2, told)
            self.assertEqual(shown[1][:2], ["step / ok", "step /0 S1 Over"], told)

    def test_five_thousand_tests_on_sixty_four_workers(self):
        rows = [FIVE[i % 5] for i in range(5000)]
        ran = self.on_suite(tests(*rows), "--workers", "64")
        lines = FIVE_REPORTS.splitlines()[:-1]
        self.assertEqual(ran.stdout.splitlines(), [lines[i % 5] for i in range(5000)] + ["3000 passed, 2000 failed"])

