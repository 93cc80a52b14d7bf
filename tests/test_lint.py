"""The command lint: what it finds, where, in which words and formats, and its status."""
import hashlib
import json
import os
import subprocess
import tempfile

from program import PROGRAM, TOP, ProgramTest, run_program, without_mending

# A definition without faults, and mocks for it.
GOOD = """\
{
  "StartAt": "Charge card",
  "States": {
    "Charge card": {
      "Type": "Task",
      "Resource": "arn:aws:states:::lambda:invoke",
      "Parameters": { "id.$": "$.id" },
      "Retry": [{ "ErrorEquals": ["States.Timeout"], "MaxAttempts": 2 }],
      "Next": "Paid?"
    },
    "Paid?": {
      "Type": "Choice",
      "Choices": [{ "Variable": "$.paid", "BooleanEquals": true, "Next": "Ship" }],
      "Default": "Ship"
    },
    "Ship": { "Type": "Pass", "End": true }
  }
}
"""

MOCKS = """\
{
  "StateMachines": {
    "orders": {
      "TestCases": {
        "shipped": { "Charge card": "Charged" }
      }
    }
  },
  "MockedResponses": {
    "Charged": { "0": { "Return": { "paid": true } } }
  }
}
"""

# Typical mistakes: a text of the good definition, what stands in its place, where it is told and in which words.
MISTAKES = [
    ('"Next": "Ship"', '"Next": "Shipp"', "13:74", 'error F10: Next names "Shipp", and no state of this machine has that name; did you mean "Ship"?'),
    ('"StartAt": "Charge card"', '"StartAt": "Charge crad"', "2:14",
        'error F10: StartAt names "Charge crad", and no state of this machine has that name; did you mean "Charge card"?'),
    ('"Type": "Task"', '"Type": "Taks"', "5:15",
        'error F5: Type "Taks" is not supported; the types of states are Task, Pass, Choice, Wait, Parallel, Map, Succeed and Fail; did you mean "Task"?'),
    ('"Resource"', '"Resorce"', "6:7", 'error F4: a Task state has no member "Resorce"; did you mean "Resource"?'),
    ('"Default"', '"default"', "14:7", 'error F4: a Choice state has no member "default"; did you mean "Default"?'),
    ('      "Resource": "arn:aws:states:::lambda:invoke",\n', "", "9:5", "error F3: Resource is missing: a Task state needs it"),
    ('"End": true', '"End": "true"', "16:38", 'error F6: End is the text "true"; it has to be true or false, without quotes'),
    ('"MaxAttempts": 2', '"MaxAttempts": -1', "8:69", "error F7: MaxAttempts is the number -1; it has to be a whole number from 0 to 99999999"),
    ('"Type": "Pass", "End": true', '"Type": "Pass"', "16:13", 'error F9: a Pass state needs one of Next and "End": true, and "Ship" has none'),
    ('"End": true', '"Next": "Paid?", "End": true', "16:48", "error F8: End can't stand beside Next: a Pass state has one of them at most"),
    ('"End": true', '"Next": "End"', "16:39",
        'error F10: Next names "End", and no state of this machine has that name; a state that ends has "End": true in the place of Next'),
    ('"$.paid"', '"$.paid[*]"', "13:33",
        'error F13: Variable is no path: "$.paid[*]" is wrong from "*]" on, byte 7 of it; supported are steps as $.name, $[\'a name\'] and '
        '$[0]; wildcards, slices, filters and ".." are not supported'),
    ('"$.id"', '"States.Fomat(\'{}\', $.id)"', "7:31",
        "error F14: \"id.$\" is no call of an intrinsic function: \"States.Fomat('{}', $.id)\"; States.Fomat is not supported; did you mean States.Format?"),
    ('"$.id"', '"id"', "7:31",
        'error F14: "id.$" is neither a path, which begins with "$", nor a call of an intrinsic function, as States.Format(\'{}\', $.a): '
        '"id"; a text that is meant as it stands has the key "id"'),
    ('["States.Timeout"]', '["States.ALL", "E"]', "8:34", "error F12: States.ALL has to stand alone in its ErrorEquals"),
    ('"Type": "Pass"', '"Type": "Pass", "Retry": []', "16:31", 'error F4: a Pass state has no member "Retry"; it is for states of type Task, Parallel, Map'),
    ('"Type": "Pass"', '"Type": "Pass", "Assign": {}', "16:41",
        "error F5: Assign is not supported: it sets a variable; ResultPath keeps a result in the state's output"),
    ('"BooleanEquals": true, ', "", "13:19",
        "error F9: a rule of a Choice state needs a test, as StringEquals, or one of And, Or and Not, and this one has none"),
    # no JSON
    ('"End": true }', '"End": true, }', "16:44", "error F1: no comma can stand before a closing brace or bracket"),
    ('"States": {', "// the states\n  \"States\": {", "3:3", "error F1: JSON has no comments; Comment is a member for one"),
    ('"Type": "Task",', '"Type": "Task"', "6:7", "error F1: a comma or a colon is missing before it"),
    ('"Type": "Task"', "'Type': 'Task'", "5:7", "error F1: texts and keys stand in double quotes"),
    ('"Type": "Task"', '"Type": "Task", "Type": "Task"', "5:23", 'error F1: this object has the key "Type" already'),
    # suspicious
    ('"States.Timeout"', '"States.Timout"', "8:35", 'warning unknown-error: no error is named "States.Timout"; did you mean "States.Timeout"?'),
    ('"id.$": "$.id"', '"id": "$.id"', "7:29", 'warning forgotten-dollar: id stays the text "$.id"; the value at this path has the key "id.$"'),
    ('"States.Timeout"', '"State.ALL"', "8:35", 'warning unknown-error: no error is named "State.ALL"; did you mean "States.ALL"?'),
    ('["States.Timeout"]', '["Busy", "Busy"]', "8:43", 'warning repeated-error: "Busy" stands in this ErrorEquals before'),
    ('"MaxAttempts": 2', '"MaxAttempts": 0, "BackoffRate": 2', "8:69",
        "warning unused-delay: MaxAttempts is 0, so this retrier never retries, and its delays are never used"),
    ('"MaxAttempts": 2', '"IntervalSeconds": 9, "MaxDelaySeconds": 3', "8:95",
        "warning max-delay-below-interval: MaxDelaySeconds is below IntervalSeconds, so IntervalSeconds and BackoffRate have no effect"),
    ('"id.$": "$.id"', '"id": "$"', "7:29", 'warning forgotten-dollar: id stays the text "$"; the value at this path has the key "id.$"'),
    ('"id.$": "$.id"', '"id": "States.UUID()"', "7:29",
        'warning forgotten-dollar: id stays the text "States.UUID()"; the value of this call has the key "id.$"'),
    ('{ "id.$": "$.id" }', '"$.id"', "7:21",
        'warning forgotten-dollar: Parameters stays the text "$.id"; a template is an object, and its keys with ".$" have values that are computed'),
    ('"Type": "Pass", "End": true', '"Type": "Fail", "Cause": "$.why"', "16:40",
        'warning not-computed: Cause stays the text "$.why"; CausePath takes a path or a call'),
    ('"Type": "Pass"', '"Type": "Pass", "Result": "$.id"', "16:41",
        'warning not-computed: Result stays the text "$.id": a Pass puts out its Result as it stands, and what its Parameters compute'),
    ('"Type": "Pass"', '"Type": "Pass", "Result": {"id.$": "$.id"}', "16:50",
        'warning not-computed: "id.$" stays a key: a Pass puts out its Result as it stands, and what its Parameters compute'),
    ('"Type": "Pass", "End": true', '"Type": "Fail", "Cause.$": "$.why"', "16:31",
        'error F4: a Fail state has no member "Cause.$"; did you mean "CausePath"?'),
    (',\n      "Default": "Ship"', "", "11:5",
        'warning no-default: the Choice state "Paid?" has no Default: where no rule holds, the execution fails with States.NoChoiceMatched'),
    ('"Default": "Ship"', '"Default": "Paid?"', "14:18",
        "warning own-default: Default leads back to this Choice, where the same input meets the same rules again"),
    ('"Next": "Ship" }]', '"Next": "Ship" },\n        { "Variable": "$.paid", "BooleanEquals": true, "Next": "Charge card" }]', "14:9",
        "warning repeated-rule: this rule never decides: one before it has the same test"),
    ('{ "Variable": "$.paid", "BooleanEquals": true, "Next": "Ship" }',
        '{ "And": [{ "Variable": "$.paid", "BooleanEquals": true }, { "Variable": "$.kind", "IsNull": false }, { "Variable": "$.paid", "StringEquals": "yes" }], "Next": "Ship" }', "13:28",
        "warning impossible-and: rule 0 and rule 2 of this And never hold both, so it never holds; an Or holds where one of them does"),
    ('{ "Variable": "$.paid", "BooleanEquals": true, "Next": "Ship" }',
        '{ "Not": { "And": [{ "Variable": "$.paid", "IsNull": true }, { "Not": { "Variable": "$.paid", "IsNull": true } }] }, "Next": "Ship" }', "13:37",
        "warning impossible-and: rule 0 and rule 1 of this And never hold both, so it never holds; an Or holds where one of them does"),
    ('lambda:invoke"', 'lambda:invoke.waitForTaskToken"', "6:19",
        "warning unsent-token: nobody gets the token that this Task waits for: no path in its Parameters reaches $$.Task.Token"),
    ('"States": {', '"TimeoutSeconds": 60,\n  "States": {\n    "Pause": { "Type": "Wait", "Seconds": 60, "Next": "Ship" },', "3:21",
        "warning limit-below-wait: TimeoutSeconds is not above the Seconds of a Wait, so an execution that comes to it is timed out there"),
    ('"$.id"', '"States.Format(\'{} of {}\', $.id)"', "7:31",
        'warning failing-call: States.Format has 2 "{}" for 1 argument, so this call fails on each input'),
    ('"$.id"', '"States.Array(States.Hash($.id, \'SHA1\'))"', "7:31",
        "warning failing-call: States.Hash takes MD5, SHA-1, SHA-256, SHA-384 or SHA-512 as argument 2, so this call fails on each input"),
    ('"$.id"', '"States.JsonMerge($.id, $.all, true)"', "7:31",
        "warning failing-call: States.JsonMerge takes false as argument 3, so this call fails on each input"),
    ('"$.id"', '"States.ArrayRange(1, 2000, 1)"', "7:31",
        "warning failing-call: States.ArrayRange would make more than 1,000 items, so this call fails on each input"),
    ('"Next": "Paid?"', '"Next": "Ship"', "11:5", 'warning unreachable-state: nothing leads to the state "Paid?" from StartAt'),
]

# The same of mock files.
MOCK_MISTAKES = [
    ('"Charge card"', '"Charge crad"', "5:22",
        'error unknown-state: case "shipped" has an answer for "Charge crad", and no Task has that name; did you mean "Charge card"?'),
    ('"Charge card"', '"Charge card": "Charged", "Ship"', "5:48",
        'error not-a-task: case "shipped" has an answer for "Ship", which is a Pass state and no Task'),
    ('"Charge card": "Charged"', '"Charge card": "Chargd"', "5:37", 'error M5: no response has the name "Chargd"'),
    ('"0"', '"1-"', "10:18", 'error M3: "1-" is neither a number nor a range of numbers, as 0 or 1-3'),
    ('"0": {', '"0-2": { "Return": 1 }, "1": {', "10:42", 'error M4: "1" has a number of an answer before it'),
    ('"0": {', '"0": { "Return": 1 }, "2-3": {', "10:5", 'warning missing-answer: the response "Charged" has no answer 1, and one of a higher number'),
    ('"0"', '"1"', "10:5", 'warning missing-answer: the response "Charged" has no answer 0, and one of a higher number'),
    ('"MockedResponses": {', '"MockedResponses": { "Lost": {},', "9:24", 'warning unused-response: no case names the response "Lost"'),
    ('"TestCases"', '"TestCase"', "3:15", "error M2: this has to be an object with TestCases"),
    ('"Return"', '"Retrun"', "10:23", "error M2: this has to be an object with either Return or Throw"),
]


class LintTest(ProgramTest):
    def lint(self, definition, *words, mocks=None, seconds=60):
        """What lint does for texts. The files are called d.json and m.json."""
        with tempfile.TemporaryDirectory(prefix="asl-test-") as room:
            names = []
            for name, text in [("d.json", definition), ("m.json", mocks)]:
                if text is not None:
                    names.append(os.path.join(room, name))
                    with open(names[-1], "wb") as file:
                        file.write(text if isinstance(text, bytes) else text.encode())
            ran = run_program("lint", *names, *words, seconds=seconds)
            ran.stdout = ran.stdout.replace(room + "/", "")
        return ran

    def findings(self, definition, mocks=None, words=()):
        """The findings as lines of JSON."""
        ran = self.lint(definition, *words, "--format", "json", mocks=mocks)
        self.assertEqual(ran.stderr, "")
        found = [json.loads(line) for line in ran.stdout.splitlines()]
        self.assertEqual(ran.returncode, 1 if any(it["severity"] == "error" for it in found) else 0)
        return found

    def test_nothing_is_wrong(self):
        for mocks in [None, MOCKS]:
            ran = self.lint(GOOD, "--strict", mocks=mocks)
            self.assertEqual((ran.returncode, ran.stdout, ran.stderr), (0, "no findings\n", ""))

    def test_typical_mistakes(self):
        for old, new, place, words in MISTAKES:
            with self.subTest(new):
                self.assertIn(old, GOOD)
                ran = self.lint(GOOD.replace(old, new, 1))
                self.assertIn(f"d.json:{place}: {words}", ran.stdout.splitlines())
                self.assertEqual(ran.returncode, 1 if ": error " in ran.stdout else 0)

    def test_what_comes_close_to_a_warning(self):
        waiting = GOOD.replace("lambda:invoke", "lambda:invoke.waitForTaskToken").replace('"Parameters"', '"TimeoutSeconds": 9, "Parameters"')
        limited = GOOD.replace('"Type": "Pass"', '"Type": "Wait", "Seconds": 60')
        close = [
            GOOD.replace('"Default": "Ship"', '"Default": "Paid?", "OutputPath": "$.next"'),
            GOOD.replace('"Next": "Ship" }]', '"Next": "Ship" }, { "Variable": "$.paid", "BooleanEquals": false, "Next": "Ship" }]'),
            GOOD.replace('"Variable": "$.paid", "BooleanEquals": true', '"And": [{ "Variable": "$.paid", "IsNumeric": true }, { "Variable": "$.paid", "NumericGreaterThan": 0 }]'),
            waiting.replace('"$.id"', '"$$.Task.Token"'),
            waiting.replace('"Parameters"', '"InputPath": "$$.Task", "Parameters"'),
            limited.replace('"States": {', '"TimeoutSeconds": 61,\n  "States": {'),
            GOOD.replace('"$.id"', '"States.Format(\'{} of {}\', $.id, $.all)"'),
            GOOD.replace('"$.id"', '"States.JsonMerge($.id, $.all, false)"'),
        ]
        for text in close:
            with self.subTest(text):
                self.assertEqual(self.lint(text).stdout, "no findings\n")

    def test_typical_mistakes_of_mock_files(self):
        for old, new, place, words in MOCK_MISTAKES:
            with self.subTest(new):
                self.assertIn(old, MOCKS)
                ran = self.lint(GOOD, mocks=MOCKS.replace(old, new, 1))
                self.assertIn(f"m.json:{place}: {words}", ran.stdout.splitlines())

    def test_a_task_that_no_case_answers(self):
        ran = self.lint(GOOD, mocks=MOCKS.replace('{ "Charge card": "Charged" }', "{}"))
        self.assertEqual(
            ran.stdout.splitlines(),
            [
                'd.json:4:5: warning unanswered-task: no case of the mock file has an answer for the Task "Charge card"',
                'm.json:10:5: warning unused-response: no case names the response "Charged"',
                "0 errors, 2 warnings",
            ],
        )
        self.assertEqual(ran.returncode, 0)

    def test_the_machine_that_is_meant(self):
        two = MOCKS.replace('"orders": {', '"other": { "TestCases": { "c": {} } }, "orders": {')
        self.assertEqual([it["name"] for it in self.findings(GOOD, two)], ["M7"])
        self.assertEqual(self.findings(GOOD, two, ["orders"]), [])
        self.assertEqual([it["name"] for it in self.findings(GOOD, two, ["other"])], ["unanswered-task"])
        found = self.findings(GOOD, MOCKS, ["order"])
        self.assertEqual([it["message"] for it in found], ['no machine of the mock file has the name "order"; did you mean "orders"?'])
        self.assertEqual([it["name"] for it in self.findings(GOOD, "{}")], ["unanswered-task"])

    def test_strict(self):
        suspicious = GOOD.replace("States.Timeout", "States.Timout")
        self.assertEqual(self.lint(suspicious).returncode, 0)
        self.assertEqual(self.lint(suspicious, "--strict").returncode, 1)
        self.assertEqual(self.lint(suspicious).stdout.splitlines()[-1], "0 errors, 1 warning")

    def test_ignored_rules(self):
        suspicious = GOOD.replace("States.Timeout", "States.Timout").replace('"MaxAttempts": 2', '"MaxAttempts": 0, "BackoffRate": 2')
        self.assertEqual([it["name"] for it in self.findings(suspicious)], ["unknown-error", "unused-delay"])
        self.assertEqual([it["name"] for it in self.findings(suspicious, words=["--ignore", "unknown-error"])], ["unused-delay"])
        both = ["--ignore", "unused-delay", "--ignore=unknown-error"]
        ran = self.lint(suspicious, "--strict", *both)
        self.assertEqual((ran.returncode, ran.stdout, ran.stderr), (0, "no findings\n", ""))
        # those of a mock file and of the Tasks beside it, too
        self.assertEqual([it["name"] for it in self.findings(GOOD, "{}", ["--ignore", "unanswered-task"])], [])
        # a name that no warning has ignores nothing, nor does a part of one, or one in other letters
        for name in ["unknown", "unknown-error ", "Unknown-Error", "F10"]:
            self.assertEqual(self.findings(suspicious, words=["--ignore", name]), self.findings(suspicious))

    def test_errors_are_told_though_their_rules_are_ignored(self):
        faulty = GOOD.replace('"Next": "Ship"', '"Next": "Shipp"').replace("States.Timeout", "States.Timout")
        found = self.findings(faulty, words=["--ignore", "F10", "--ignore", "unknown-error"])
        self.assertEqual([it["name"] for it in found], ["F10"])
        self.assertEqual(self.lint(faulty, "--ignore", "unknown-error").stdout.splitlines()[-1], "1 error, 0 warnings")

    def test_an_ignored_rule_wants_a_name(self):
        ran = self.lint(GOOD, "--ignore")
        self.assertEqual((ran.returncode, ran.stdout), (2, ""))
        self.assertIn("--ignore <RULE>", ran.stderr)

    def test_all_faults_in_the_order_of_their_places(self):
        states = {f"S{i}": {"Type": "Pass", "Next": "?" if i % 2 else f"S{i + 1}"} for i in range(0, 40)}
        text = json.dumps({"States": states, "StartAt": "S0"}, indent=1)
        found = self.findings(text.replace('"S38"', '"S38"'))
        self.assertEqual(len(found), 20)
        self.assertEqual([it["begin"] for it in found], sorted(it["begin"] for it in found))
        for it in found:
            self.assertEqual(text.splitlines()[it["line"] - 1][it["column"] - 1 :].strip(), '"?"')

    def test_a_fault_inside_a_faulty_object(self):
        # a state lacks what it needs, which is told at its closing brace, behind the faults of the retrier in it; a rule without a test names no state
        lines = [
            '{ "StartAt": "A", "States": {',
            '  "A": {',
            '    "Type": "Task", "Nope": 1,',
            '    "Retry": [ { "MaxAttempts": -1 } ],',
            '    "Next": "B"',
            "  },",
            '  "B": { "Type": "Choice", "Choices": [ { "Variable": "$.a", "Next": "C" } ], "Default": "A" }',
            "} }",
        ]
        found = self.findings("\n".join(lines))
        self.assertEqual(
            [(it["name"], it["line"], it["column"]) for it in found],
            [("F4", 3, 21), ("F7", 4, 33), ("F3", 4, 36), ("F3", 6, 3), ("F9", 7, 41), ("F10", 7, 70)],
        )

    def test_two_faults_of_one_object(self):
        # a Wait that says neither how long nor where it goes on: both are told, at one place
        found = self.findings('{"StartAt":"W","States":{"W":{"Type":"Wait"}}}')
        self.assertEqual(
            [(it["name"], it["line"], it["column"], it["message"]) for it in found],
            [
                ("F9", 1, 30, 'a Wait state needs one of Seconds, SecondsPath, Timestamp and TimestampPath, and "W" has none'),
                ("F9", 1, 30, 'a Wait state needs one of Next and "End": true, and "W" has none'),
            ],
        )

    def test_each_format_tells_the_same(self):
        mocks = MOCKS.replace('"0": {', '"0": { "Return": 1 }, "2": {')
        definition = GOOD.replace('"Next": "Ship"', '"Next": "Shipp"').replace('"States.Timeout"', '"States.Timout"')
        found = self.findings(definition, mocks)
        self.assertEqual([it["name"] for it in found], ["unknown-error", "F10", "missing-answer"])
        lines = [f"{it['file']}:{it['line']}:{it['column']}: {it['severity']} {it['name']}: {it['message']}" for it in found]
        self.assertEqual(self.lint(definition, mocks=mocks).stdout.splitlines(), [*lines, "1 error, 2 warnings"])
        results = json.loads(self.lint(definition, "--format", "sarif", mocks=mocks).stdout)["runs"][0]["results"]
        self.assertEqual(
            [(it["ruleId"], it["level"], it["message"]["text"]) for it in results],
            [(it["name"], it["severity"], it["message"]) for it in found],
        )
        for result, it in zip(results, found):
            (location,) = result["locations"]
            self.assertEqual(location["physicalLocation"]["region"], {"startLine": it["line"], "startColumn": it["column"]})
        commands = [
            f"::{it['severity']} file={it['file']},line={it['line']},col={it['column']},title={it['name']}::{it['message'].replace('%', '%25')}" for it in found
        ]
        self.assertEqual(self.lint(definition, "--format", "github", mocks=mocks).stdout.splitlines(), commands)
        issues = json.loads(self.lint(definition, "--format", "gitlab", mocks=mocks).stdout)
        self.assertEqual(
            [(it["check_name"], it["description"], it["location"]["lines"], it["severity"]) for it in issues],
            [(it["name"], it["message"], {"begin": it["line"]}, "major" if it["severity"] == "error" else "minor") for it in found],
        )

    def test_a_file_name_as_a_uri(self):
        with tempfile.TemporaryDirectory(prefix="asl-test-") as room:
            name = os.path.join(room, "a b\u00e9%~_.-9.json")
            with open(name, "w", encoding="utf-8") as file:
                file.write("{}")
            log = json.loads(run_program("lint", name, "--format", "sarif").stdout)
        places = [it["locations"][0]["physicalLocation"] for it in log["runs"][0]["results"]]
        self.assertEqual({place["artifactLocation"]["uri"] for place in places}, {f"{room}/a%20b%C3%A9%25~_.-9.json"})

    def test_lines_and_columns(self):
        # characters of 1 to 4 bytes before it in its line, a tab, line feeds behind carriage returns
        for name, width in [("a", 1), ("é", 2), ("€", 3), ("😀", 4), ("\t", None)]:
            for feed in ["\n", "\r\n"]:
                before = f"{name}{name}{name}"
                if width is None:
                    text = '{"StartAt":"A",' + feed + '"States":{"A":\t\t\t{"Type":"Pass","Next":"?"}}}'
                    column = text.split(feed)[1].index('"?"') + 1
                else:
                    text = '{"StartAt":"A",' + feed + '"States":{"A":{"Comment":"' + before + '","Type":"Pass","Next":"?"}}}'
                    column = text.split(feed)[1].index('"?"') + 1
                found = self.findings(text)
                self.assertEqual([(it["line"], it["column"], it["begin"]) for it in found], [(2, column, text.encode().index(b'"?"'))])

    def test_a_file_without_a_line_feed(self):
        ran = self.lint('{"States":{}}')
        self.assertEqual(ran.stdout, "d.json:1:13: error F3: StartAt is missing: the definition needs it\n1 error, 0 warnings\n")
        ran = self.lint("")
        self.assertEqual(ran.stdout, "d.json:1:1: error F1: the text is empty: a JSON text has a value\n1 error, 0 warnings\n")

    def test_ten_thousand_faults(self):
        # a second or so; a minute and more on a busy machine
        text = json.dumps({"StartAt": "S0", "States": {f"S{i}": {"Type": "Nope"} for i in range(10_000)}})
        ran = self.lint(text, seconds=900)
        self.assertEqual(ran.stdout.splitlines()[-1], "10000 errors, 0 warnings")
        self.assertEqual(len(ran.stdout.splitlines()), 10_001)

    def test_one_finding_is_one_line(self):
        for name in ["a\nb", "a\rb", "\u202egpj", "\u200f", "\u2028", "\x7f", "\x85", "\ufeff", "a\tb"]:
            text = json.dumps({"StartAt": name, "States": {"A": {"Type": "Succeed"}}}, ensure_ascii=False)
            ran = self.lint(text)
            self.assertEqual(len(ran.stdout.splitlines()), 2, ran.stdout)
            self.assertTrue(all(c.isprintable() or c == "\n" for c in ran.stdout), ran.stdout)

    def test_sarif(self):
        ran = self.lint(GOOD.replace('"Next": "Ship"', '"Next": "Shipp"'), "--format", "sarif", mocks=MOCKS.replace('"0"', '"1"'))
        log = json.loads(ran.stdout)
        self.assertEqual((log["version"], len(log["runs"]), ran.returncode), ("2.1.0", 1, 1))
        run = log["runs"][0]
        rules = {rule["id"]: rule for rule in run["tool"]["driver"]["rules"]}
        results = run["results"]
        self.assertEqual([(it["ruleId"], it["level"]) for it in results], [("F10", "error"), ("missing-answer", "warning")])
        for it in results:
            self.assertIn(it["ruleId"], rules)
            self.assertEqual(rules[it["ruleId"]]["defaultConfiguration"]["level"], it["level"])
        places = [it["locations"][0]["physicalLocation"] for it in results]
        self.assertEqual([place["region"] for place in places], [{"startLine": 13, "startColumn": 74}, {"startLine": 10, "startColumn": 5}])
        self.assertTrue(places[0]["artifactLocation"]["uri"].endswith("d.json"))

    def test_github(self):
        ran = self.lint(GOOD.replace('"Next": "Ship"', '"Next": "Ship, 9:5 at 100%"'), "--format", "github")
        told = 'Next names "Ship, 9:5 at 100%25", and no state of this machine has that name'
        self.assertEqual((ran.returncode, ran.stdout), (1, f"::error file=d.json,line=13,col=74,title=F10::{told}\n"))
        ran = self.lint(GOOD, "--format", "github")
        self.assertEqual((ran.returncode, ran.stdout, ran.stderr), (0, "", ""))
        ran = self.lint(GOOD.replace("States.Timeout", "States.Timout"), "--format", "github")
        self.assertRegex(ran.stdout, r"\A::warning file=d\.json,line=8,col=35,title=unknown-error::no error is named [^\n]+\n\Z")

    def test_a_file_name_in_a_workflow_command(self):
        with tempfile.TemporaryDirectory(prefix="asl-test-") as room:
            name = os.path.join(room, "a,b:c%d\r\n\u00e9 e.json")
            with open(name, "w", encoding="utf-8") as file:
                file.write('{"States":{}}')
            ran = subprocess.run([PROGRAM, "lint", name, "--format", "github"], stdin=subprocess.DEVNULL, capture_output=True, check=False, timeout=60)
        line = f"::error file={room}/a%2Cb%3Ac%25d%0D%0A\u00e9 e.json,line=1,col=13,title=F3::StartAt is missing: the definition needs it\n"
        self.assertEqual(ran.stdout, line.encode())

    def test_gitlab(self):
        faulty = GOOD.replace('"Next": "Ship"', '"Next": "Shipp"').replace("States.Timeout", "States.Timout")
        ran = self.lint(faulty, "--format", "gitlab")
        self.assertEqual((ran.returncode, ran.stderr, ran.stdout.count("\n")), (1, "", 1))
        warning, error = json.loads(ran.stdout)
        self.assertEqual(list(error), ["description", "check_name", "fingerprint", "severity", "location"])
        self.assertEqual((warning["check_name"], warning["severity"]), ("unknown-error", "minor"))
        self.assertEqual((error["check_name"], error["severity"], error["location"]), ("F10", "major", {"path": "d.json", "lines": {"begin": 13}}))
        self.assertEqual(self.lint(GOOD, "--format", "gitlab").stdout, "[]\n")

    def test_fingerprints(self):
        def fingerprints(names, texts):
            """The fingerprints for files, and what they are to be."""
            with tempfile.TemporaryDirectory(prefix="asl-test-") as room:
                for name, text in texts.items():
                    with open(os.path.join(room, name), "w", encoding="utf-8") as file:
                        file.write(text)
                ran = subprocess.run([PROGRAM, "lint", *names, "--format", "gitlab"], cwd=room, stdin=subprocess.DEVNULL, capture_output=True, check=False, timeout=60)
            issues, seen, wanted = json.loads(ran.stdout), [], []
            for it in issues:
                kept = f"{it['check_name']}\n{it['location']['path']}\n{it['description']}"
                wanted.append(hashlib.sha1(f"{seen.count(kept)}\n{kept}".encode()).hexdigest())
                seen.append(kept)
            return [it["fingerprint"] for it in issues], wanted

        same = '{"StartAt":"A","States":{%s}}' % ",".join(f'"{name}":{{"Type":"Pass","Next":"?"}}' for name in "ABC")
        for names in [["d.json"], ["d.json", "e.json"], ["d.json", "d.json"]]:
            told, wanted = fingerprints(names, {"d.json": same, "e.json": same})
            self.assertEqual(told, wanted)
            self.assertEqual(len(set(told)), 3 * len(names))
        # lines that are put in change none
        self.assertEqual(fingerprints(["d.json"], {"d.json": same.replace(",", ",\n\n")}), fingerprints(["d.json"], {"d.json": same}))

    def test_the_first_fault_of_check_is_among_them(self):
        ran = run_program("check", f"{TOP}/examples/refused.json")
        self.assertEqual(without_mending(ran.stderr), "fault: definition: F10 NoTarget /States/A/Next\n")
        ran = run_program("lint", f"{TOP}/examples/refused.json")
        self.assertTrue(ran.stdout.splitlines()[0].endswith('refused.json:4:36: error F10: Next names "B", and no state of this machine has that name'))

    def test_words_that_are_wrong(self):
        for words in [(), ("nowhere.json",), (f"{TOP}/examples/refused.json", "nowhere.json"), (f"{TOP}/examples/refused.json", "--format", "xml")]:
            ran = run_program("lint", *words)
            self.assertEqual((ran.returncode, ran.stdout), (2, ""), words)
        self.assertEqual(run_program("lint", "nowhere.json").stderr, "fault: file nowhere.json\n")
