"""Rules over orders: of each plan, a second account of the rules judges the ends of its orders, and each order that is told to end against a rule does."""
from __future__ import annotations

import json
import os
import re
import tempfile

from program import ProgramTest, run_program
from test_errors import FUNCTION, answers_of, mock_file, plan, write

# Each with what it says, in Python: how often a Task was invoked, how many of these invocations returned, the status, and the error.
RULES = {
    'done("Charge") and status(FAILED) => done("Refund")': lambda run: not (run.returned("Charge") and run.status == "FAILED") or run.returned("Refund"),
    'returned("Ship", 1) or not invoked("Ship") or failed("Ship")': lambda run: True,
    'failed("Charge") => invoked("Refund")': lambda run: not run.failed("Charge") or run.invoked("Refund"),
    'error("Unnamed") => not invoked("Ship")': lambda run: run.error != "Unnamed" or not run.invoked("Ship"),
    'status(SUCCEEDED) => returned("Charge", 1) => not returned("Charge", 2)': lambda run: run.status != "SUCCEEDED" or run.returned("Charge") == 1,
    'returned("Ship", 2)': lambda run: run.returned("Ship") >= 2,
    'not status(TIMED_OUT)': lambda run: run.status != "TIMED_OUT",
    'not error("States.Timeout")': lambda run: run.error != "States.Timeout",
    ' ( not(not done( "\\u0043harge" ) ) )or\tstatus ( FAILED ) ': lambda run: run.returned("Charge") or run.status == "FAILED",
    'not invoked("Refund") and status(SUCCEEDED) or status(FAILED)': lambda run: not run.invoked("Refund") and run.status == "SUCCEEDED" or run.status == "FAILED",
}
PAIRS = {
    '"Charge"="Refund"': lambda run: run.status == "SUCCEEDED" or run.returned("Charge") == run.returned("Refund"),
    ' "Refund" = "Ship" ': lambda run: run.status == "SUCCEEDED" or run.returned("Ship") == run.returned("Refund"),
}


def task(**members):
    return {"Type": "Task", "Resource": FUNCTION, **members}


# One branch, so that under each plan there is one order.
SAGA = {
    "StartAt": "Charge",
    "States": {
        "Charge": task(Retry=[{"ErrorEquals": ["Busy"], "MaxAttempts": 1}], Next="Ship"),
        "Ship": task(Catch=[{"ErrorEquals": ["States.ALL"], "Next": "Refund"}], End=True),
        "Refund": task(Retry=[{"ErrorEquals": ["States.Timeout"], "MaxAttempts": 1}], Next="Lost"),
        "Lost": {"Type": "Fail", "Error": "Lost"},
    },
}
MOCKS = {
    "StateMachines": {"M": {"TestCases": {"c": {"Charge": "R", "Ship": "R", "Refund": "R"}}}},
    "MockedResponses": {"R": {"0-9": {"Return": 1}}},
}


class Run:
    """What a rule may ask of a run that has ended."""

    def __init__(self, history):
        self.events = [json.loads(line) for line in history.splitlines()]
        last = self.events[-1]
        self.status = {"ExecutionSucceeded": "SUCCEEDED", "ExecutionFailed": "FAILED", "ExecutionTimedOut": "TIMED_OUT"}[last["type"]]
        self.error = {"FAILED": last["body"].get("Error") if isinstance(last["body"], dict) else None, "TIMED_OUT": "States.Timeout"}.get(self.status)

    def count(self, kind, name):
        return sum(1 for event in self.events if event["type"] == kind and event.get("name") == name)

    def invoked(self, name):
        return self.count("TaskScheduled", name)

    def returned(self, name):
        return self.count("TaskSucceeded", name)

    def failed(self, name):
        return self.invoked(name) > self.returned(name)


def judged(text, rules):
    """What is told of each of these rules: the word, the plans, and the steps under the first of them; and what stands behind."""
    found = []
    for number, rule in enumerate(rules, 1):
        section, text = text.split("\n\n", 1)
        head, *lines = section.split("\n")
        word = re.match(rf"rule {number} (broken|holds|unknown) ", head)[1]
        assert head == f"rule {number} {word} {rule}", (head, rule)
        plans, steps = [], []
        if word == "broken":
            at = lines.index("steps")
            plans, steps = [plan(line) for line in lines[1:at]], lines[at + 1 :]
            assert lines[0] == f"plans {len(plans)}", section
        else:
            assert not lines, section
        found.append((word, plans, steps))
    return found, text


class Rules(ProgramTest):
    def in_room(self, texts, *words):
        """What the program does, where each word that begins with @ names a file of one of these texts."""
        with tempfile.TemporaryDirectory(prefix="asl-test-") as room:
            for name, text in texts.items():
                with open(os.path.join(room, name), "w", encoding="utf-8") as out:
                    out.write(text if isinstance(text, str) else write(text))
            return run_program(*[os.path.join(room, it[1:]) if it.startswith("@") else it for it in words], seconds=300)

    def texts(self, definition=None, mocks=None):
        return {"definition": definition or SAGA, "mocks": mocks or MOCKS, "input": "{}"}

    def search(self, *words, texts=None):
        return self.in_room(texts or self.texts(), "explore", "@definition", "@mocks", "M#c", "@input", *words)

    # ---- a second account

    def run_under(self, errors, texts, steps=None):
        """The run under a plan, by these steps or by those that come next."""
        answers = self.answers(texts)
        mocks = mock_file(answers, errors, "M", "c")
        more = {} if steps is None else {"steps": "".join(f"{line}\n" for line in steps)}
        words = [] if steps is None else ["--steps", "@steps"]
        return Run(self.in_room({**texts, "mocks": mocks, **more}, "run", "@definition", "@mocks", "M#c", "@input", "--format", "json", *words).stdout)

    def answers(self, texts):
        with tempfile.TemporaryDirectory(prefix="asl-test-") as room:
            path = os.path.join(room, "definition")
            with open(path, "w", encoding="utf-8") as out:
                out.write(write(texts["definition"]))
            return answers_of(path, texts["mocks"], "M", "c")

    def test_the_plans_that_break_a_rule_are_those_whose_run_does(self):
        texts = self.texts()
        for most in (0, 1, 2):
            words = [word for rule in RULES for word in ("--always", rule)] + [word for pair in PAIRS for word in ("--undo", pair)]
            ran = self.search("--errors", str(most), *words, texts=texts)
            shown = [rule.replace("\t", "\\u0009") for rule in [*RULES, *PAIRS]]
            found, behind = judged(ran.stdout, shown)
            self.assertTrue(behind.startswith("plans "), behind)
            plans = {plan(line) for line in behind.split("\n") if line.startswith("plan ")}
            runs = {one: self.run_under(one, texts) for one in plans}
            for (rule, means), (word, told, steps) in zip([*RULES.items(), *PAIRS.items()], found):
                wanted = {one for one, run in runs.items() if not means(run)}
                self.assertEqual(set(told), wanted, (most, rule))
                self.assertEqual(len(told), len(wanted), (most, rule))
                self.assertEqual(word, "broken" if wanted else "holds", (most, rule))
                if told:
                    self.assertFalse(means(self.run_under(told[0], texts, steps)), (most, rule))
            self.assertEqual(ran.returncode, 1 if any(word == "broken" for word, _, _ in found) else 0)

    def test_an_order_against_a_rule_is_found_among_many(self):
        branches = [{"StartAt": name, "States": {name: task(End=True)}} for name in ("A", "B")]
        definition = {"StartAt": "P", "States": {"P": {"Type": "Parallel", "Branches": branches, "End": True}}}
        mocks = {"StateMachines": {"M": {"TestCases": {"c": {"A": "R", "B": "R"}}}}, "MockedResponses": {"R": {"0-9": {"Return": 1}}}}
        texts = self.texts(definition, mocks)
        rule = 'failed("A") => done("B")'
        ran = self.search("--errors", "1", "--always", rule, texts=texts)
        (one,), _ = judged(ran.stdout, [rule])
        word, plans, steps = one
        self.assertEqual((word, ran.returncode), ("broken", 1))
        self.assertEqual({it[0][0] for it in plans}, {"A"})
        run = self.run_under(plans[0], texts, steps)
        self.assertTrue(run.failed("A") and not run.returned("B"))
        # in each order of the other branch it holds
        ran = self.search("--errors", "1", "--always", 'status(FAILED) => failed("A") or failed("B")', texts=texts)
        self.assertTrue(ran.stdout.startswith('rule 1 holds status(FAILED) => failed("A") or failed("B")\n\nplans '), ran.stdout)
        self.assertEqual(ran.returncode, 0)

    def test_a_rule_of_a_search_that_was_cut_is_unknown(self):
        branches = [{"StartAt": name, "States": {name: task(End=True)}} for name in ("A", "B")]
        definition = {"StartAt": "P", "States": {"P": {"Type": "Parallel", "Branches": branches, "End": True}}}
        ran = self.in_room({"definition": definition}, "explore", "@definition", "--errors", "0", "--limit", "1", "--always", "status(SUCCEEDED)")
        self.assertEqual(ran.stdout.split("\n")[0], "rule 1 unknown status(SUCCEEDED)")
        self.assertEqual(ran.returncode, 1)

    # ---- what is no rule

    BAD = [
        ("--always", "", "Q1 Syntax 0"),
        ("--always", 'done("Charge"', "Q1 Syntax 13"),
        ("--always", "done(Charge)", "Q1 Syntax 5"),
        ("--always", 'done("Charge") =>', "Q1 Syntax 17"),
        ("--always", 'done("Charge") and', "Q1 Syntax 18"),
        ("--always", 'done("Charge") done("Ship")', "Q1 Syntax 15"),
        ("--always", 'returned("Ship", -1)', "Q1 Syntax 17"),
        ("--always", 'returned("Ship", 4294967296)', "Q1 Syntax 26"),
        ("--always", "status(RUNNING)", "Q1 Syntax 7"),
        ("--always", "not" * 65 + "status(FAILED)", None),
        ("--always", 'done("Lost")', "Q2 NoSuchState 5"),
        ("--always", 'done("Chrage") and done("Ship")', "Q2 NoSuchState 5"),
        ("--always", 'done("Chrage") and done(', "Q1 Syntax 24"),
        ("--undo", '"Charge"', "Q1 Syntax 8"),
        ("--undo", '"Charge"="Nobody"', "Q2 NoSuchState 9"),
        ("--undo", 'done("Charge")', "Q1 Syntax 0"),
    ]

    def test_what_is_no_rule_is_told(self):
        for option, rule, fault in self.BAD:
            ran = self.search("--errors", "1", option, rule)
            self.assertEqual((ran.returncode, ran.stdout), (2, ""), rule)
            first, *lines = ran.stderr.split("\n")
            if fault is None:
                self.assertRegex(first, r"^fault: rule: Q1 Syntax \d+$", rule)
            else:
                self.assertEqual(first, f"fault: rule: {fault}", rule)
            self.assertTrue(lines[0], rule)
            quiet = self.search("--errors", "1", option, rule, "--quiet")
            self.assertEqual(quiet.stderr, f"{first}\n", rule)

    def test_the_first_rule_that_is_refused_is_told(self):
        ran = self.search("--errors", "1", "--undo", "x", "--always", "status(FAILED)", "--always", "status(")
        self.assertEqual(ran.stderr.split("\n")[0], "fault: rule: Q1 Syntax 7")

    def test_rules_are_for_errors(self):
        for option, value, shown in (("--always", "status(FAILED)", "--always <RULE>"), ("--undo", '"A"="B"', "--undo <PAIR>")):
            ran = self.search(option, value)
            self.assertEqual((ran.returncode, ran.stdout), (2, ""))
            self.assertIn(f"the argument '{shown}' is for --errors", ran.stderr)
