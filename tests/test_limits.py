"""Limits: each at its value, and one past it, in each command that reads the text."""
import os
import re
import tempfile

from program import ProgramTest, run_program, without_mending

# What a run or a search may tell besides: which answer was lacking.
NOTES = re.compile("(note: .*\n)*")


def machine(state, more=""):
    """The text of a definition of this one state."""
    return '{"StartAt":"S","States":{"S":{%s}}%s}' % (state, more)


def task(more):
    return machine('"Type":"Task","Resource":"r",%s,"End":true' % more)


def retried(more):
    return task('"Retry":[{"ErrorEquals":["E"],%s}]' % more)


def nested(depth):
    """The text of so many machines in one another."""
    text = '{"StartAt":"S0","States":{"S0":{"Type":"Pass","End":true}}}'
    for level in range(1, depth):
        text = '{"StartAt":"S%d","States":{"S%d":{"Type":"Map","ItemProcessor":%s,"End":true}}}' % (level, level, text)
    return text


def calls(depth):
    """The text of a definition with so many calls in one another."""
    text = "States.Format('a')"
    for _ in range(depth - 1):
        text = f"States.Format('{{}}', {text})"
    return machine('"Type":"Pass","Parameters":{"a.$":"%s"},"End":true' % text)


def named(name):
    return '{"StartAt":"%s","States":{"%s":{"Type":"Succeed"}}}' % (name, name)


def padded(length, text=machine('"Type":"Succeed"')):
    """The text, by itself that of a definition, with so many bytes."""
    return text + (length - len(text)) * " "


def result(text):
    return machine('"Type":"Pass","Result":%s,"End":true' % text)


# The byte at which the value of such a definition begins.
AT = result("").index(',"End"')

# A limit, the definition at it, the one past it, and the fault of that.
LIMITS = [
    ("bytes of a text", padded(1_048_576), padded(1_048_577), "F1 Json J5 Size"),
    ("depth of a text", result(61 * "[" + 61 * "]"), result(62 * "[" + 62 * "]"), f"F1 Json J3 Depth {AT + 61}"),
    ("bytes of a number", result("1." + 38 * "0"), result("1." + 39 * "0"), f"F1 Json J4 Number {AT}"),
    ("amount of a number", result("999999999999999999"), result("1000000000000000000"), f"F1 Json J4 Number {AT}"),
    ("decimals of a number", result("0.000000001"), result("0.0000000001"), f"F1 Json J4 Number {AT}"),
    ("characters of a name", named(80 * "\U0001f600"), named(81 * "\U0001f600"), f"F7 Range /States/{81 * chr(0x1f600)}"),
    ("machines in machines", nested(16), nested(17), "F15 Nesting " + "".join(f"/States/S{level}/ItemProcessor" for level in range(16, 0, -1))),
    ("calls in calls", calls(10), calls(11), "F14 Expression /States/S/Parameters/a.$"),
    ("seconds of a Wait", machine('"Type":"Wait","Seconds":99999999,"End":true'), machine('"Type":"Wait","Seconds":100000000,"End":true'),
        "F7 Range /States/S/Seconds"),
    ("attempts", retried('"MaxAttempts":99999999'), retried('"MaxAttempts":100000000'), "F7 Range /States/S/Retry/0/MaxAttempts"),
    ("attempts, none", retried('"MaxAttempts":0'), retried('"MaxAttempts":-1'), "F7 Range /States/S/Retry/0/MaxAttempts"),
    ("interval, most", retried('"IntervalSeconds":99999999'), retried('"IntervalSeconds":100000000'), "F7 Range /States/S/Retry/0/IntervalSeconds"),
    ("interval, least", retried('"IntervalSeconds":1'), retried('"IntervalSeconds":0'), "F7 Range /States/S/Retry/0/IntervalSeconds"),
    ("rate, most", retried('"BackoffRate":1000'), retried('"BackoffRate":1000.000000001'), "F7 Range /States/S/Retry/0/BackoffRate"),
    ("rate, least", retried('"BackoffRate":1.0'), retried('"BackoffRate":0.999999999'), "F7 Range /States/S/Retry/0/BackoffRate"),
    ("delay, most", retried('"MaxDelaySeconds":31622399'), retried('"MaxDelaySeconds":31622400'), "F7 Range /States/S/Retry/0/MaxDelaySeconds"),
    ("delay, least", retried('"MaxDelaySeconds":1'), retried('"MaxDelaySeconds":0'), "F7 Range /States/S/Retry/0/MaxDelaySeconds"),
    ("time of a Task, most", task('"TimeoutSeconds":99999999'), task('"TimeoutSeconds":100000000'), "F7 Range /States/S/TimeoutSeconds"),
    ("time of a Task, least", task('"TimeoutSeconds":1'), task('"TimeoutSeconds":0'), "F7 Range /States/S/TimeoutSeconds"),
    ("time of a machine, most", machine('"Type":"Succeed"', ',"TimeoutSeconds":99999999'),
        machine('"Type":"Succeed"', ',"TimeoutSeconds":100000000'), "F7 Range /TimeoutSeconds"),
    (
        "iterations at once",
        machine('"Type":"Map","ItemProcessor":%s,"MaxConcurrency":99999999,"End":true' % machine('"Type":"Succeed"').replace('"S"', '"I"')),
        machine('"Type":"Map","ItemProcessor":%s,"MaxConcurrency":100000000,"End":true' % machine('"Type":"Succeed"').replace('"S"', '"I"')),
        "F7 Range /States/S/MaxConcurrency",
    ),
]


def other_texts(value):
    """A mock file, an input and a suite that have this value: each by the name of its file, with the byte at which the value begins."""
    begun = {
        "mocks": '{"StateMachines":{},"MockedResponses":{"r":{"0":{"Return":%s}}}}',
        "input": "%s",
        "tests": '[{"machine":"M","case":"","input":%s,"status":"SUCCEEDED"}]',
    }
    return {name: (text % value, text.index("%s")) for name, text in begun.items()}


# How the fault of each of them begins that is read as no JSON text, the commands that read it, and at which depth the value stands in it.
OTHERS = {
    "mocks": ("mocks: M1 Json", ("run", "debug", "explore", "test"), 4),
    "input": ("input:", ("run", "debug", "explore"), 0),
    "tests": ("expectations: X1 Json", ("test",), 2),
}


class Limits(ProgramTest):
    def commands(self, room):
        """The command lines that read the definition, and how many of their words are files that are read after it."""
        setup = [f"{room}/definition", f"{room}/mocks", "M", f"{room}/input"]
        return [
            ["check", f"{room}/definition"],
            ["print", f"{room}/definition"],
            ["upgrade", f"{room}/definition"],
            ["graph", f"{room}/definition"],
            ["mocks", f"{room}/definition"],
            ["run", *setup],
            ["run", *setup, "--steps", f"{room}/steps"],
            ["run", *setup, "--format", "aws"],
            ["debug", *setup, f"{room}/steps"],
            ["test", f"{room}/definition", f"{room}/mocks", f"{room}/tests"],
            ["explore", *setup],
        ]

    def test_each_limit_in_each_command(self):
        with tempfile.TemporaryDirectory(prefix="asl-test-") as room:
            for name, text in [("mocks", "{}"), ("input", '["x"]'), ("steps", ""), ("tests", "[]")]:
                with open(os.path.join(room, name), "w", encoding="utf-8") as file:
                    file.write(text)
            for what, within, beyond, fault in LIMITS:
                for text, told in [(within, ""), (beyond, f"fault: definition: {fault}\n")]:
                    with open(os.path.join(room, "definition"), "w", encoding="utf-8") as file:
                        file.write(text)
                    for words in self.commands(room):
                        ran = run_program(*words)
                        notes = NOTES.match(ran.stderr)[0] if words[0] in ("run", "explore") else ""
                        self.assertEqual(without_mending(ran.stderr[len(notes) :]), told, (what, words[0]))
                        if told:
                            self.assertEqual((ran.returncode, ran.stdout), (2, ""), (what, words[0]))
                        else:
                            self.assertIn(ran.returncode, (0, 1), (what, words[0]))
                            self.assertTrue(ran.stdout, (what, words[0]))

    def test_each_limit_is_found(self):
        with tempfile.TemporaryDirectory(prefix="asl-test-") as room:
            for what, within, beyond, fault in LIMITS:
                for text, name in [(within, None), (beyond, fault.split(" ")[0])]:
                    with open(os.path.join(room, "definition"), "w", encoding="utf-8") as file:
                        file.write(text)
                    ran = run_program("lint", os.path.join(room, "definition"))
                    self.assertEqual((ran.stderr, ran.returncode), ("", 1 if name else 0), what)
                    self.assertEqual(f"error {name}: " in ran.stdout, name is not None, what)
                    self.assertEqual(" error " in ran.stdout, name is not None, what)

    def other_limits(self):
        """The file and the text of each limit of JSON in a text beside the definition, and the fault of the text, if it is past the limit."""
        values = [("1." + 38 * "0", None), ("1." + 39 * "0", "J4 Number"), ("0.000000001", None), ("0.0000000001", "J4 Number")]
        values += [("999999999999999999", None), ("1000000000000000000", "J4 Number")]
        for value, fault in values:
            for name, (text, at) in other_texts(value).items():
                yield name, text, fault and f"{fault} {at}"
        for name, (_, _, depth) in OTHERS.items():
            for more in (0, 1):
                brackets = 64 - depth + more
                text, at = other_texts(brackets * "[" + brackets * "]")[name]
                yield name, text, f"J3 Depth {at + brackets - 1}" if more else None
                text, _ = other_texts("1")[name]
                yield name, padded(1_048_576 + more, text), "J5 Size" if more else None

    def test_each_limit_of_the_other_texts_in_each_command(self):
        with tempfile.TemporaryDirectory(prefix="asl-test-") as room:

            def file(name, text):
                with open(os.path.join(room, name), "w", encoding="utf-8") as out:
                    out.write(text)

            usual = {"definition": machine('"Type":"Succeed"'), "mocks": "{}", "input": "1", "steps": "", "tests": "[]"}
            for name, text, fault in self.other_limits():
                for usual_name, usual_text in usual.items():
                    file(usual_name, usual_text)
                file(name, text)
                begins, commands, _ = OTHERS[name]
                told = f"fault: {begins} {fault}\n" if fault else ""
                for words in self.commands(room):
                    if words[0] in commands:
                        ran = run_program(*words)
                        self.assertEqual(without_mending(ran.stderr), told, (name, words[0], text[:80]))
                        self.assertEqual(ran.returncode == 2, bool(told), (name, words[0], text[:80]))
                if name == "mocks":
                    ran = run_program("lint", os.path.join(room, "definition"), os.path.join(room, "mocks"))
                    self.assertEqual((ran.stderr, " error M1: " in ran.stdout), ("", bool(fault)), text[:80])

    def test_a_range_has_at_most_1000_items(self):
        for last, status in [(1000, "SUCCEEDED"), (1001, "FAILED")]:
            definition = machine('"Type":"Pass","Parameters":{"a.$":"States.ArrayRange(1, %d, 1)"},"End":true' % last)
            self.assertTrue(self.told(definition).splitlines()[-1].startswith(f"status {status} "))

    def test_a_step_is_taken_with_at_most_24992_events(self):
        # A loop of a Pass tells an event when the execution starts and two a step.
        loop = machine('"Type":"Pass","Next":"S"')
        steps = 12497 * "/ 2024-01-01T00:00:00Z\n"
        told = self.told(loop, steps=steps).splitlines()
        self.assertEqual(told[12495:12497], ["step / ok", "step / S8 HistoryFull"])
        # By itself it goes 10,000 steps.
        ran = self.run_texts(loop, "{}", "M", "{}", None)
        told = ran.stdout.splitlines()
        self.assertEqual((ran.returncode, len(told), told[-1]), (1, 20_002, "status RUNNING"))


if __name__ == "__main__":
    import unittest

    unittest.main()
