"""test --orders: tests that have to hold in every order of their branches."""
import glob
import json
import os
import re
import subprocess
import tempfile
import unittest

from program import PROGRAM, TOP

TASK = {"Type": "Task", "Resource": "r", "End": True}
# Two branches that fail: who steps first decides.
BOTH = {"StartAt": "P", "States": {"P": {"Type": "Parallel", "End": True, "Branches": [
    {"StartAt": "A", "States": {"A": TASK}},
    {"StartAt": "B", "States": {"B": TASK}}]}}}
BOTH_MOCKS = {"StateMachines": {"M": {"TestCases": {"good": {"A": "one", "B": "one"}, "bad": {"A": "no", "B": "none"}, "half": {"A": "one", "B": "none"}}}},
              "MockedResponses": {"one": {"0": {"Return": 1}}, "no": {"0": {"Throw": {"Error": "A"}}}, "none": {"0": {"Throw": {"Error": "B"}}}}}
# Items that share a Task: who asks first gets the first answer. Where the first item has the second one, the loop has no end.
SHARED = {"StartAt": "M", "States": {
    "M": {"Type": "Map", "Next": "C", "ItemProcessor": {"StartAt": "T", "States": {"T": TASK}}},
    "C": {"Type": "Choice", "Choices": [{"Variable": "$[0]", "StringEquals": "b", "Next": "L"}], "Default": "S"},
    "L": {"Type": "Pass", "Next": "L"}, "S": {"Type": "Succeed"}}}
SHARED_MOCKS = {"StateMachines": {"M": {"TestCases": {"ab": {"T": "ab"}, "aa": {"T": "aa"}}}},
                "MockedResponses": {"ab": {"0": {"Return": "a"}, "1": {"Return": "b"}}, "aa": {"0-9999": {"Return": "a"}}}}
# A branch that waits for longer comes first only where the other one is late.
WAITS = {"StartAt": "P", "States": {"P": {"Type": "Parallel", "End": True, "Branches": [
    {"StartAt": f"W{it}", "States": {f"W{it}": {"Type": "Wait", "Seconds": it, "Next": f"F{it}"}, f"F{it}": {"Type": "Fail", "Error": f"E{it}"}}} for it in (1, 2)]}}}


def tests(*rows):
    """An expectation file of these tests: case, input, status and further members."""
    return [{"machine": "M", "case": case, "input": given, "status": status, **more} for case, given, status, more in rows]


class OrdersTest(unittest.TestCase):
    maxDiff = None

    def setUp(self):
        room = tempfile.TemporaryDirectory(prefix="asl-test-")
        self.addCleanup(room.cleanup)
        self.room = room.name

    def asl(self, *words):
        return subprocess.run([PROGRAM, *words], cwd=self.room, stdin=subprocess.DEVNULL, capture_output=True, encoding="utf-8", timeout=120)

    def on_suite(self, definition, mocks, suite, *words):
        for name, value in [("d.json", definition), ("m.json", mocks), ("s.json", suite)]:
            with open(f"{self.room}/{name}", "w", encoding="utf-8") as file:
                json.dump(value, file)
        return self.asl("test", "d.json", "m.json", "s.json", *words)

    def reported(self, *given):
        """Status, report and what is told, with --orders."""
        ran = self.on_suite(*given)
        return ran.returncode, ran.stdout.splitlines(), ran.stderr.splitlines()

    # ---- outcomes

    def test_who_steps_first_decides(self):
        suite = tests(("bad", {}, "FAILED", {"error": "A"}), ("bad", {}, "FAILED", {}), ("good", {}, "SUCCEEDED", {"output": [1, 1]}), ("half", {}, "FAILED", {"error": "B"}))
        self.assertEqual(self.reported(BOTH, BOTH_MOCKS, suite)[0], 0)
        status, lines, told = self.reported(BOTH, BOTH_MOCKS, suite, "--orders")
        self.assertEqual(status, 1)
        self.assertEqual([it.split()[0] for it in lines], ["error", "ok", "ok", "ok", "3"])
        self.assertRegex(told[0], r'^test 1 "M#bad": error: in another order of its branches, wanted "A", came .*"B"')
        self.assertRegex(told[-1], r"^note: orders tried: tests 4, outcomes 6, worlds \d+$")

    def test_the_command_line_prints_the_order(self):
        suite = tests(("good", {}, "SUCCEEDED", {}), ("bad", {}, "FAILED", {"error": "A"}))
        ran = self.on_suite(BOTH, BOTH_MOCKS, suite, "--orders", "--format", "json")
        good, bad = map(json.loads, ran.stdout.splitlines())
        self.assertEqual([good["verdict"], good["outcomes"], "alone" in good], ["ok", 1, False])
        self.assertEqual([bad["verdict"], bad["status"], bad["outcomes"]], ["error", "FAILED", 2])
        self.assertGreater(bad["worlds"], 2)
        self.assertRegex(bad["alone"], r"^asl explore 'd\.json' 'm\.json' --test 's\.json#2' --prompt --witness [12]$")
        alone = subprocess.run(["sh", "-c", bad["alone"].replace("asl", f"'{PROGRAM}'", 1)], cwd=self.room, capture_output=True, encoding="utf-8")
        self.assertEqual((alone.returncode, alone.stderr), (0, ""))
        with open(f"{self.room}/steps", "w", encoding="utf-8") as file:
            file.write(alone.stdout)
        run = self.asl("run", "d.json", "m.json", "M#bad", "{}", "--steps", "steps", "--format", "json")
        events = run.stdout.splitlines()
        self.assertEqual(len(events), bad["events"])
        self.assertIn('"B"', events[-1])

    def test_answers_that_are_shared(self):
        suite = tests(("ab", [1, 2], "SUCCEEDED", {}), ("aa", [1, 2], "SUCCEEDED", {"output": ["a", "a"], "invocations": {"T": 2}}), ("aa", [1], "SUCCEEDED", {"match": ["a"]}))
        self.assertEqual(self.reported(SHARED, SHARED_MOCKS, suite)[0], 0)
        status, lines, told = self.reported(SHARED, SHARED_MOCKS, suite, "--orders")
        self.assertEqual(status, 1)
        self.assertEqual([it.split()[0] for it in lines], ["endless", "ok", "ok", "2"])
        self.assertEqual(told[0], 'test 1 "M#ab": endless: an order of its branches never ends')
        alone = json.loads(self.on_suite(SHARED, SHARED_MOCKS, suite, "--orders", "--format", "json").stdout.splitlines()[0])["alone"]
        self.assertEqual(alone, "asl explore 'd.json' 'm.json' --test 's.json#1' --prompt")
        self.assertIn("\nendless\n", self.asl("explore", "d.json", "m.json", "--test", "s.json#1", "--prompt").stdout)

    def test_each_member_is_judged(self):
        other = {"StartAt": "M", "States": {"M": {"Type": "Map", "End": True, "ItemProcessor": {"StartAt": "T", "States": {"T": TASK}}}}}
        for more, verdict in [({"output": ["a", "b"]}, "output"), ({"match": ["a", "b"]}, "match"), ({"invocations": {"T": 2}}, "ok"), ({"visits": {"T": 2}}, "ok"),
                              ({"calls": {"T": [1, 2]}}, "ok")]:
            with self.subTest(more):
                suite = tests(("ab", [1, 2], "SUCCEEDED", more))
                self.assertEqual(self.reported(other, SHARED_MOCKS, suite)[1][0].split()[0], "ok")
                self.assertEqual(self.reported(other, SHARED_MOCKS, suite, "--orders")[1][0].split()[0], verdict)

    def test_invocations_are_counted_in_every_order(self):
        """Two branches fail; the Task behind the second one's Pass is invoked or not, and the execution ends alike."""
        branches = [{"StartAt": "F", "States": {"F": {"Type": "Fail", "Error": "E"}}},
                    {"StartAt": "W", "States": {"W": {"Type": "Pass", "Next": "T"}, "T": TASK}}]
        definition = {"StartAt": "P", "States": {"P": {"Type": "Parallel", "End": True, "Branches": branches}}}
        for count, verdicts in [(0, ("ok", "invocations")), (1, ("invocations", "invocations"))]:
            suite = tests(("aa", {}, "FAILED", {"error": "E", "invocations": {"T": count}}))
            for words, verdict in zip([(), ("--orders",)], verdicts):
                with self.subTest(count=count, words=words):
                    self.assertEqual(self.reported(definition, SHARED_MOCKS, suite, *words)[1][0].split()[0], verdict)
        suite = tests(("aa", {}, "FAILED", {"error": "E", "invocations": {"T": 0}}))
        report = json.loads(self.on_suite(definition, SHARED_MOCKS, suite, "--orders", "--format", "json").stdout)
        self.assertEqual(report["alone"], "asl explore 'd.json' 'm.json' --test 's.json#1' --prompt --calls")
        self.assertIn("end alike invoke a Task more or less often", report["difference"])
        self.assertIn('calls "T" 0-1', self.asl("explore", "d.json", "m.json", "--test", "s.json#1", "--prompt", "--calls").stdout)
        self.assertEqual(self.reported(definition, SHARED_MOCKS, tests(("aa", {}, "FAILED", {"invocations": {"No such": 0}})), "--orders")[1][0].split()[0], "ok")

    def test_late_branches(self):
        suite = tests(("", {}, "FAILED", {"error": "E1"}))
        self.assertEqual(self.reported(WAITS, {"StateMachines": {}, "MockedResponses": {}}, suite, "--orders")[0], 0)
        ran = self.on_suite(WAITS, {"StateMachines": {}, "MockedResponses": {}}, suite, "--orders", "--every", "--format", "json")
        report = json.loads(ran.stdout)
        self.assertEqual((ran.returncode, report["verdict"], report["outcomes"]), (1, "error", 2))
        self.assertRegex(report["alone"], r" --test 's\.json#1' --witness 2$")

    # ---- what is not tried

    def test_a_search_that_is_cut(self):
        suite = tests(("good", {}, "SUCCEEDED", {}))
        status, lines, told = self.reported(BOTH, BOTH_MOCKS, suite, "--orders", "--limit", "1")
        self.assertEqual((status, lines[0].split()[:3]), (1, ["cut", "M#good", "SUCCEEDED"]))
        self.assertRegex(told[0], r'^test 1 "M#good": cut: the search was cut behind \d+ worlds; --limit tries more$')
        self.assertEqual(self.reported(BOTH, BOTH_MOCKS, suite, "--orders", "--limit", "100")[0], 0)

    def test_tests_that_are_reported_as_without(self):
        steps = ["/ 2024-01-01T00:00:00.000Z", "/1 2024-01-01T00:00:01.000Z", "/ 2024-01-01T00:00:01.000Z"]
        suite = tests(("bad", {}, "FAILED", {"error": "B", "steps": steps}), ("bad", {}, "SUCCEEDED", {}), ("lost", {}, "FAILED", {}))
        plain, ordered = self.on_suite(BOTH, BOTH_MOCKS, suite), self.on_suite(BOTH, BOTH_MOCKS, suite, "--orders")
        self.assertEqual((plain.stdout, plain.stderr, plain.returncode), (ordered.stdout, ordered.stderr, ordered.returncode))

    def test_doubts_stay(self):
        suite = tests(("", {}, "FAILED", {}))
        status, lines, told = self.reported(BOTH, BOTH_MOCKS, suite, "--orders")
        self.assertEqual((status, lines[0].split()[0]), (0, "ok"))
        self.assertIn("its run lacked an answer", told[0])
        status, lines, told = self.reported(BOTH, BOTH_MOCKS, suite, "--orders", "--strict")
        self.assertEqual((status, lines[0].split()[0]), (1, "unanswered"))

    # ---- words, workers and formats

    def test_words(self):
        suite = tests(("good", {}, "SUCCEEDED", {}))
        for words in (["--every"], ["--limit", "5"], ["--every", "--limit", "5"], ["--orders", "--limit", "0"], ["--orders", "--limit", "x"]):
            with self.subTest(words):
                ran = self.on_suite(BOTH, BOTH_MOCKS, suite, *words)
                self.assertEqual((ran.returncode, ran.stdout), (2, ""))
                self.assertIn("--every" if "--every" in words else "--limit", ran.stderr)
        quiet = self.on_suite(BOTH, BOTH_MOCKS, suite, "--orders", "--quiet")
        self.assertEqual((quiet.returncode, quiet.stderr), (0, ""))

    def test_any_number_of_workers(self):
        suite = tests(*[("bad", {}, "FAILED", {"error": it}) for it in "AB" * 4], *[("good", {}, "SUCCEEDED", {})] * 8)
        ran = [self.on_suite(BOTH, BOTH_MOCKS, suite, "--orders", "--workers", str(it)) for it in (1, 2, 8)]
        self.assertEqual({(it.stdout, it.stderr, it.returncode) for it in ran}, {(ran[0].stdout, ran[0].stderr, 1)})

    def test_formats_tell_the_same(self):
        suite = tests(("bad", {}, "FAILED", {"error": "A"}), ("good", {}, "SUCCEEDED", {}))
        ran = self.on_suite(BOTH, BOTH_MOCKS, suite, "--orders", "--junit", "j.xml", "--json", "j.json")
        told = ran.stderr.splitlines()[0].split(": ", 1)[1]
        with open(f"{self.room}/j.xml", encoding="utf-8") as file:
            junit = file.read()
        self.assertEqual(len(re.findall("<failure ", junit)), 1)
        self.assertIn('type="error"', junit)
        self.assertIn("--witness", junit)
        with open(f"{self.room}/j.json", encoding="utf-8") as file:
            self.assertEqual(json.loads(file.readline())["difference"], told)

    # ---- beside explore

    def test_examples(self):
        """A test that expects a status alone is `ok` exactly where each outcome that `explore --prompt` lists has it."""
        seen = set()
        for suite in sorted(glob.glob(f"{TOP}/examples/*/expectations.json")):
            folder = os.path.dirname(suite)
            with open(suite, encoding="utf-8") as file:
                plain = [{it: test[it] for it in ("machine", "case", "input", "status") if it in test} for test in json.load(file) if "input" in test]
            with open(f"{self.room}/s.json", "w", encoding="utf-8") as file:
                json.dump(plain, file)
            files = [f"{folder}/definition.json", f"{folder}/mocks.json"]
            reports = [json.loads(it) for it in self.asl("test", *files, "s.json", "--orders", "--format", "json").stdout.splitlines()]
            self.assertEqual(len(reports), len(plain))
            for number, (test, report) in enumerate(zip(plain, reports), 1):
                with self.subTest(folder=folder, number=number):
                    found = self.asl("explore", *files, "--test", f"s.json#{number}", "--prompt").stdout
                    outcomes = re.findall(r"^outcome \d+ (\w+)", found, re.M)
                    self.assertTrue(outcomes)
                    self.assertEqual(report["verdict"] == "ok", set(outcomes) == {test["status"]} and "\nendless\n" not in found and found.startswith("search complete"))
                    if report["verdict"] == "ok":
                        self.assertEqual(report["outcomes"], len(outcomes))
                        seen.add(len(outcomes) > 1)
        self.assertEqual(seen, {True, False})
