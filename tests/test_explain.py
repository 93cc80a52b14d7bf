"""What `explain` says: of each code that a command prints, with examples that have it, and others that don't."""
import json
import os
import re
import shlex
import subprocess
import tempfile
import unittest

from program import PROGRAM, TOP, run_program

FORMATS = f"{TOP}/docs/FORMATS.md"
FAULT = re.compile(r"^\| ([FMJXKQESH]\d+) ([A-Z]\w+)", re.M)
EXAMPLES = re.compile(r"\nWrong(?:, beside (.*))?:\n((?:    .*\n)+)Right:\n((?:    .*\n)+)")
# What files an example is tried with, where it is one of them.
DEFINITION = """{"StartAt": "Charge", "States": {"Charge": {"Type": "Task", "Resource": "r", "Next": "Paid"},
 "Paid": {"Type": "Succeed"}}}"""
ANSWERED = """{"StateMachines": {"Orders": {"TestCases": {"paid": {"Charge": "Charged"}}}},
 "MockedResponses": {"Charged": {"0": {"Return": {"charged": true}}}}}"""
WAIT = '{"StartAt": "A", "States": {"A": {"Type": "Wait", "Seconds": 5, "End": true}}}'
BREAKING = '{"StartAt": "Ship", "States": {"Ship": {"Type": "Succeed"}}}'


def explained(code):
    ran = run_program("explain", code)
    return ran.stdout if (ran.returncode, ran.stderr) == (0, "") else None


def listed():
    """The lines of all codes, by the code."""
    ran = run_program("explain")
    if (ran.returncode, ran.stderr) != (0, ""):
        raise AssertionError(ran)
    return {re.match(r"[^ :]+", line)[0]: line for line in ran.stdout.splitlines()}


def section(name):
    """A section of FORMATS."""
    with open(FORMATS, encoding="utf-8") as file:
        return re.search(rf"^## {name}\n(.*?)^## ", file.read(), re.M | re.S)[1]


class ExplainTest(unittest.TestCase):
    @classmethod
    def setUpClass(cls):
        cls.lines = listed()

    def setUp(self):
        room = tempfile.TemporaryDirectory(prefix="asl-test-")
        self.addCleanup(room.cleanup)
        self.room = room.name

    def ran(self, *words, **texts):
        for name, text in texts.items():
            with open(os.path.join(self.room, name), "w", encoding="utf-8") as file:
                file.write(text)
        return subprocess.run([PROGRAM, *words], cwd=self.room, stdin=subprocess.DEVNULL, capture_output=True, encoding="utf-8", timeout=60)

    # ---- which codes there are

    def test_each_code_of_a_table(self):
        with open(FORMATS, encoding="utf-8") as file:
            text = file.read()
        codes = {**dict(FAULT.findall(text)), **dict(re.findall(r"`(H\d) (\w+)", text)), "F16": "OutOfMemory", "F1": "Json"}
        codes.update(re.findall(r"\b(M[78]|E[12]) (\w+)", text))
        self.assertEqual(sorted(codes, key=lambda it: (it[0], int(it[1:]))),
                         [f"{letter}{number}" for letter, most in zip("EFHJKMQSX", (2, 16, 6, 7, 6, 8, 2, 9, 4)) for number in range(1, most + 1)])
        for code, name in codes.items():
            with self.subTest(code=code):
                self.assertTrue(self.lines[code].startswith(f"{code} {name}: "), self.lines[code])

    def rules(self):
        """The rules of lint, as a log in SARIF has them."""
        log = json.loads(self.ran("lint", "d", "--format", "sarif", d=BREAKING).stdout)
        return [rule["id"] for rule in log["runs"][0]["tool"]["driver"]["rules"]]

    def test_each_rule_of_lint(self):
        rules = self.rules()
        self.assertGreater(len(rules), 38)
        self.assertEqual([it for it in rules if it not in self.lines], [])

    def test_each_rule_of_lint_has_a_row(self):
        rows = re.findall(r"^\| `([a-z]+(?:-[a-z]+)+)` \| ", section("Findings") + section("Warnings"), re.M)
        self.assertEqual(sorted(rows), sorted(it for it in self.rules() if "-" in it))

    def test_each_verdict_and_each_error(self):
        verdicts = re.findall(r"^\| `(\w+)` \| ", section("Reports of a suite"), re.M)
        self.assertLessEqual({"nocase", "limit", "status", "output", "visits", "ok"}, set(verdicts))
        errors = set(re.findall(r"^\| `(States\.\w+)` \| ", section("States that run"), re.M)) | {"States.Timeout"}
        self.assertGreater(len(errors), 5)
        formats = {"text", "junit", "json"}
        self.assertEqual([it for it in [*verdicts, *errors] if it not in self.lines and it not in formats], [])

    def test_each_answer_of_the_debugger(self):
        words = re.findall(r"^\| (?:`\w+` )?\| `([A-Z]\w+)` \| ", section("The text of a session"), re.M)
        self.assertLessEqual({"NoSuchState", "NotPaused", "NoSuchPlace", "TooFar"}, set(words))
        self.assertEqual([it for it in words if not explained(it)], [])

    # ---- how it is asked and answered

    def test_each_code_stands_for_itself(self):
        # (nocase is also the name of M8, but for the case of letters)
        names = {name.lower() for name in re.findall(r"^\S+ (\w+): ", "\n".join(self.lines.values()), re.M)}
        for code, line in self.lines.items():
            with self.subTest(code=code):
                for word in [code] if code in names else (code, code.lower(), code.upper()):
                    self.assertEqual(explained(word).split("\n")[:2], [line, ""])
        self.assertTrue(explained("NoCase").startswith("M8 NoCase: "))

    def test_each_name_is_a_code(self):
        for line in self.lines.values():
            name = re.match(r"\S+ (\w+): ", line)
            if name:
                first = next(it for it in self.lines.values() if it.split(":")[0].endswith(f" {name[1]}"))
                first = self.lines.get(name[1], first)
                for word in [name[1]] if name[1].lower() in self.lines else (name[1], name[1].lower()):
                    self.assertEqual(explained(word).split("\n")[0], first)
        self.assertTrue(explained("NoSuchState").startswith("NoSuchState: "))

    def test_texts_are_of_a_form(self):
        for code, line in self.lines.items():
            with self.subTest(code=code):
                text = explained(code)
                self.assertTrue(text.startswith(f"{line}\n\n") and text.endswith(".\n"))
                lines = text.split("\n")
                self.assertLessEqual(max(map(len, lines)), 100)
                self.assertLessEqual(len(lines), 22)
                self.assertEqual(sum(it.startswith("Told by ") for it in lines), 1)
                self.assertRegex(line, r"\A[\w.-]+( \w+)?: [^.:]")

    def test_an_unknown_code_is_refused(self):
        for word, like in (("F99", "F9"), ("NoTarge", "NoTarget"), ("no-defult", "no-default"), ("States.Timout", "States.Timeout")):
            with self.subTest(word=word):
                ran = run_program("explain", word)
                self.assertEqual((ran.returncode, ran.stdout), (2, ""))
                lines = ran.stderr.splitlines()
                self.assertEqual(lines[0], f"fault: code {word}")
                self.assertEqual(len(lines), 2)
                self.assertTrue(lines[1].startswith(f'asl explain: error: nothing is explained under "{word}"; did you mean "'), lines[1])
                if word != "F99":
                    self.assertIn(f'"{like}"?', lines[1])
        for word, shown in (("", ""), ("what is that?", "what is that?"), ("a\nb", "a\\u000ab")):
            ran = run_program("explain", word)
            self.assertEqual((ran.returncode, ran.stdout, ran.stderr.splitlines()[0]), (2, "", f"fault: code {shown}"))
            self.assertNotIn("did you mean", ran.stderr)

    def test_one_word_is_the_most(self):
        ran = run_program("explain", "F1", "F2")
        self.assertEqual((ran.returncode, ran.stdout), (2, ""))
        self.assertIn("unexpected argument 'F2'", ran.stderr)

    # ---- that the examples are right

    def told(self, code, text, beside):
        """The codes that the program tells of an example, by its family."""
        if code in ("M7", "M8"):
            ran = self.ran("run", "d", "m", text.strip(), "i", d=DEFINITION, m=beside, i="{}")
            return re.findall(r"^fault: case: (\w+)", ran.stderr)
        if code.startswith("States."):
            ran = self.ran("run", "d", "m", "M", "i", d=text, m="{}", i='{"n": 7}')
            return re.findall(r"^status \w+ .*?\"Error\":\"([\w.]+)\"", ran.stdout, re.M)
        if re.fullmatch(r"F\d+", code):
            return re.findall(r"^fault: definition: (\w+)", self.ran("check", "d", d=text).stderr)
        if re.fullmatch(r"M\d+", code):
            return re.findall(r"^fault: mocks: (\w+)", self.ran("run", "d", "m", "Orders", "i", d=DEFINITION, m=text, i="{}").stderr)
        if re.fullmatch(r"J\d", code):
            return re.findall(r"^fault: input: (\w+)", self.ran("run", "d", "m", "M", "i", d=BREAKING, m="{}", i=text).stderr)
        if re.fullmatch(r"X\d", code):
            return re.findall(r"^fault: expectations: (\w+)", self.ran("test", "d", "m", "e", d=DEFINITION, m=ANSWERED, e=text).stderr)
        if re.fullmatch(r"K\d", code):
            return re.findall(r"^fault: project: (\w+)", self.ran("check", "--project", "p", p=text).stderr)
        if re.fullmatch(r"Q\d", code):
            words = shlex.split(text)
            tasks = {name: {"Type": "Task", "Resource": "r", "Next": behind} for name, behind in (("Charge", "Ship"), ("Ship", "Refund"), ("Refund", "Done"))}
            definition = {"StartAt": "Charge", "States": {**tasks, "Done": {"Type": "Succeed"}}}
            return re.findall(r"^fault: rule: (\w+)", self.ran("explore", "d", "--errors", "0", *words, d=json.dumps(definition)).stderr)
        if code == "E1":
            ran = self.ran("run", "d", "m", "M", "i", "--steps", "s", d=BREAKING, m="{}", i="{}", s=text)
            return re.findall(r"^fault: steps: (\w+)", ran.stderr)
        if code == "E2":
            return re.findall(r"^fault: script: (\w+)", self.ran("debug", "d", "m", "M", "i", "s", d=BREAKING, m="{}", i="{}", s=text).stderr)
        if re.fullmatch(r"S\d", code):
            ran = self.ran("run", "d", "m", "M", "i", "--steps", "s", d=WAIT, m="{}", i="{}", s=text)
            self.assertEqual(ran.stdout.count("\nstep ") + 1, text.count("\n"), ran)
            return re.findall(r"^step \S+ (S\d)", ran.stdout, re.M)
        if code == "kind":
            texts = {"definition.json": DEFINITION, "mocks.json": ANSWERED, "input.json": "{}"}
            return re.findall(r"error (kind): ", self.ran(*text.split()[1:], **texts).stdout)
        if code in ("unknown-state", "not-a-task", "unanswered-task", "unused-response", "missing-answer"):
            return re.findall(r"(?:error|warning) ([\w-]+): ", self.ran("lint", "d", "m", d=DEFINITION, m=text).stdout)
        if "-" in code:
            return re.findall(r"(?:error|warning) ([\w-]+): ", self.ran("lint", "d", d=text).stdout)
        ran = self.ran("test", "d", "m", "e", d=DEFINITION, m=ANSWERED, e=text)
        self.assertIn(" passed, ", ran.stdout, ran)
        return [word for word in re.findall(r"^(\w+) Orders#", ran.stdout, re.M) if word != "ok"]

    def test_examples(self):
        count = 0
        for code in self.lines:
            for beside, wrong, right in EXAMPLES.findall(explained(code)):
                with self.subTest(code=code):
                    wrong, right = re.sub("^    ", "", wrong, flags=re.M), re.sub("^    ", "", right, flags=re.M)
                    self.assertIn(code, self.told(code, wrong, beside))
                    self.assertEqual(self.told(code, right, beside), [])
                    count += 1
        self.assertGreater(count, 45)


if __name__ == "__main__":
    unittest.main()
