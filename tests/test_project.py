"""The project file: what check, lint and test do for its workflows, and what is told of one that is refused."""
import json
import os
import subprocess
import tempfile
import unittest
from xml.etree import ElementTree

from program import PROGRAM

TASK = '{"StartAt":"T","States":{"T":{"Type":"Task","Resource":"r","End":true}}}'
# A warning, and no error: no-default.
CHOICE = """{"StartAt":"C","States":{"C":{"Type":"Choice","Choices":[{"Variable":"$.a","BooleanEquals":true,"Next":"S"}]},
"S":{"Type":"Succeed"}}}"""
FAULTY = '{"StartAt":"A","States":{"A":{"Type":"Pass","Next":"B"}}}'
MOCKS = '{"StateMachines":{"M":{"TestCases":{"A":{"T":"one"}}}},"MockedResponses":{"one":{"0":{"Return":1}}}}'
PASSES = [{"machine": "M", "case": "A", "input": {}, "status": "SUCCEEDED", "output": 1}]
FAILS = [{"machine": "M", "case": "A", "input": {}, "status": "FAILED"}]

TWO = """\
[[workflow]]
definition = "task.json"
mocks = "mocks.json"
machine = "M"
tests = ["passes.json", "fails.json"]

[[workflow]]
definition = "choice.json"
"""

# Texts that are no project, and the faults that are told.
REFUSED = [
    ("x = ", "K1 Syntax 1:5"),
    ("[[workflow]]\ndefinition = order\n", "K1 Syntax 2:14"),
    ("[[workflow]]\ndefinition = \"a\"\n  mock = \"b\"\n", "K2 Key 3:3"),
    ("title = \"a\"\n", "K2 Key 1:1"),
    ("[[workflow]]\ndefinition = \"a\"\n[[workflow]]\n", "K2 Key 3:1"),
    ("[[workflow]]\ndefinition = \"a\"\ntests = []\n", "K2 Key 1:1"),
    ("[[workflow]]\ndefinition = 1\n", "K3 Type 2:1"),
    ("[workflow]\ndefinition = \"a\"\n", "K3 Type 1:1"),
    ("[[workflow]]\ndefinition = \"a\"\nmachine = \"A\"\n[[workflow]]\ndefinition = \"b\"\nmachine = 'A'\n", "K4 Machine 6:1"),
    # Of several the least number.
    ("[[workflow]]\ndefinition = 1\n[[workflow]]\nmock = 1\n", "K2 Key 4:1"),
]


class ProjectTest(unittest.TestCase):
    maxDiff = None

    def setUp(self):
        room = tempfile.TemporaryDirectory(prefix="asl-test-")
        self.addCleanup(room.cleanup)
        self.room = room.name
        self.write("task.json", TASK)
        self.write("choice.json", CHOICE)
        self.write("faulty.json", FAULTY)
        self.write("mocks.json", MOCKS)
        self.write("passes.json", json.dumps(PASSES))
        self.write("fails.json", json.dumps(FAILS))

    def write(self, name, text):
        os.makedirs(os.path.dirname(os.path.join(self.room, name)), exist_ok=True)
        with open(os.path.join(self.room, name), "w", encoding="utf-8") as file:
            file.write(text)

    def ran(self, *words):
        ran = subprocess.run([PROGRAM, *words], cwd=self.room, stdin=subprocess.DEVNULL, capture_output=True, encoding="utf-8", timeout=60)
        return ran.returncode, ran.stdout, ran.stderr

    def one_after_another(self, *lines):
        """What these command lines print and tell, and the highest status."""
        all_ran = [self.ran(*words) for words in lines]
        return max(it[0] for it in all_ran), "".join(it[1] for it in all_ran), "".join(it[2] for it in all_ran)

    def test_each_workflow(self):
        """Each command does what it does for the files of one workflow after another."""
        self.write("asl.toml", TWO)
        self.assertEqual(self.ran("check"), self.one_after_another(["check", "task.json"], ["check", "choice.json"]))
        for options in ([], ["--strict"], ["--format", "json"], ["--strict", "--format", "json"]):
            with self.subTest(options=options):
                wanted = self.one_after_another(["lint", "task.json", "mocks.json", "M", *options], ["lint", "choice.json", *options])
                self.assertEqual(self.ran("lint", *options), wanted)
        for options in ([], ["--list"], ["--workers", "4"], ["--filter", "nothing"], ["--format", "json"], ["--coverage"], ["--min", "100"], ["--shard", "1/2"]):
            with self.subTest(options=options):
                files = ("passes.json", "fails.json")
                status, printed, told = self.one_after_another(*(["test", "task.json", "mocks.json", file, *options] for file in files))
                self.assertEqual(self.ran("test", *options), (status, printed + self.counts(options, files), told))

    def test_each_case_is_explored(self):
        """explore does what it does for each test case of each workflow with a mock file, behind the name of the case."""
        cases = '{"StateMachines":{"M":{"TestCases":{"A":{"T":"one"},"B":{}}},"N":{"TestCases":{"C":{"T":"one"}}}},"MockedResponses":{"one":{"0":{"Return":1}}}}'
        self.write("cases.json", cases)
        of_m = '[[workflow]]\ndefinition = "task.json"\nmocks = "cases.json"\nmachine = "M"\ninput = "passes.json"\n'
        of_all = '[[workflow]]\ndefinition = "task.json"\nmocks = "cases.json"\n'
        without_mocks = '[[workflow]]\ndefinition = "choice.json"\n'
        for project, wanted in (
            (without_mocks + of_m, [("M#A", "passes.json"), ("M#B", "passes.json")]),
            (of_all, [("M#A", "{}"), ("M#B", "{}"), ("N#C", "{}")]),
            (TWO + of_m.replace('"M"', '"N"'), [("M#A", "{}"), ("N#C", "passes.json")]),
            (without_mocks, []),
        ):
            self.write("asl.toml", project)
            for options in ([], ["--prompt", "--calls"], ["--limit", "1"], ["--quiet"]):
                with self.subTest(project=project, options=options):
                    status, printed, told = 0, "", ""
                    for chosen, given in wanted:
                        mocks = "mocks.json" if project.startswith(TWO) and chosen == "M#A" else "cases.json"
                        one = self.ran("explore", "task.json", mocks, chosen, given, *options)
                        status, printed, told = max(status, one[0]), f'{printed}case "{chosen}"\n{one[1]}\n', told + one[2]
                    self.assertEqual(self.ran("explore", *options), (status, printed, told))
                    self.assertEqual(self.ran("explore", *options, "--project", "asl.toml"), (status, printed, told))

    def test_what_can_t_be_explored_is_told(self):
        workflow = '[[workflow]]\ndefinition = "task.json"\nmocks = "mine.json"\nmachine = "M"\n'
        self.write("asl.toml", workflow + workflow.replace("mine", "mocks").replace('"M"', '"N"'))
        # A machine that has no test case is explored without one, behind a file that can't be read.
        alone = self.ran("explore", "task.json", "mocks.json", "N", "{}", "--quiet")
        self.assertEqual((alone[0], self.ran("explore", "--quiet")), (1, (2, f'case "N"\n{alone[1]}\n', "fault: file mine.json\n" + alone[2])))
        self.write("asl.toml", workflow)
        for mocks in ("{", "[]", '{"StateMachines":{}}', MOCKS.replace('"0"', '"x"'), '{"StateMachines":{"M":{"TestCases":{}}},"MockedResponses":{}}'):
            with self.subTest(mocks=mocks):
                self.write("mine.json", mocks)
                alone = self.ran("explore", "task.json", "mine.json", "M#A" if '"x"' in mocks else "M", "{}")
                self.assertNotEqual(alone[0], 0)
                name = 'case "M"\n' if alone[1] else ""
                self.assertEqual(self.ran("explore"), (alone[0], name + alone[1] + ("\n" if name else ""), alone[2]))
        self.write("asl.toml", '[[workflow]]\ndefinition = "faulty.json"\nmocks = "mocks.json"\n')
        self.assertEqual(self.ran("explore"), self.ran("explore", "faulty.json", "mocks.json", "M#A", "{}"))

    def counts(self, options, files):
        """How many of these files passed and failed, which stands behind reports for people."""
        if "--list" in options or "json" in options:
            return ""
        statuses = [self.ran("test", "task.json", "mocks.json", file, *options)[0] for file in files]
        return f"files: {statuses.count(0)} passed, {statuses.count(1)} failed, {statuses.count(2)} refused\n"

    def read(self, name):
        with open(os.path.join(self.room, name), encoding="utf-8") as file:
            return file.read()

    def test_one_report(self):
        """The reports of all files are one document of JUnit's, and one of lines, printed or written."""
        self.write("asl.toml", TWO)
        status, printed, told = self.ran("test", "--junit", "all.xml", "--json", "all.jsonl")
        self.assertEqual((status, printed, told), self.ran("test"))
        self.assertEqual(self.read("all.jsonl"), self.ran("test", "--format", "json")[1])
        self.assertEqual(self.read("all.xml"), self.ran("test", "--format", "junit")[1])
        root = ElementTree.fromstring(self.read("all.xml"))
        self.assertEqual(("testsuites", {}, ["passes.json", "fails.json"]), (root.tag, root.attrib, [it.get("name") for it in root]))
        for suite, file in zip(root, ("passes.json", "fails.json")):
            alone = ElementTree.fromstring(self.ran("test", "task.json", "mocks.json", file, "--format", "junit")[1])
            self.assertEqual(ElementTree.tostring(alone[0]).rstrip(), ElementTree.tostring(suite).rstrip())
        # A file that is refused has no tests in them; what is told of it stands where the others' reasons do.
        self.write("asl.toml", TWO.replace('"passes.json", ', '"lost.json", '))
        status, printed, told = self.ran("test", "--junit", "all.xml")
        self.assertEqual((2, True, True), (status, printed.endswith("\nfiles: 0 passed, 1 failed, 1 refused\n"), told.startswith("fault: file lost.json\n")))
        self.assertEqual(["fails.json"], [it.get("name") for it in ElementTree.fromstring(self.read("all.xml"))])
        # Of one file there is no line behind its report, and of none no report.
        self.write("asl.toml", TWO.replace('"passes.json", ', ""))
        self.assertEqual(self.ran("test"), self.ran("test", "task.json", "mocks.json", "fails.json"))
        self.write("asl.toml", '[[workflow]]\ndefinition = "choice.json"\n')
        self.assertEqual(self.ran("test"), (0, "", ""))
        self.assertEqual(self.ran("test", "--junit", "no/all.xml"), (2, "", "fault: file no/all.xml: there is no folder for it\n"))

    def test_highest_status(self):
        self.write("asl.toml", '[[workflow]]\ndefinition = "faulty.json"\n[[workflow]]\ndefinition = "task.json"\n')
        status, printed, told = self.ran("check")
        self.assertEqual((status, printed), (2, "ok\n"))
        self.assertTrue(told.startswith("fault: definition: F10 NoTarget /States/A/Next\nfaulty.json:1:"), told)
        self.assertEqual(self.ran("lint")[0], 1)
        self.write("asl.toml", '[[workflow]]\ndefinition = "task.json"\nmocks = "mocks.json"\ntests = ["passes.json"]\n')
        self.assertEqual(self.ran("test")[0], 0)
        self.write("asl.toml", '[[workflow]]\ndefinition = "missing.json"\n')
        self.assertEqual(self.ran("check"), (2, "", "fault: file missing.json\n"))

    def test_ignored_rules(self):
        """Warnings of these rules aren't told, and errors are."""
        self.write("asl.toml", '[[workflow]]\ndefinition = "choice.json"\n')
        self.assertEqual(self.ran("lint", "--strict")[0], 1)
        self.write("asl.toml", '[[workflow]]\ndefinition = "choice.json"\nignore = ["no-default"]\n')
        self.assertEqual(self.ran("lint", "--strict"), (0, "no findings\n", ""))
        self.write("asl.toml", '[[workflow]]\ndefinition = "faulty.json"\nignore = ["F10"]\n')
        self.assertEqual(self.ran("lint"), self.ran("lint", "faulty.json"))

    def test_rules_that_the_command_line_ignores(self):
        """They are added to those of each workflow."""
        first = '[[workflow]]\ndefinition = "choice.json"\n'
        self.write("asl.toml", first)
        self.assertEqual(self.ran("lint", "--strict", "--ignore", "no-default"), (0, "no findings\n", ""))
        self.assertEqual(self.ran("lint", "--strict", "--ignore", "own-default"), self.ran("lint", "--strict"))
        for own, named in (("own-default", "no-default"), ("no-default", "own-default")):
            self.write("asl.toml", f'{first}ignore = ["{own}"]\n')
            self.assertEqual(self.ran("lint", "--strict", "--ignore", named), (0, "no findings\n", ""))
        self.write("asl.toml", first + first + 'ignore = ["no-default"]\n')
        self.assertEqual(self.ran("lint", "--strict", "--ignore", "no-default"), (0, "no findings\nno findings\n", ""))

    def test_one_workflow(self):
        """run, debug and explore find the files of the workflow that is of a machine."""
        self.write("asl.toml", TWO + '\n[[workflow]]\ndefinition = "task.json"\nmocks = "mocks.json"\nmachine = "N"\ninput = "passes.json"\n')
        self.write("script.txt", "step / 2024-01-01T00:00:00Z\n")
        for command, options in (
            ("run", []),
            ("run", ["--format", "tree"]),
            ("run", ["--max-steps", "1"]),
            ("debug", ["--script", "script.txt"]),
            ("explore", ["--prompt", "--calls"]),
            ("explore", ["--witness", "1", "--format", "tree"]),
        ):
            for given, wanted in (
                (["M#A"], ["M#A", "{}"]),
                (["M"], ["M", "{}"]),
                (["M#A", '{"a":1}'], ["M#A", '{"a":1}']),
                (["--case", "M#A", "--input", "passes.json"], ["M#A", "passes.json"]),
            ):
                with self.subTest(command=command, options=options, given=given):
                    named = self.ran(command, "task.json", "mocks.json", *wanted, *options)
                    self.assertEqual(self.ran(command, *given, "--project", "asl.toml", *options), named)
                    if "#" in given[0]:
                        self.assertEqual(self.ran(command, *given, *options), named)
        # Its machine isn't in the mock file.
        self.assertEqual(self.ran("run", "N#A"), self.ran("run", "task.json", "mocks.json", "N#A", "passes.json"))

    def test_machine_without_a_name(self):
        """A workflow that doesn't say of which machine it is stands behind those that do."""
        self.write("asl.toml", '[[workflow]]\ndefinition = "choice.json"\n[[workflow]]\ndefinition = "task.json"\nmocks = "mocks.json"\nmachine = "M"\n')
        self.assertEqual(self.ran("run", "M#A")[0], 0)
        self.write("asl.toml", '[[workflow]]\ndefinition = "task.json"\nmocks = "mocks.json"\n')
        self.assertEqual(self.ran("run", "M#A")[0], 0)
        self.write("asl.toml", '[[workflow]]\ndefinition = "choice.json"\n')
        for command in ("run", "debug", "explore"):
            self.assertEqual(self.ran(command, "M#A", "--quiet"), (2, "", "fault: case: M7 NoMachine\n"))
        self.write("asl.toml", TWO)
        self.assertEqual(
            self.ran("run", "N#A"),
            (2, "", 'fault: case: M7 NoMachine\nasl.toml: error: no workflow with mocks is of the machine of "N#A"; there are "M"\n'),
        )

    def test_another_file(self):
        """Paths go from its folder."""
        self.write("below/deep/my.toml", '[[workflow]]\ndefinition = "../../faulty.json"\n')
        status, printed, told = self.ran("check", "--project", "below/deep/my.toml")
        self.assertEqual((status, printed), (2, ""))
        self.assertTrue(told.startswith("fault: definition: F10 NoTarget /States/A/Next\nbelow/deep/../../faulty.json:1:"), told)
        self.assertEqual(self.ran("check", "--project", "my.toml"), (2, "", "fault: file my.toml\n"))
        for command in ("check", "lint", "test", "explore"):
            self.assertEqual(self.ran(command), (2, "", "fault: file asl.toml\n"))

    def test_refused(self):
        for text, fault in REFUSED:
            for command in ("check", "lint", "test", "explore"):
                with self.subTest(text=text, command=command):
                    self.write("asl.toml", text)
                    status, printed, told = self.ran(command)
                    self.assertEqual((status, printed), (2, ""))
                    place = fault.rpartition(" ")[2]
                    self.assertRegex(told, rf"\Afault: project: {fault}\nasl\.toml:{place}: error: [^\n]+\n\Z")

    def test_misuse(self):
        self.write("asl.toml", TWO)
        for words in (
            ["check", "task.json", "--project", "asl.toml"],
            ["lint", "task.json", "--project", "asl.toml"],
            ["test", "task.json"],
            ["test", "task.json", "mocks.json"],
            ["test", "--list", "--junit", "report.xml"],
            ["run", "task.json", "mocks.json", "M#A", "{}", "--project", "asl.toml"],
            ["run", "M#A", "--project", "asl.toml", "--mocks", "mocks.json"],
            ["run", "M#A", "--project", "asl.toml", "--case", "M#A"],
            ["debug", "M#A", "{}", "--input", "{}"],
            ["explore", "--project", "asl.toml", "--witness", "1"],
            ["explore", "--input", "{}"],
            ["run", "--project", "asl.toml"],
            ["run", "task.json", "mocks.json"],
            ["run"],
        ):
            with self.subTest(words=words):
                status, printed, told = self.ran(*words)
                self.assertEqual((status, printed), (2, ""))
                self.assertTrue(told.startswith("error: "), told)
        self.assertFalse(os.path.exists(os.path.join(self.room, "report.xml")))


if __name__ == "__main__":
    unittest.main()
