"""Coverage: which points of a definition and of a mock file the tests of a suite cover, and what the command test tells of them."""
import json
import re

from program import TOP, ProgramTest, run_program

CHOICE = """{"StartAt":"C","States":{
"C":{"Type":"Choice","Choices":[{"Variable":"$.v","NumericEquals":1,"Next":"A"},{"Variable":"$.v","NumericEquals":2,"Next":"A"}],"Default":"B"},
"A":{"Type":"Pass","Next":"B"},"B":{"Type":"Succeed"}}}"""

CHOICE_POINTS = ['state "C"', 'rule 0 of "C" -> "A"', 'rule 1 of "C" -> "A"', 'Default of "C" -> "B"', 'state "A"', 'transition "A" -> "B"', 'state "B"']

# The rule decides, and then OutputPath names nothing.
LOST = """{"StartAt":"C","States":{
"C":{"Type":"Choice","InputPath":"$.in","OutputPath":"$.q","Choices":[{"Not":{"Variable":"$.v","NumericEquals":1},"Next":"B"}]},"B":{"Type":"Succeed"}}}"""

LOST_POINTS = ['state "C"', 'rule 0 of "C" -> "B"', 'state "B"']

# All goes on at B, so that only the emulator knows why.
TASK = """{"StartAt":"T","States":{
"T":{"Type":"Task","Resource":"r","Parameters":{"n.$":"$.n"},"ResultSelector":{"x.$":"$.x"},"ResultPath":"$.r","Next":"B",
"Retry":[{"ErrorEquals":["R"],"MaxAttempts":1},{"ErrorEquals":["S","States.Timeout"],"MaxAttempts":2}],
"Catch":[{"ErrorEquals":["R","E"],"Next":"B"},{"ErrorEquals":["States.ParameterPathFailure"],"ResultPath":null,"Next":"B"},
{"ErrorEquals":["States.ResultPathMatchFailure"],"ResultPath":null,"Next":"B"},{"ErrorEquals":["States.ALL"],"ResultPath":null,"Next":"B"}]},
"B":{"Type":"Succeed"}}}"""

TASK_MOCKS = """{"StateMachines":{"M":{"TestCases":{"good":{"T":"good"},"other":{"T":"other"},"retried":{"T":"retried"},
"twice":{"T":"twice"},"slow":{"T":"slow"},"odd":{"T":"odd"}}}},
"MockedResponses":{"good":{"0":{"Return":{"x":1}}},"other":{"0":{"Return":{"y":1}}},"retried":{"0":{"Throw":{"Error":"R"}},"1":{"Return":{"x":2}}},
"twice":{"0-1":{"Throw":{"Error":"R"}},"2-9":{"Return":{"x":3}}},"slow":{"0":{"Throw":{"Error":"States.Timeout"}},
"1":{"Throw":{"Error":"S"}},"2":{"Throw":{"Error":"S"}}},
"odd":{"0":{"Throw":{"Error":"Z"}}}}}"""

TASK_POINTS = [
    'state "T"', 'transition "T" -> "B"', 'retrier 0 of "T"', 'retrier 1 of "T"', 'catcher 0 of "T" -> "B"', 'catcher 1 of "T" -> "B"',
    'catcher 2 of "T" -> "B"', 'catcher 3 of "T" -> "B"', 'state "B"', 'answer "0" of response "good"', 'answer "0" of response "other"',
    'answer "0" of response "retried"', 'answer "1" of response "retried"', 'answer "0-1" of response "twice"', 'answer "2-9" of response "twice"',
    'answer "0" of response "slow"', 'answer "1" of response "slow"', 'answer "2" of response "slow"', 'answer "0" of response "odd"',
]

# A Parallel with a Map in a branch; a failure in the Map is retried there, and then caught by the Parallel.
NESTED = """{"StartAt":"P","States":{
"P":{"Type":"Parallel","Next":"Z","Catch":[{"ErrorEquals":["States.BranchFailed"],"Next":"Z"},{"ErrorEquals":["E"],"Next":"Y"}],"Branches":[
{"StartAt":"M","States":{"M":{"Type":"Map","End":true,"ItemsPath":"$.items","ItemSelector":{"i.$":"$$.Map.Item.Value.i"},
"Retry":[{"ErrorEquals":["E"],"MaxAttempts":1}],"Catch":[{"ErrorEquals":["States.ParameterPathFailure"],"Next":"N"}],
"ItemProcessor":{"StartAt":"T","States":{"T":{"Type":"Task","Resource":"r","End":true}}}},"N":{"Type":"Pass","End":true}}},
{"StartAt":"W","States":{"W":{"Type":"Wait","Seconds":1,"Next":"V"},"V":{"Type":"Pass","End":true}}}]},
"Y":{"Type":"Fail"},"Z":{"Type":"Succeed"}}}"""

NESTED_MOCKS = """{"StateMachines":{"M":{"TestCases":{"good":{"T":"good"},"bad":{"T":"bad"}}}},
"MockedResponses":{"good":{"0":{"Return":1},"1":{"Return":2},"2":{"Return":3}},"bad":{"0-5":{"Throw":{"Error":"E"}}}}}"""

NESTED_POINTS = [
    'state "P"', 'transition "P" -> "Z"', 'catcher 0 of "P" -> "Z"', 'catcher 1 of "P" -> "Y"', 'state "M"', 'retrier 0 of "M"', 'catcher 0 of "M" -> "N"',
    'state "T"', 'state "N"', 'state "W"', 'transition "W" -> "V"', 'state "V"', 'state "Y"', 'state "Z"',
    'answer "0" of response "good"', 'answer "1" of response "good"', 'answer "2" of response "good"', 'answer "0-5" of response "bad"',
]

# An older Map, whose time limit is over before the last state.
LIMITED = """{"StartAt":"M","TimeoutSeconds":5,"States":{
"M":{"Type":"Map","Next":"W","Iterator":{"StartAt":"I","States":{"I":{"Type":"Pass","End":true}}}},"W":{"Type":"Wait","Seconds":9,
"Next":"D"},"D":{"Type":"Succeed"}}}"""

LIMITED_POINTS = ['state "M"', 'transition "M" -> "W"', 'state "I"', 'state "W"', 'transition "W" -> "D"', 'state "D"']

# Names of any characters; a key of an answer with zeros before it; a case whose name is empty, which is never looked up.
NAMED = """{"StartAt":"a\\n\\"b","States":{"a\\n\\"b":{"Type":"Task","Resource":"r","Next":"\\u00e9"},"\\u00e9":{"Type":"Succeed"}}}"""

NAMED_MOCKS = """{"StateMachines":{"M":{"TestCases":{"c":{"a\\n\\"b":"r"},"":{"a\\n\\"b":"s\\t"}}}},
"MockedResponses":{"r":{"00":{"Return":1}},"s\\t":{"0":{"Return":1}},"none":{}}}"""

NAMED_POINTS = ['state "a\\n\\"b"', 'transition "a\\n\\"b" -> "é"', 'state "é"', 'answer "00" of response "r"', 'answer "0" of response "s\\t"']

# A definition, a mock file and its points; then suites, each a list of cases with their inputs, and the numbers of the points that they cover.
SUITES = [
    (CHOICE, "{}", CHOICE_POINTS, [
        ([], []),
        ([("", {"v": 1})], [0, 1, 4, 5, 6]),
        ([("", {"v": 2})], [0, 2, 4, 5, 6]),
        ([("", {"v": 3})], [0, 3, 6]),
        # Which rule holds can't be said.
        ([("", {})], [0]),
        ([("", {"v": 1}), ("", {"v": 1})], [0, 1, 4, 5, 6]),
        ([("", {"v": 1}), ("", {"v": 2}), ("", {"v": 3})], [0, 1, 2, 3, 4, 5, 6]),
    ]),
    (LOST, "{}", LOST_POINTS, [
        ([("", {"in": {"v": 2}})], [0, 1]),
        ([("", {"in": {"v": 1}})], [0]),
        ([("", {"v": 2})], [0]),
        ([("", {"in": {"v": 2, "q": 1}})], [0, 1, 2]),
    ]),
    (TASK, TASK_MOCKS, TASK_POINTS, [
        ([("good", {"n": 1})], [0, 1, 8, 9]),
        # What it returns lacks what ResultSelector asks for.
        ([("other", {"n": 1})], [0, 5, 8, 10]),
        # The input lacks what Parameters asks for, so nothing is invoked.
        ([("good", {})], [0, 5, 8]),
        # ResultPath leads into no object.
        ([("retried", {"n": 1})], [0, 1, 2, 8, 11, 12]),
        ([("twice", {"n": 1})], [0, 2, 4, 8, 13]),
        ([("slow", {"n": 1})], [0, 3, 7, 8, 15, 16, 17]),
        ([("odd", {"n": 1})], [0, 7, 8, 18]),
        # No such case, so nothing is run.
        ([("lost", {"n": 1})], []),
        # No answer: an error that nothing handles.
        ([("", {"n": 1})], [0]),
    ]),
    (NESTED, NESTED_MOCKS, NESTED_POINTS, [
        ([("good", {"items": []})], [0, 1, 4, 9, 10, 11, 13]),
        ([("good", {"items": [{"i": 1}, {"i": 2}]})], [0, 1, 4, 7, 9, 10, 11, 13, 14, 15]),
        # An item lacks what ItemSelector asks for.
        ([("good", {"items": [{"i": 1}, {}]})], [0, 1, 4, 6, 8, 9, 10, 11, 13]),
        # The Map is retried a second later and fails anew, when the other branch has gone on.
        ([("bad", {"items": [{"i": 1}]})], [0, 3, 4, 5, 7, 9, 12, 17]),
    ]),
    (LIMITED, "{}", LIMITED_POINTS, [([("", [1])], [0, 1, 2, 3]), ([("", [])], [0, 1, 3])]),
    (NAMED, NAMED_MOCKS, NAMED_POINTS, [([("c", {})], [0, 1, 2, 3]), ([("", {})], [0])]),
]

# Of the examples with a suite, what it doesn't cover.
EXAMPLES = {
    "approval": [],
    "enrich": [],
    "onboarding": [],
    "order": ['rule 0 of "Which carrier?" -> "By courier"', 'state "By courier"', 'transition "By courier" -> "Fulfil"'],
    "orders": ['rule 1 of "Is it worth charging?" -> "Done"'],
    "payment": [],
    "polling": [],
    "thumbnails": [],
    "trip": [
        'catcher 0 of "Book flight" -> "Not booked"',
        'retrier 0 of "Cancel flight"',
        'catcher 0 of "Cancel flight" -> "Is a booking left?"',
        'retrier 0 of "Tell support"',
    ],
}

# Command lines that are wrong, behind the three files.
WRONG = [["--coverage-format", "json"], ["--coverage", "--coverage-format", "xml"], ["--coverage", "--coverage-format"], ["--min"], ["--min", "101"], ["--min", "-1"], ["--min", "x"], ["--min", "50%"], ["--coverage", "--coverage"], ["--coverage=1"]]


def tests(cases, status="SUCCEEDED"):
    """An expectation file of these cases, each with its input."""
    return json.dumps([{"machine": "M", "case": case, "input": given, "status": status} for case, given in cases])


def share(covered, points):
    """How many of points are covered."""
    percent = 100 * len(covered) // len(points) if points else 100
    return f"{percent}% ({len(covered)} of {len(points)})\n"


def told(points, numbers):
    """What is told of points, of which those of these numbers are covered."""
    text = "coverage: " + share(numbers, points)
    for file, is_in in (("definition", lambda point: not point.startswith("answer ")), ("mock file", lambda point: point.startswith("answer "))):
        text += f"{file}: " + share([number for number in numbers if is_in(points[number])], [point for point in points if is_in(point)])
    return text + "".join(f"not covered: {point}\n" for number, point in enumerate(points) if number not in numbers)


def part_at(value, pointer):
    """The part of a value at a JSON Pointer."""
    for step in pointer.split("/")[1:]:
        key = step.replace("~1", "/").replace("~0", "~")
        value = value[int(key)] if isinstance(value, list) else value[key]
    return value


def lines_of(text, pointer):
    """The lines, from 1, on which values begin that are equal to that at a JSON Pointer."""
    wanted = part_at(json.loads(text), pointer)
    lines = set()
    for at, sign in enumerate(text):
        if sign in '{["':
            try:
                if json.JSONDecoder().raw_decode(text, at)[0] == wanted:
                    lines.add(text.count("\n", 0, at) + 1)
            except ValueError:
                pass
    return lines


def lcov_read(text):
    """A tracefile of LCOV as a program reads it: for each file the counts of its lines and of its branches, with the totals that it tells."""
    files, here = {}, None
    for line in text.splitlines():
        key, _, value = line.partition(":")
        if key == "SF":
            here = files[value] = {"DA": {}, "BRDA": [], "totals": {}}
        elif key == "DA":
            number, count = map(int, value.split(","))
            assert number not in here["DA"], line
            here["DA"][number] = count
        elif key == "BRDA":
            number, block, branch, taken = map(int, value.split(","))
            assert block == 0 and taken in (0, 1), line
            here["BRDA"].append((number, branch, taken))
        elif key in ("LF", "LH", "BRF", "BRH"):
            here["totals"][key] = int(value)
        elif line == "end_of_record":
            here = None
        else:
            assert line == "TN:", line
    assert here is None
    return files


class CoverageTest(ProgramTest):
    def on_suite(self, expectations, *words, definition=CHOICE, mocks="{}"):
        """What the command does for the texts of a suite."""
        return self.suite_texts(definition, mocks, expectations, *words)

    def told_of(self, *given, **more):
        """What is told of coverage: the lines behind the remarks and notes on the tests."""
        ran = self.on_suite(*given, **more)
        lines = ran.stderr.splitlines(keepends=True)
        return "".join(line for line in lines if not line.startswith(("test ", "note: ")))

    def test_each_kind_of_point(self):
        for definition, mocks, points, suites in SUITES:
            for cases, numbers in suites:
                with self.subTest(points=points[0], cases=cases):
                    self.assertEqual(self.told_of(tests(cases), "--coverage", definition=definition, mocks=mocks), told(points, numbers))

    def test_the_report_and_the_status_stay_the_same(self):
        for cases in [[], [("", {"v": 1})], [("", {"v": 3}), ("", {})]]:
            for words in [[], ["--format", "json"], ["--format", "junit"], ["--workers", "3"]]:
                plain = self.on_suite(tests(cases), *words)
                covered = self.on_suite(tests(cases), *words, "--coverage")
                # The names of the files aren't the same.
                room = re.compile("asl-test-[^/]*/")
                self.assertEqual((covered.returncode, room.sub("", covered.stdout)), (plain.returncode, room.sub("", plain.stdout)))
                self.assertTrue(covered.stderr.startswith(plain.stderr + "coverage: "), covered.stderr)

    def test_nothing_is_told_without_the_option(self):
        self.assertEqual(self.on_suite(tests([("", {"v": 1})])).stderr, "")

    def test_the_least_percent(self):
        # It covers 5 points of 7, which is 71 percent.
        suite = tests([("", {"v": 1})])
        for least, status in [(0, 0), (1, 0), (70, 0), (71, 0), (72, 1), (100, 1)]:
            ran = self.on_suite(suite, "--min", str(least))
            self.assertEqual((ran.returncode, ran.stdout), (status, "ok M# SUCCEEDED 8\n1 passed, 0 failed\n"), least)
            lacking = f"coverage 71% is below {least}%\n" if status else ""
            self.assertEqual(ran.stderr, told(CHOICE_POINTS, [0, 1, 4, 5, 6]) + lacking)
        whole = tests([("", {"v": v}) for v in [1, 2, 3]])
        self.assertEqual(self.on_suite(whole, "--min", "100", "--coverage").returncode, 0)

    def test_a_test_that_fails_is_no_better_for_what_it_covers(self):
        failing = tests([("", {"v": v}) for v in [1, 2, 3]], status="FAILED")
        self.assertEqual(self.on_suite(failing, "--min", "0").returncode, 1)
        self.assertEqual(self.on_suite(failing, "--min", "100").returncode, 1)

    def test_a_shard_covers_what_its_tests_do(self):
        suite = tests([("", {"v": v}) for v in [1, 2, 3]])
        for shard, numbers in [("1/3", [0, 1, 4, 5, 6]), ("2/3", [0, 2, 4, 5, 6]), ("3/3", [0, 3, 6]), ("1/2", [0, 1, 3, 4, 5, 6])]:
            self.assertEqual(self.told_of(suite, "--coverage", "--shard", shard), told(CHOICE_POINTS, numbers))

    def test_a_test_with_steps_covers_what_these_do(self):
        for count, numbers in [(0, []), (1, [0, 1]), (2, [0, 1, 4, 5]), (3, [0, 1, 4, 5, 6])]:
            steps = ["/7 2024-01-01T00:00:00Z"] + ["/ 2024-01-01T00:00:00Z"] * count
            suite = json.dumps([{"machine": "M", "case": "", "input": {"v": 1}, "status": "SUCCEEDED", "steps": steps}])
            self.assertEqual(self.told_of(suite, "--coverage"), told(CHOICE_POINTS, numbers), count)

    def test_json_tells_the_same(self):
        for definition, mocks, points, suites in SUITES:
            for cases, numbers in suites:
                with self.subTest(points=points[0], cases=cases):
                    value = json.loads(self.told_of(tests(cases), "--coverage", "--coverage-format", "json", definition=definition, mocks=mocks))
                    found = [point for file in value["files"] for point in file["list"]]
                    self.assertEqual([point["point"] for point in found], points)
                    self.assertEqual([at for at, point in enumerate(found) if point["covered"]], numbers)
                    self.assertEqual((value["covered"], value["points"]), (len(numbers), len(points)))
                    self.assertEqual(value["percent"], 100 * len(numbers) // len(points) if points else 100)
                    self.assertEqual([file["role"] for file in value["files"]], ["definition", "mocks"])
                    for file, text in zip(value["files"], (definition, mocks)):
                        self.assertEqual((file["points"], file["covered"]), (len(file["list"]), sum(point["covered"] for point in file["list"])))
                        self.assertEqual(file["percent"], 100 * file["covered"] // file["points"] if file["points"] else 100)
                        for point in file["list"]:
                            self.assertIn(point["line"], lines_of(text, point["pointer"]), point)

    def test_each_point_has_its_pointer(self):
        value = json.loads(self.told_of("[]", "--coverage", "--coverage-format", "json", definition=NESTED, mocks=NESTED_MOCKS))
        inner = "/States/P/Branches/0/States/M"
        self.assertEqual([point["pointer"] for file in value["files"] for point in file["list"]], [
            "/States/P", "/States/P/Next", "/States/P/Catch/0", "/States/P/Catch/1", inner, f"{inner}/Retry/0", f"{inner}/Catch/0",
            f"{inner}/ItemProcessor/States/T", "/States/P/Branches/0/States/N", "/States/P/Branches/1/States/W", "/States/P/Branches/1/States/W/Next",
            "/States/P/Branches/1/States/V", "/States/Y", "/States/Z", *(f"/MockedResponses/good/{key}" for key in "012"), "/MockedResponses/bad/0-5",
        ])

    def test_lcov_tells_of_the_same_lines(self):
        for definition, mocks, _points, suites in SUITES:
            for cases, _numbers in suites:
                with self.subTest(cases=cases):
                    given = {"definition": definition, "mocks": mocks}
                    value = json.loads(self.told_of(tests(cases), "--coverage", "--coverage-format", "json", **given))
                    files = lcov_read(self.told_of(tests(cases), "--coverage", "--coverage-format", "lcov", **given))
                    self.assertEqual(len(files), 2)
                    for (name, found), file in zip(files.items(), value["files"]):
                        self.assertEqual(name.rpartition("/")[2], f"{file['role']}.json")
                        here = file["list"]
                        lines = {point["line"]: 0 for point in here}
                        for point in here:
                            lines[point["line"]] += point["covered"]
                        self.assertEqual(found["DA"], lines)
                        ways = [
                            (point["line"], at, int(point["covered"])) for at, point in enumerate(here)
                            if point["point"].startswith(("rule ", "Default ", "retrier ", "catcher "))
                        ]
                        self.assertEqual(found["BRDA"], ways)
                        self.assertEqual(found["totals"], {
                            "LF": len(lines), "LH": sum(count > 0 for count in lines.values()), "BRF": len(ways), "BRH": sum(way[2] for way in ways),
                        })

    def test_a_format_for_other_programs_is_told_alone(self):
        suite = tests([("", {"v": 1}), ("", {})])
        for name in ("json", "lcov"):
            ran = self.on_suite(suite, "--min", "100", "--quiet", "--coverage-format", name)
            self.assertEqual(ran.returncode, 1)
            self.assertNotIn("is below", ran.stderr)
            if name == "json":
                self.assertEqual(ran.stderr.count("\n"), 1)
                json.loads(ran.stderr)
            else:
                lcov_read(ran.stderr)
        plain = self.on_suite(suite, "--coverage").stderr
        self.assertEqual(self.on_suite(suite, "--coverage", "--coverage-format", "text").stderr.splitlines()[-9:], plain.splitlines()[-9:])

    def test_a_format_of_what_is_not_told(self):
        ran = self.on_suite("[]", "--coverage-format", "lcov")
        self.assertIn("the following required arguments were not provided:\n  --coverage\n", ran.stderr)

    def test_wrong_command_lines(self):
        for words in WRONG:
            ran = self.on_suite("[]", *words)
            self.assertEqual((ran.returncode, ran.stdout), (2, ""), words)
            self.assertTrue(ran.stderr.startswith("error: "), ran.stderr)

    def test_examples_cover_all_but_what_is_known(self):
        for name, rest in EXAMPLES.items():
            files = [f"{TOP}/examples/{name}/{file}.json" for file in ["definition", "mocks", "expectations"]]
            ran = run_program("test", *files, "--coverage")
            lines = [line.removeprefix("not covered: ") for line in ran.stderr.splitlines() if line.startswith("not covered: ")]
            self.assertEqual((ran.returncode, lines), (0, rest), name)
