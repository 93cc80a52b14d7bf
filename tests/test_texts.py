"""The texts of a run: which are refused, in which order, and how a run is printed."""
from program import ProgramTest

# A Pass that places 7 at `$.a.b`, and a Succeed.
TWO_STATES = '{"StartAt":"P","States":{"P":{"Type":"Pass","Result":7,"ResultPath":"$.a.b","Next":"S"},"S":{"Type":"Succeed"}}}'

# A mock file with the cases `c`, `a#b`, and, of another machine, `c`.
MOCKS = (
    '{"StateMachines":{"M":{"TestCases":{"c":{"T":"r"},"a#b":{"T":"s"}}},"N":{"TestCases":{"c":{"T":"s"}}}},'
    '\n"MockedResponses":{"r":{"0":{"Return":1}},"s":{"0":{"Throw":{"Error":"E"}}}}}'
)

# The texts of a run (definition, mocks, what is chosen, input, steps), and the line of the first fault.
REFUSED = [
    (["{", "[]", "M#c", "{", "x"], "definition: F1 Json J1 Syntax 1"),
    (["{}", "[]", "M#c", "{", "x"], "definition: F3 Missing /StartAt"),
    ([TWO_STATES, "[", "M#c", "{", "x"], "mocks: M1 Json J1 Syntax 1"),
    ([TWO_STATES, "[]", "M#c", "{", "x"], "mocks: M2 Shape"),
    ([TWO_STATES, '{"StateMachines":{"M":{}},"MockedResponses":{"r":{"x":{"Return":1}}}}', "M#c", "{", "x"], "mocks: M2 Shape /StateMachines/M"),
    ([TWO_STATES, '{"MockedResponses":{"r":{"x":{"Return":1}}}}', "M#c", "{", "x"], "mocks: M3 Key /MockedResponses/r/x"),
    ([TWO_STATES, '{"MockedResponses":{"r":{"2-1":{"Return":1}}}}', "M", "{}", ""], "mocks: M3 Key /MockedResponses/r/2-1"),
    ([TWO_STATES, '{"MockedResponses":{"r":{"0-2":{"Return":1},"2":{"Return":2}}}}', "M", "{}", ""], "mocks: M4 Overlap /MockedResponses/r/2"),
    ([TWO_STATES, '{"StateMachines":{"M":{"TestCases":{"a/b":{"T":"r"}}}}}', "M#a/b", "{", "x"], "mocks: M5 NoResponse /StateMachines/M/TestCases/a~1b/T"),
    ([TWO_STATES, "{}", "M#c", "{", "x"], "case: M7 NoMachine"),
    ([TWO_STATES, MOCKS, "Other#None", "{", "x"], "case: M7 NoMachine"),
    ([TWO_STATES, MOCKS, "#c", "{", "x"], "case: M7 NoMachine"),
    ([TWO_STATES, MOCKS, "M#None", "{", "x"], "case: M8 NoCase"),
    ([TWO_STATES, MOCKS, "M#a", "{", "x"], "case: M8 NoCase"),
    ([TWO_STATES, MOCKS, "M#a#b#", "{", "x"], "case: M8 NoCase"),
    ([TWO_STATES, MOCKS, "M#a#b", "{", "x"], "input: J1 Syntax 1"),
    ([TWO_STATES, MOCKS, "Other#", "{", "x"], "input: J1 Syntax 1"),
    ([TWO_STATES, MOCKS, "Other", "{", "x"], "input: J1 Syntax 1"),
    ([TWO_STATES, "{}", "M#", "{", "x"], "input: J1 Syntax 1"),
    ([TWO_STATES, "{}", "", "{}", '/ 2024-01-01T00:00:00.000Z\n/01 x'], "steps: E1 StepLine 2"),
]

# Files of steps, and the number of their first bad line.
BAD_LINES = [
    ('\n', 1),
    ('/ 2024-01-01T00:00:00.000Z\n/01 x', 2),
    ('/ 2024-01-01T00:00:00.000Z\n/01 2024-01-01T00:00:00.000Z\n', 2),
    ('/ 2024-01-01T00:00:00.000Z\n\n/ 2024-01-01T00:00:00.000Z\n', 2),
    ('/ 2024-01-01T00:00:00.000Z\n\n', 2),
    ('/ 2024-01-01T00:00:00.000Z\r\n', 1),
    ('/  2024-01-01T00:00:00.000Z\n', 1),
    (' / 2024-01-01T00:00:00.000Z\n', 1),
    ('/ 2024-01-01T00:00:00.000Z \n', 1),
    ('/\n', 1),
    (b"/ 2024-01-01T00:00:00.000Z\n\xff", 2),
]

ONE_STEP = "/ 2024-01-01T00:00:00Z\n"


class TextTest(ProgramTest):
    def test_texts_are_refused_in_their_order(self):
        for texts, fault in REFUSED:
            with self.subTest(fault):
                self.assertEqual(self.refused(*texts), fault)

    def test_bad_lines_have_their_numbers(self):
        for text, number in BAD_LINES:
            with self.subTest(text):
                self.assertEqual(self.refused(TWO_STATES, "{}", "M", "{}", text), f"steps: E1 StepLine {number}")

    def test_runs_are_printed(self):
        none = '1 0 1970-01-01T00:00:00.000Z / ExecutionStarted "" {}\nstatus RUNNING\n'
        self.assertEqual(self.told(TWO_STATES, steps=""), none)
        moments = """\
/ 2024-01-01T00:00:01Z
/0 2024-01-01T00:00:02Z
/ 2024-01-01T00:00:00Z
/ 2024-01-01T00:00:03Z
"""
        self.assertEqual(
            self.told(TWO_STATES, steps=moments),
            """\
step / ok
step /0 S2 NoSuchPlace
step / ok
step / S1 Over
1 0 2024-01-01T00:00:01.000Z / ExecutionStarted "" {}
2 1 2024-01-01T00:00:01.000Z / PassStateEntered "P" {}
3 2 2024-01-01T00:00:01.000Z / PassStateExited "P" {"a":{"b":7}}
4 3 2024-01-01T00:00:01.000Z / SucceedStateEntered "S" {"a":{"b":7}}
5 4 2024-01-01T00:00:01.000Z / SucceedStateExited "S" {"a":{"b":7}}
6 5 2024-01-01T00:00:01.000Z / ExecutionSucceeded "" {"a":{"b":7}}
status SUCCEEDED {"a":{"b":7}}
""",
        )

    def test_faults_of_data_end_an_execution(self):
        no_input = TWO_STATES.replace('"Type":"Pass"', '"Type":"Pass","InputPath":"$.q"')
        for definition, given, status in [
            (no_input, "{}", 'status FAILED {"Error":"States.Runtime","Cause":"InputPath: no value"}'),
            (TWO_STATES, '{"a":5}', 'status FAILED {"Error":"States.ResultPathMatchFailure","Cause":"ResultPath: no place"}'),
        ]:
            with self.subTest(status):
                # The step, two events, the end, the status.
                self.assert_ends(self.told(definition, given, ONE_STEP), 5, status)

    def test_a_test_case_changes_nothing_of_a_run_without_tasks(self):
        self.assertEqual(self.told(TWO_STATES, steps=ONE_STEP, mocks=MOCKS, chosen="M#a#b"), self.told(TWO_STATES, steps=ONE_STEP))

    def test_what_is_chosen_is_cut_at_the_first_number_sign(self):
        # The Task T is in no test case but those of MOCKS; the names show in the Context Object.
        task = '{"StartAt":"T","States":{"T":{"Type":"Task","Resource":"r","Catch":[{"ErrorEquals":["E"],"Next":"N"}],"Next":"N"},"N":{"Type":"Succeed"}}}'
        names = '{"StartAt":"N","States":{"N":{"Type":"Pass","Parameters":{"machine.$":"$$.StateMachine.Name","run.$":"$$.Execution.Name"},"End":true}}}'
        failed = 'status FAILED {"Error":"States.Runtime","Cause":"no mocked answer"}'
        for chosen, machine, name, status in [
            ("M", "M", "run", failed),
            ("M#", "M", "run", failed),
            ("", "", "run", failed),
            ("#", "", "run", failed),
            ("Other", "Other", "run", failed),
            ("M#c", "M", "c", "status SUCCEEDED 1"),
            ("M#a#b", "M", "a#b", 'status SUCCEEDED {"Error":"E"}'),
            ("N#c", "N", "c", 'status SUCCEEDED {"Error":"E"}'),
        ]:
            with self.subTest(chosen):
                told = self.told(names, mocks=MOCKS, chosen=chosen)
                self.assertTrue(told.endswith('\nstatus SUCCEEDED {"machine":"%s","run":"%s"}\n' % (machine, name)), told)
                told = self.told(task, mocks=MOCKS, chosen=chosen)
                self.assertEqual(told.splitlines()[-1], status)

    def test_a_test_case_of_the_only_machine_needs_no_machine(self):
        task = (
            '{"StartAt":"T","States":{"T":{"Type":"Task","Resource":"r",'
            '"ResultSelector":{"machine.$":"$$.StateMachine.Name","run.$":"$$.Execution.Name"},"End":true}}}'
        )
        failed = 'status FAILED {"Error":"States.Runtime","Cause":"no mocked answer"}'

        def found(machine, case):
            return 'status SUCCEEDED {"machine":"%s","run":"%s"}' % (machine, case)

        def mocks(*machines):
            cases = ",".join('"%s":{"TestCases":{"c":{"T":"r"},"M":{"T":"r"},"":{"T":"r"}}}' % machine for machine in machines)
            return '{"StateMachines":{%s},"MockedResponses":{"r":{"0":{"Return":1}}}}' % cases

        for machines, chosen, status in [
            (["M"], "c", found("M", "c")),
            (["M"], "M#c", found("M", "c")),
            # A machine's own name, with and without a case of this name, and names of nothing.
            (["M"], "M", failed),
            (["N"], "M", found("N", "M")),
            (["M"], "N", failed),
            (["M"], "C", failed),
            (["M"], "", failed),
            # Several machines, or none; a machine whose name has the sign.
            (["M", "N"], "c", failed),
            ([], "c", failed),
            (["M#N"], "c", failed),
            (["M"], "c#", failed),
            (["M"], "#c", None),
        ]:
            with self.subTest(machines=machines, chosen=chosen):
                if status:
                    self.assertEqual(self.told(task, mocks=mocks(*machines), chosen=chosen).splitlines()[-1], status)
                else:
                    self.assertEqual(self.refused(task, mocks(*machines), chosen, "{}", ""), "case: M7 NoMachine")
        self.assertEqual(self.refused(task, "[", "c", "{}", ""), "mocks: M1 Json J1 Syntax 1")
        self.assertEqual(self.refused(task, mocks("M"), "c", "{", ""), "input: J1 Syntax 1")
        for command, last, end in [("debug", "step / 2024-01-01T00:00:00Z\n", found("M", "c")), ("explore", None, "order /")]:
            ran = self.on_texts(command, task, mocks("M"), "c", "{}", last)
            self.assertEqual((ran.stderr, ran.stdout.splitlines()[-1]), ("", end))
            self.assertEqual(ran.stdout, self.on_texts(command, task, mocks("M"), "M#c", "{}", last).stdout)
