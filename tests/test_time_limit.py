"""Executions whose time is over."""
from program import ProgramTest, answered, steps

# A Wait of ten seconds in an execution that may take five.
TOO_LONG = '{"StartAt":"X","TimeoutSeconds":5,"States":{"X":{"Type":"Wait","Seconds":10,"End":true}}}'


class TimeLimitTest(ProgramTest):
    def test_a_step_at_the_deadline_ends_the_execution_whatever_its_place(self):
        definition = (
            '{"StartAt":"W","TimeoutSeconds":5,"States":{"W":{"Type":"Task","Resource":"r","Retry":[{"ErrorEquals":["E"],'
            '"IntervalSeconds":3,"BackoffRate":1.5}],"End":true}}}'
        )
        moments = """\
/ 2024-01-01T00:00:00Z
/ 2024-01-01T00:00:03Z
/4 2024-01-01T00:00:04.999Z
/4 2024-01-01T00:00:05Z
/ 2024-01-01T00:00:05Z
"""
        self.assertEqual(
            self.told(definition, steps=moments, mocks=answered('"0-9":{"Throw":{"Error":"E"}}'), chosen="M#c"),
            """\
step / ok
step / ok
step /4 S2 NoSuchPlace
step /4 ok
step / S1 Over
1 0 2024-01-01T00:00:00.000Z / ExecutionStarted "" {}
2 1 2024-01-01T00:00:00.000Z / TaskStateEntered "W" {}
3 2 2024-01-01T00:00:00.000Z / TaskScheduled "W" {}
4 3 2024-01-01T00:00:00.000Z / TaskStarted "W" {}
5 4 2024-01-01T00:00:00.000Z / TaskFailed "W" {"Error":"E"}
6 5 2024-01-01T00:00:03.000Z / TaskScheduled "W" {}
7 6 2024-01-01T00:00:03.000Z / TaskStarted "W" {}
8 7 2024-01-01T00:00:03.000Z / TaskFailed "W" {"Error":"E"}
9 8 2024-01-01T00:00:05.000Z / ExecutionTimedOut "" {"Error":"States.Timeout"}
status TIMED_OUT {"Error":"States.Timeout"}
""",
        )

    def test_before_the_deadline_a_branch_waits_as_its_state_says(self):
        moments = "/ 2024-01-01T00:00:00Z\n/ 2024-01-01T00:00:04.999Z\n/ 2024-01-01T00:00:05Z\n"
        self.assertEqual(
            self.told(TOO_LONG, steps=moments),
            """\
step / ok
step / S7 NotYet 2024-01-01T00:00:10.000Z
step / ok
1 0 2024-01-01T00:00:00.000Z / ExecutionStarted "" {}
2 1 2024-01-01T00:00:00.000Z / WaitStateEntered "X" {}
3 2 2024-01-01T00:00:05.000Z / ExecutionTimedOut "" {"Error":"States.Timeout"}
status TIMED_OUT {"Error":"States.Timeout"}
""",
        )

    def test_a_run_by_itself_ends_at_its_deadline(self):
        self.assertEqual(
            self.told(TOO_LONG),
            """\
1 0 1970-01-01T00:00:00.000Z / ExecutionStarted "" {}
2 1 1970-01-01T00:00:00.000Z / WaitStateEntered "X" {}
3 2 1970-01-01T00:00:05.000Z / ExecutionTimedOut "" {"Error":"States.Timeout"}
status TIMED_OUT {"Error":"States.Timeout"}
""",
        )

    def test_no_deadline_is_later_than_the_last_moment(self):
        self.assertEqual(
            self.told(TOO_LONG, steps=steps("/", "9999-12-31T23:59:59.999Z")),
            """\
step / ok
1 0 9999-12-31T23:59:59.999Z / ExecutionStarted "" {}
2 1 9999-12-31T23:59:59.999Z / ExecutionTimedOut "" {"Error":"States.Timeout"}
status TIMED_OUT {"Error":"States.Timeout"}
""",
        )
