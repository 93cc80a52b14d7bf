"""Tasks: what the test case answers, retries, and errors that are caught."""
from program import ProgramTest, answered, steps

# Throws once, throws twice more, then returns.
THREE_FAILURES = '"0":{"Throw":{"Error":"E.A"}},"1-2":{"Throw":{"Error":"E.B","Cause":"slow"}},"3":{"Return":{"ok":true}}'

# Members of the Task W, its answers, the input, how many lines a run of two steps at one moment has, and the last one.
ONE_TASK = [
    ('"ResultPath":null,"End":true', '"0":{"Return":9}', '{"k":1}', 10, 'status SUCCEEDED {"k":1}'),
    ('"InputPath":"$.in","ResultSelector":{"v.$":"$.x","n.$":"$$.State.Name"},"ResultPath":"$.out","OutputPath":"$.out","End":true',
        '"0":{"Return":{"x":7,"y":8}}', '{"in":1}', 10, 'status SUCCEEDED {"v":7,"n":"W"}'),
    ('"ResultPath":"$.l[3]","Catch":[{"ErrorEquals":["States.ALL"],"Next":"H"}],"End":true', '"0":{"Return":9}', '{"l":[0,1,2]}', 12,
        'status SUCCEEDED {"Error":"States.ResultPathMatchFailure","Cause":"ResultPath: no place"}'),
    ('"Catch":[{"ErrorEquals":["States.ALL"],"Next":"H"}],"End":true', '"1":{"Return":9}', "{}", 9,
        'status FAILED {"Error":"States.Runtime","Cause":"no mocked answer"}'),
    ('"Parameters":{"x.$":"$.q"},"Catch":[{"ErrorEquals":["States.TaskFailed"],"ResultPath":"$.e","Next":"H"}],"End":true',
        '"0":{"Return":9}', '{"a":1}', 9, 'status SUCCEEDED {"a":1,"e":{"Error":"States.ParameterPathFailure","Cause":"x.$: no value"}}'),
    ('"Catch":[{"ErrorEquals":["E"],"ResultPath":"$.a.b","Next":"H"}],"End":true', '"0":{"Throw":{"Error":"E"}}', '{"a":5}', 9,
        'status FAILED {"Error":"States.ResultPathMatchFailure","Cause":"ResultPath: no place"}'),
    ('"Catch":[{"ErrorEquals":["E"],"ResultPath":null,"Next":"H"}],"End":true', '"0":{"Throw":{"Error":"E"}}', '{"a":5}', 12, 'status SUCCEEDED {"a":5}'),
    ('"Catch":[{"ErrorEquals":["States.TaskFailed"],"Next":"H"}],"End":true', '"0":{"Throw":{"Error":"States.Timeout"}}', "{}", 9,
        'status FAILED {"Error":"States.Timeout"}'),
    ('"Catch":[{"ErrorEquals":["States.Runtime"],"Next":"H"}],"End":true', '"0":{"Throw":{"Error":"States.Runtime"}}', "{}", 9,
        'status FAILED {"Error":"States.Runtime"}'),
    ('"Retry":[{"ErrorEquals":["States.ALL"],"MaxAttempts":0}],"End":true', '"0":{"Throw":{"Error":"E"}}', "{}", 9, 'status FAILED {"Error":"E"}'),
    ('"Retry":[{"ErrorEquals":["States.ALL"]}],"End":true', '"0":{"Throw":{"Error":"E"}}', "{}", 8, "status RUNNING"),
]


class TaskTest(ProgramTest):
    def task(self, members, answers, given="{}", steps=None):
        definition = '{"StartAt":"W","States":{"W":{"Type":"Task","Resource":"r",%s},"H":{"Type":"Succeed"}}}' % members
        return self.told(definition, given, steps, answered(answers), "M#c")

    def test_a_task_is_retried_after_growing_delays(self):
        members = '"Retry":[{"ErrorEquals":["E.A","E.B"],"IntervalSeconds":3,"MaxAttempts":3,"BackoffRate":1.5}],"End":true'
        moments = """\
/ 2024-01-01T00:00:00Z
/ 2024-01-01T00:00:03Z
/ 2024-01-01T00:00:07.499Z
/ 2024-01-01T00:00:07.5Z
/ 2024-01-01T00:00:14.25Z
"""
        replies = "step / ok\nstep / ok\nstep / S7 NotYet 2024-01-01T00:00:07.500Z\nstep / ok\nstep / ok\n"
        run = """\
1 0 2024-01-01T00:00:00.000Z / ExecutionStarted "" {}
2 1 2024-01-01T00:00:00.000Z / TaskStateEntered "W" {}
3 2 2024-01-01T00:00:00.000Z / TaskScheduled "W" {}
4 3 2024-01-01T00:00:00.000Z / TaskStarted "W" {}
5 4 2024-01-01T00:00:00.000Z / TaskFailed "W" {"Error":"E.A"}
6 5 2024-01-01T00:00:03.000Z / TaskScheduled "W" {}
7 6 2024-01-01T00:00:03.000Z / TaskStarted "W" {}
8 7 2024-01-01T00:00:03.000Z / TaskFailed "W" {"Error":"E.B","Cause":"slow"}
9 8 2024-01-01T00:00:07.500Z / TaskScheduled "W" {}
10 9 2024-01-01T00:00:07.500Z / TaskStarted "W" {}
11 10 2024-01-01T00:00:07.500Z / TaskFailed "W" {"Error":"E.B","Cause":"slow"}
12 11 2024-01-01T00:00:14.250Z / TaskScheduled "W" {}
13 12 2024-01-01T00:00:14.250Z / TaskStarted "W" {}
14 13 2024-01-01T00:00:14.250Z / TaskSucceeded "W" {"ok":true}
15 14 2024-01-01T00:00:14.250Z / TaskStateExited "W" {"ok":true}
16 15 2024-01-01T00:00:14.250Z / ExecutionSucceeded "" {"ok":true}
status SUCCEEDED {"ok":true}
"""
        self.assertEqual(self.task(members, THREE_FAILURES, steps=moments), replies + run)
        # The same run by itself has the same moments, since midnight of its first day.
        by_itself = run.replace("2024-01-01", "1970-01-01")
        self.assertEqual(self.task(members, THREE_FAILURES), by_itself)

    def test_a_used_up_retrier_hands_over_to_the_catchers(self):
        members = (
            '"Retry":[{"ErrorEquals":["E.A","E.B"],"IntervalSeconds":3,"MaxAttempts":2,"BackoffRate":1.5},{"ErrorEquals":["States.ALL"]}],'
            '"Catch":[{"ErrorEquals":["States.TaskFailed"],"ResultPath":"$.err","Next":"H"}],"End":true'
        )
        moments = "/ 2024-01-01T00:00:00Z\n/ 2024-01-01T00:00:03Z\n/ 2024-01-01T00:00:07.5Z\n/ 2024-01-01T00:00:07.5Z\n"
        text = self.task(members, THREE_FAILURES, steps=moments)
        end = """
11 10 2024-01-01T00:00:07.500Z / TaskFailed "W" {"Error":"E.B","Cause":"slow"}
12 11 2024-01-01T00:00:07.500Z / TaskStateExited "W" {"err":{"Error":"E.B","Cause":"slow"}}
13 12 2024-01-01T00:00:07.500Z / SucceedStateEntered "H" {"err":{"Error":"E.B","Cause":"slow"}}
14 13 2024-01-01T00:00:07.500Z / SucceedStateExited "H" {"err":{"Error":"E.B","Cause":"slow"}}
15 14 2024-01-01T00:00:07.500Z / ExecutionSucceeded "" {"err":{"Error":"E.B","Cause":"slow"}}
status SUCCEEDED {"err":{"Error":"E.B","Cause":"slow"}}
"""
        self.assertTrue(text.endswith(end), text)

    def test_a_cap_and_jitter_are_kept(self):
        members = (
            '"Retry":[{"ErrorEquals":["States.ALL"],"IntervalSeconds":3,"MaxAttempts":3,"BackoffRate":1.5,"MaxDelaySeconds":4,'
            '"JitterStrategy":"FULL"}],"End":true'
        )
        moments = """\
/ 2024-01-01T00:00:00Z
/ 2024-01-01T00:00:03Z
/ 2024-01-01T00:00:06.999Z
/ 2024-01-01T00:00:07Z
/ 2024-01-01T00:00:11Z
"""
        text = self.task(members, THREE_FAILURES, steps=moments)
        replies = "step / ok\nstep / ok\nstep / S7 NotYet 2024-01-01T00:00:07.000Z\nstep / ok\nstep / ok\n"
        self.assertTrue(text.startswith(replies), text)
        self.assertTrue(text.endswith('\nstatus SUCCEEDED {"ok":true}\n'), text)

    def test_each_invocation_has_its_token(self):
        members = (
            '"Parameters":{"t.$":"$$.Task.Token","r.$":"$$.State.RetryCount"},"Retry":[{"ErrorEquals":["E.B"]},{"ErrorEquals":["E.A"]}],'
            '"ResultPath":"$.of","OutputPath":"$$.Task.Token","End":true'
        )
        moments = "/ 2024-01-01T00:00:00Z\n/ 2024-01-01T00:01:00Z\n/ 2024-01-01T00:02:00Z\n/ 2024-01-01T00:03:00Z\n"
        text = self.task(members, THREE_FAILURES, steps=moments)
        for invocation in (0, 1, 3):
            self.assertIn(' TaskScheduled "W" {"t":"token:c:W:%d","r":%d}\n' % (invocation, invocation), text)
        self.assertTrue(text.endswith('\nstatus SUCCEEDED "token:c:W:3"\n'), text)

    def test_one_task_tells_what_it_makes(self):
        for members, answers, given, lines, status in ONE_TASK:
            with self.subTest(members):
                self.assert_ends(self.task(members, answers, given, steps("//")), lines, status)

    def test_an_answer_has_at_most_262144_bytes(self):
        members = '"Retry":[{"ErrorEquals":["States.ALL"]}],"Catch":[{"ErrorEquals":["States.ALL"],"Next":"H"}],"End":true'
        # Beside the characters, two quotes.
        text = self.task(members, '"0":{"Return":"' + 262_143 * "x" + '"}', steps=steps("/"))
        end = """
5 4 2024-01-01T00:00:00.000Z / TaskFailed "W" {"Error":"States.DataLimitExceeded","Cause":"data limit"}
6 5 2024-01-01T00:00:00.000Z / ExecutionFailed "" {"Error":"States.DataLimitExceeded","Cause":"data limit"}
status FAILED {"Error":"States.DataLimitExceeded","Cause":"data limit"}
"""
        self.assertTrue(text.endswith(end), text)
