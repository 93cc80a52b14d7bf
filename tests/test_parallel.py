"""Parallel: branches that run beside each other, how they are joined, and what becomes of a branch's error."""
from program import ProgramTest, answered, steps

# Members of a Parallel whose branches are a Pass of its input, and one of the text `b`; the input, how many lines a run of four steps
# (to the fork, of each branch, of the join) has, and the last one.
JOINED = [
    ('"End":true', '{"n":1}', 15, 'status SUCCEEDED [{"n":1},"b"]'),
    ('"Parameters":{"x.$":"$.n"},"ResultSelector":{"first.$":"$[0].x","both.$":"$"},"ResultPath":"$.r","OutputPath":"$.r","End":true',
        '{"n":1}', 15, 'status SUCCEEDED {"first":1,"both":[{"x":1},"b"]}'),
    ('"InputPath":"$.in","Parameters":{"x.$":"$.n"},"ResultPath":"$.out","End":true', '{"in":{"n":2},"k":0}', 15,
        'status SUCCEEDED {"in":{"n":2},"k":0,"out":[{"x":2},"b"]}'),
    ('"InputPath":null,"End":true', '{"n":1}', 15, 'status SUCCEEDED [{},"b"]'),
    ('"ResultPath":null,"End":true', '{"n":1}', 15, 'status SUCCEEDED {"n":1}'),
    ('"OutputPath":null,"End":true', '{"n":1}', 15, "status SUCCEEDED {}"),
    ('"ResultSelector":{"n.$":"States.ArrayLength($)","in.$":"$$.State.Name"},"End":true', "{}", 15, 'status SUCCEEDED {"n":2,"in":"Q"}'),
    ('"ResultSelector":{"x.$":"$[2]"},"End":true', "{}", 14, 'status FAILED {"Error":"States.ParameterPathFailure","Cause":"x.$: no value"}'),
    ('"ResultPath":"$.n.r","End":true', '{"n":1}', 14, 'status FAILED {"Error":"States.ResultPathMatchFailure","Cause":"ResultPath: no place"}'),
    ('"OutputPath":"$.q","Catch":[{"ErrorEquals":["States.ALL"],"Next":"H"}],"End":true', "{}", 14,
        'status FAILED {"Error":"States.Runtime","Cause":"OutputPath: no value"}'),
    ('"ResultPath":"$.n.r","Catch":[{"ErrorEquals":["States.ALL"],"ResultPath":"$.e","Next":"H"}],"End":true', '{"n":1}', 14, "status RUNNING"),
]

# Members of a Parallel of one Task, the Task's answers, the input, how many lines a run of four steps (to the fork, of the Task, of
# the join, and one more) has, and the last one.
FAILED = [
    ('"Parameters":{"x":0},"Catch":[{"ErrorEquals":["States.TaskFailed"],"ResultPath":"$.e","Next":"H"}],"End":true',
        '"0":{"Throw":{"Error":"E","Cause":"c"}}', '{"n":1}', 17, 'status SUCCEEDED {"n":1,"e":{"Error":"E","Cause":"c"}}'),
    ('"OutputPath":"$.q","Catch":[{"ErrorEquals":["E"],"ResultPath":"$.e","Next":"H"}],"End":true', '"0":{"Throw":{"Error":"E"}}',
        '{"n":1}', 17, 'status SUCCEEDED {"n":1,"e":{"Error":"E"}}'),
    ('"Catch":[{"ErrorEquals":["States.BranchFailed"],"Next":"H"},{"ErrorEquals":["E"],"ResultPath":null,"Next":"H"}],"End":true',
        '"0":{"Throw":{"Error":"E"}}', '{"n":1}', 17, 'status SUCCEEDED {"n":1}'),
    ('"Catch":[{"ErrorEquals":["E"],"ResultPath":"$.n.e","Next":"H"}],"End":true', '"0":{"Throw":{"Error":"E"}}', '{"n":1}', 14,
        'status FAILED {"Error":"States.ResultPathMatchFailure","Cause":"ResultPath: no place"}'),
    ('"Retry":[{"ErrorEquals":["States.ALL"]}],"Catch":[{"ErrorEquals":["States.ALL"],"Next":"H"}],"End":true', '"1":{"Return":0}', "{}",
        14, 'status FAILED {"Error":"States.Runtime","Cause":"no mocked answer"}'),
    ('"Retry":[],"Catch":[],"End":true', '"0":{"Throw":{"Error":"E"}}', "{}", 14, 'status FAILED {"Error":"E"}'),
    ('"Retry":[{"ErrorEquals":["F"],"MaxAttempts":5},{"ErrorEquals":["E"],"MaxAttempts":0}],"End":true', '"0":{"Throw":{"Error":"E"}}',
        "{}", 14, 'status FAILED {"Error":"E"}'),
    ('"Parameters":{"x.$":"$.q"},"Catch":[{"ErrorEquals":["States.ALL"],"ResultPath":"$.e","Next":"H"}],"End":true', '"0":{"Return":0}',
        '{"n":1}', 11, 'status SUCCEEDED {"n":1,"e":{"Error":"States.ParameterPathFailure","Cause":"x.$: no value"}}'),
    ('"InputPath":"$.q","Retry":[{"ErrorEquals":["States.ALL"]}],"End":true', '"0":{"Return":0}', "{}", 8,
        'status FAILED {"Error":"States.Runtime","Cause":"InputPath: no value"}'),
]

class ParallelTest(ProgramTest):
    def test_two_branches_are_stepped_in_turn_and_joined(self):
        definition = (
            '{"StartAt":"Q","States":{"Q":{"Type":"Parallel","Branches":[{"StartAt":"A","States":{"A":{"Type":"Pass","Result":"a",'
            '"Next":"A2"},"A2":{"Type":"Succeed"}}},{"StartAt":"B","States":{"B":{"Type":"Pass","Result":"b","Next":"B2"},'
            '"B2":{"Type":"Succeed"}}}],"End":true}}}'
        )
        self.assertEqual(
            self.told(definition, steps=steps(["/", "/1", "/", "/0", "/0", "/1", "/"])),
            """\
step / ok
step /1 ok
step / S5 Busy
step /0 ok
step /0 ok
step /1 ok
step / ok
1 0 2024-01-01T00:00:00.000Z / ExecutionStarted "" {}
2 1 2024-01-01T00:00:00.000Z / ParallelStateEntered "Q" {}
3 2 2024-01-01T00:00:00.000Z / ParallelStateStarted "Q" {}
4 3 2024-01-01T00:00:00.000Z /1 PassStateEntered "B" {}
5 4 2024-01-01T00:00:00.000Z /1 PassStateExited "B" "b"
6 3 2024-01-01T00:00:00.000Z /0 PassStateEntered "A" {}
7 6 2024-01-01T00:00:00.000Z /0 PassStateExited "A" "a"
8 7 2024-01-01T00:00:00.000Z /0 SucceedStateEntered "A2" "a"
9 8 2024-01-01T00:00:00.000Z /0 SucceedStateExited "A2" "a"
10 5 2024-01-01T00:00:00.000Z /1 SucceedStateEntered "B2" "b"
11 10 2024-01-01T00:00:00.000Z /1 SucceedStateExited "B2" "b"
12 11 2024-01-01T00:00:00.000Z / ParallelStateSucceeded "Q" {}
13 12 2024-01-01T00:00:00.000Z / ParallelStateExited "Q" ["a","b"]
14 13 2024-01-01T00:00:00.000Z / ExecutionSucceeded "" ["a","b"]
status SUCCEEDED ["a","b"]
""",
        )

    def test_a_failed_branch_stops_the_others_until_all_are_retried(self):
        # A branch that fails, and a Task beside it.
        definition = (
            '{"StartAt":"Q","States":{"Q":{"Type":"Parallel","Branches":[{"StartAt":"F","States":{"F":{"Type":"Fail","Error":"E"}}},'
            '{"StartAt":"W","States":{"W":{"Type":"Task","Resource":"r","End":true}}}],"Retry":[{"ErrorEquals":["E"],"IntervalSeconds":1,'
            '"MaxAttempts":1}],"End":true}}}'
        )
        first = steps(["/", "/1", "/0", "/1", "/0", "/", "/", "/0"])
        then = steps(["/", "/1", "/0", "/"], "2024-01-01T00:00:01Z")
        self.assertEqual(
            self.told(definition, steps=first + then, mocks=answered('"0":{"Return":1},"1":{"Return":2}'), chosen="M#c"),
            """\
step / ok
step /1 ok
step /0 ok
step /1 S3 Stopped
step /0 S4 Finished
step / ok
step / S7 NotYet 2024-01-01T00:00:01.000Z
step /0 S2 NoSuchPlace
step / ok
step /1 ok
step /0 ok
step / ok
1 0 2024-01-01T00:00:00.000Z / ExecutionStarted "" {}
2 1 2024-01-01T00:00:00.000Z / ParallelStateEntered "Q" {}
3 2 2024-01-01T00:00:00.000Z / ParallelStateStarted "Q" {}
4 3 2024-01-01T00:00:00.000Z /1 TaskStateEntered "W" {}
5 4 2024-01-01T00:00:00.000Z /1 TaskScheduled "W" {}
6 5 2024-01-01T00:00:00.000Z /1 TaskStarted "W" {}
7 6 2024-01-01T00:00:00.000Z /1 TaskSucceeded "W" 1
8 7 2024-01-01T00:00:00.000Z /1 TaskStateExited "W" 1
9 3 2024-01-01T00:00:00.000Z /0 FailStateEntered "F" {}
10 9 2024-01-01T00:00:00.000Z / ParallelStateFailed "Q" {"Error":"E"}
11 10 2024-01-01T00:00:01.000Z / ParallelStateStarted "Q" {}
12 11 2024-01-01T00:00:01.000Z /1 TaskStateEntered "W" {}
13 12 2024-01-01T00:00:01.000Z /1 TaskScheduled "W" {}
14 13 2024-01-01T00:00:01.000Z /1 TaskStarted "W" {}
15 14 2024-01-01T00:00:01.000Z /1 TaskSucceeded "W" 2
16 15 2024-01-01T00:00:01.000Z /1 TaskStateExited "W" 2
17 11 2024-01-01T00:00:01.000Z /0 FailStateEntered "F" {}
18 17 2024-01-01T00:00:01.000Z / ParallelStateFailed "Q" {"Error":"E"}
19 18 2024-01-01T00:00:01.000Z / ExecutionFailed "" {"Error":"E"}
status FAILED {"Error":"E"}
""",
        )

    def test_an_error_of_an_inner_branch_is_caught_by_the_inner_parallel(self):
        definition = (
            '{"StartAt":"O","States":{"O":{"Type":"Parallel","Branches":[{"StartAt":"I","States":{"I":{"Type":"Parallel",'
            '"Branches":[{"StartAt":"F","States":{"F":{"Type":"Fail","Error":"E"}}},{"StartAt":"G","States":{"G":{"Type":"Pass","End":true}'
            '}}],"Catch":[{"ErrorEquals":["States.ALL"],"Next":"R"}],"End":true},"R":{"Type":"Succeed"}}},{"StartAt":"H",'
            '"States":{"H":{"Type":"Pass","End":true}}}],"End":true}}}'
        )
        self.assertEqual(
            self.told(definition, steps=steps(["/", "/0", "/0/0", "/0/1", "/1", "/0", "/0/1", "/0", "/"])),
            """\
step / ok
step /0 ok
step /0/0 ok
step /0/1 S3 Stopped
step /1 ok
step /0 ok
step /0/1 S2 NoSuchPlace
step /0 ok
step / ok
1 0 2024-01-01T00:00:00.000Z / ExecutionStarted "" {}
2 1 2024-01-01T00:00:00.000Z / ParallelStateEntered "O" {}
3 2 2024-01-01T00:00:00.000Z / ParallelStateStarted "O" {}
4 3 2024-01-01T00:00:00.000Z /0 ParallelStateEntered "I" {}
5 4 2024-01-01T00:00:00.000Z /0 ParallelStateStarted "I" {}
6 5 2024-01-01T00:00:00.000Z /0/0 FailStateEntered "F" {}
7 3 2024-01-01T00:00:00.000Z /1 PassStateEntered "H" {}
8 7 2024-01-01T00:00:00.000Z /1 PassStateExited "H" {}
9 6 2024-01-01T00:00:00.000Z /0 ParallelStateFailed "I" {"Error":"E"}
10 9 2024-01-01T00:00:00.000Z /0 ParallelStateExited "I" {"Error":"E"}
11 10 2024-01-01T00:00:00.000Z /0 SucceedStateEntered "R" {"Error":"E"}
12 11 2024-01-01T00:00:00.000Z /0 SucceedStateExited "R" {"Error":"E"}
13 12 2024-01-01T00:00:00.000Z / ParallelStateSucceeded "O" {}
14 13 2024-01-01T00:00:00.000Z / ParallelStateExited "O" [{"Error":"E"},{}]
15 14 2024-01-01T00:00:00.000Z / ExecutionSucceeded "" [{"Error":"E"},{}]
status SUCCEEDED [{"Error":"E"},{}]
""",
        )

    def test_an_outer_branch_that_fails_stops_the_branches_under_its_siblings(self):
        definition = (
            '{"StartAt":"O","States":{"O":{"Type":"Parallel","Branches":[{"StartAt":"I","States":{"I":{"Type":"Parallel",'
            '"Branches":[{"StartAt":"G","States":{"G":{"Type":"Pass","End":true}}}],"End":true}}},{"StartAt":"F",'
            '"States":{"F":{"Type":"Fail","Error":"E","Cause":"c"}}}],"Catch":[{"ErrorEquals":["E"],"ResultPath":"$.why","Next":"H"}],'
            '"End":true},"H":{"Type":"Succeed"}}}'
        )
        text = self.told(definition, '{"k":1}', steps(["/", "/0", "/", "/1", "/0/0", "/0", "/0/1", "/1", "/", "/0", "/"]))
        replies = """\
step / ok
step /0 ok
step / S5 Busy
step /1 ok
step /0/0 S3 Stopped
step /0 S3 Stopped
step /0/1 S2 NoSuchPlace
step /1 S4 Finished
step / ok
step /0 S2 NoSuchPlace
step / ok
"""
        self.assertTrue(text.startswith(replies), text)
        self.assertTrue(text.endswith('\nstatus SUCCEEDED {"k":1,"why":{"Error":"E","Cause":"c"}}\n'), text)

    def test_the_outputs_in_the_order_of_the_branches_are_the_result(self):
        for members, given, lines, status in JOINED:
            with self.subTest(members):
                definition = (
                    '{"StartAt":"Q","States":{"Q":{"Type":"Parallel","Branches":[{"StartAt":"A","States":{"A":{"Type":"Pass","End":true}}},'
                    '{"StartAt":"B","States":{"B":{"Type":"Pass","Result":"b","End":true}}}],%s},"H":{"Type":"Succeed"}}}'
                ) % members
                self.assert_ends(self.told(definition, given, steps(["/", "/1", "/0", "/"])), lines, status)

    def joined(self, *texts):
        branches = ",".join('{"StartAt":"S%d","States":{"S%d":{"Type":"Pass","Result":"%s","End":true}}}' % (number, number, text)
            for number, text in enumerate(texts))
        definition = (
            '{"StartAt":"Q","States":{"Q":{"Type":"Parallel","Branches":[%s],"Catch":[{"ErrorEquals":["States.ALL"],"Next":"Q"}],'
            '"End":true}}}'
        ) % branches
        return self.told(definition, steps=steps(["/", "/0", "/1", "/"]))

    def test_joined_outputs_have_at_most_262144_bytes(self):
        # Beside the characters, two brackets, a comma and four quotes.
        first, second = 131_000 * "x", (262_144 - 7 - 131_000) * "x"
        self.assertTrue(self.joined(first, second).endswith(f'\nstatus SUCCEEDED ["{first}","{second}"]\n'))
        end = """ / ParallelStateSucceeded "Q" {}
9 8 2024-01-01T00:00:00.000Z / ExecutionFailed "" {"Error":"States.DataLimitExceeded","Cause":"data limit"}
status FAILED {"Error":"States.DataLimitExceeded","Cause":"data limit"}
"""
        self.assertTrue(self.joined(first, second + "x").endswith(end))

    def test_a_branch_s_error_is_the_parallel_s(self):
        for members, answers, given, lines, status in FAILED:
            with self.subTest(members):
                definition = (
                    '{"StartAt":"Q","States":{"Q":{"Type":"Parallel","Branches":[{"StartAt":"W","States":{"W":{"Type":"Task",'
                    '"Resource":"r","End":true}}}],%s},"H":{"Type":"Succeed"}}}'
                ) % members
                text = self.told(definition, given, steps(["/", "/0", "/", "/"]), answered(answers), "M#c")
                self.assert_ends(text, lines, status)

    def test_a_retried_parallel_counts_its_retries_and_is_not_entered_again(self):
        # It asks when it was entered and how often it was retried, at the fork and at the join.
        definition = (
            '{"StartAt":"Q","States":{"Q":{"Type":"Parallel","Parameters":{"r.$":"$$.State.RetryCount","at.$":"$$.State.EnteredTime"},'
            '"Branches":[{"StartAt":"W","States":{"W":{"Type":"Task","Resource":"r","ResultSelector":{"v.$":"$",'
            '"r.$":"$$.State.RetryCount","at.$":"$$.State.EnteredTime","in.$":"$$.State.Name"},"ResultPath":"$.w","End":true}}}],'
            '"ResultSelector":{"of.$":"$[0]","r.$":"$$.State.RetryCount","at.$":"$$.State.EnteredTime","in.$":"$$.State.Name"},'
            '"Retry":[{"ErrorEquals":["F"]},{"ErrorEquals":["E"],"IntervalSeconds":1}],"End":true}}}'
        )
        moments = """\
/ 2024-01-01T00:00:00Z
/0 2024-01-01T00:00:00Z
/ 2024-01-01T00:00:00Z
/ 2024-01-01T00:00:01Z
/0 2024-01-01T00:00:02Z
/ 2024-01-01T00:00:03Z
"""
        text = self.told(definition, steps=moments, mocks=answered('"0":{"Throw":{"Error":"E"}},"1":{"Return":"ok"}'), chosen="M#c")
        status = (
            'status SUCCEEDED {"of":{"r":1,"at":"2024-01-01T00:00:00.000Z","w":{"v":"ok","r":0,"at":"2024-01-01T00:00:02.000Z","in":"W"}},'
            '"r":1,"at":"2024-01-01T00:00:00.000Z","in":"Q"}'
        )
        self.assertEqual(text.splitlines()[-1], status)
        self.assertIn(
            """
8 7 2024-01-01T00:00:00.000Z / ParallelStateFailed "Q" {"Error":"E"}
9 8 2024-01-01T00:00:01.000Z / ParallelStateStarted "Q" {}
10 9 2024-01-01T00:00:02.000Z /0 TaskStateEntered "W" {"r":1,"at":"2024-01-01T00:00:00.000Z"}
""",
            text,
        )

    def test_sixteen_machines_in_one_another_run(self):
        definition = '{"StartAt":"P","States":{"P":{"Type":"Pass","End":true}}}'
        for number in range(15):
            definition = '{"StartAt":"S%d","States":{"S%d":{"Type":"Parallel","Branches":[%s],"End":true}}}' % (number, number, definition)
        down = [depth * "/0" or "/" for depth in range(16)]
        text = self.told(definition, steps=steps(down + down[-2::-1]))
        # 31 steps; the start, two events of each fork and of each join, two of the Pass, the end; the status.
        self.assert_ends(text, 31 + 64 + 1, "status SUCCEEDED " + 15 * "[" + "{}" + 15 * "]")
