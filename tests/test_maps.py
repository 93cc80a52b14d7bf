"""Map: an iteration for each item of a list, how many run at once, and what becomes of an iteration's error."""
from program import ProgramTest, answered, steps

# A state of each type, and the kind of the first event that tells of it.
EACH_TYPE = [
    ('"Type":"Pass","End":true', "PassStateEntered"),
    ('"Type":"Task","Resource":"r","End":true', "TaskStateEntered"),
    ('"Type":"Choice","Choices":[{"Variable":"$","IsNumeric":true,"Next":"S"}]', "ChoiceStateEntered"),
    ('"Type":"Wait","Seconds":1,"End":true', "WaitStateEntered"),
    ('"Type":"Parallel","Branches":[{"StartAt":"T","States":{"T":{"Type":"Succeed"}}}],"End":true', "ParallelStateEntered"),
    ('"Type":"Map","Iterator":{"StartAt":"T","States":{"T":{"Type":"Succeed"}}},"ItemsPath":"$$.Execution.Input","End":true', "MapStateEntered"),
    ('"Type":"Succeed"', "SucceedStateEntered"),
    ('"Type":"Fail"', "FailStateEntered"),
]

# How many iterations run at once, the places that are stepped with their replies, and the output. Each iteration is a Task.
SLOTS = [
    (1, [("/", "ok"), ("/1", "S6 Slots"), ("/2", "S6 Slots"), ("/0", "ok"), ("/2", "S6 Slots"), ("/1", "ok"), ("/2", "ok"), ("/", "ok")], '["x","y","z"]'),
    (2, [("/", "ok"), ("/2", "S6 Slots"), ("/1", "ok"), ("/2", "ok"), ("/0", "ok"), ("/2", "S4 Finished"), ("/", "ok")], '["z","x","y"]'),
    (3, [("/", "ok"), ("/2", "ok"), ("/1", "ok"), ("/0", "ok"), ("/", "ok")], '["z","y","x"]'),
    (0, [("/", "ok"), ("/0", "ok"), ("/2", "ok"), ("/1", "ok"), ("/", "ok")], '["x","z","y"]'),
]

# Members of a Map of a Task, the Task's answers, the input, how many lines a run of four steps (to the fork, of the first iteration,
# of the join, and one more) has, and the last one.
ENDED = [
    ('"ItemsPath":"$.q","Catch":[{"ErrorEquals":["States.ALL"],"Next":"H"}],"End":true', "", "{}", 8,
        'status FAILED {"Error":"States.Runtime","Cause":"ItemsPath: no value"}'),
    ('"End":true', "", '{"l":[]}', 8, 'status FAILED {"Error":"States.Runtime","Cause":"ItemsPath: no value"}'),
    ('"InputPath":"$.q","End":true', "", "[]", 8, 'status FAILED {"Error":"States.Runtime","Cause":"InputPath: no value"}'),
    ('"Parameters":{"x.$":"$$.Map.Item.Value.x"},"Catch":[{"ErrorEquals":["States.ALL"],"Next":"H"}],"End":true', "", '[{"x":1},{}]', 11,
        'status SUCCEEDED {"Error":"States.ParameterPathFailure","Cause":"x.$: no value"}'),
    ('"Parameters":{"x.$":"$.q"},"ResultSelector":{"n.$":"States.ArrayLength($)"},"End":true', "", "[]", 11, 'status SUCCEEDED {"n":0}'),
    ('"InputPath":"$.in","ItemsPath":"$.l","ResultPath":"$.out","End":true', '"0":{"Return":"a"}', '{"in":{"l":[0]},"k":1}', 18,
        'status SUCCEEDED {"in":{"l":[0]},"k":1,"out":["a"]}'),
    ('"ResultPath":null,"End":true', '"0":{"Return":"a"}', "[0]", 18, "status SUCCEEDED [0]"),
    ('"OutputPath":"$[1]","End":true', '"0":{"Return":"a"}', "[0]", 17, 'status FAILED {"Error":"States.Runtime","Cause":"OutputPath: no value"}'),
    ('"Catch":[{"ErrorEquals":["E"],"Next":"H"}],"End":true', '"0":{"Throw":{"Error":"E","Cause":"c"}}', "[0]", 19,
        'status SUCCEEDED {"Error":"E","Cause":"c"}'),
    ('"Retry":[{"ErrorEquals":["F"]}],"End":true', '"0":{"Throw":{"Error":"E"}}', "[0]", 16, 'status FAILED {"Error":"E"}'),
]

# One Map: in the older spelling, in the newer one, and in both ways of mixing them.
SPELLINGS = [
    '{"StartAt":"M","States":{"M":{"Type":"Map","Parameters":{"v.$":"$$.Map.Item.Value"},"Iterator":{"StartAt":"P","States":{"P":{"Type":'
    '"Pass","End":true}}},"End":true}}}',
    '{"StartAt":"M","States":{"M":{"Type":"Map","ItemSelector":{"v.$":"$$.Map.Item.Value"},"ItemProcessor":{"ProcessorConfig":{"Mode":'
    '"INLINE"},"StartAt":"P","States":{"P":{"Type":"Pass","End":true}}},"End":true}}}',
    '{"StartAt":"M","States":{"M":{"Type":"Map","Parameters":{"v.$":"$$.Map.Item.Value"},"ItemProcessor":{"StartAt":"P","States":{"P":'
    '{"Type":"Pass","End":true}}},"End":true}}}',
    '{"StartAt":"M","States":{"M":{"Type":"Map","ItemSelector":{"v.$":"$$.Map.Item.Value"},"Iterator":{"StartAt":"P","States":{"P":{"Type":'
    '"Pass","End":true}}},"End":true}}}',
]

class MapTest(ProgramTest):
    def test_iterations_are_stepped_in_turn_and_joined(self):
        # A Map of a Pass over the items of `l`.
        definition = (
            '{"StartAt":"M","States":{"M":{"Type":"Map","ItemsPath":"$.l","Parameters":{"i.$":"$$.Map.Item.Index",'
            '"v.$":"$$.Map.Item.Value","k.$":"$.k"},"Iterator":{"StartAt":"P","States":{"P":{"Type":"Pass","End":true}}},'
            '"ResultPath":"$.r","OutputPath":"$.r","End":true}}}'
        )
        self.assertEqual(
            self.told(definition, '{"l":["a","b"],"k":0}', steps(["/", "/1", "/", "/0", "/"])),
            """\
step / ok
step /1 ok
step / S5 Busy
step /0 ok
step / ok
1 0 2024-01-01T00:00:00.000Z / ExecutionStarted "" {"l":["a","b"],"k":0}
2 1 2024-01-01T00:00:00.000Z / MapStateEntered "M" {"l":["a","b"],"k":0}
3 2 2024-01-01T00:00:00.000Z / MapStateStarted "M" {"length":2}
4 3 2024-01-01T00:00:00.000Z /1 MapIterationStarted "M" {"index":1}
5 4 2024-01-01T00:00:00.000Z /1 PassStateEntered "P" {"i":1,"v":"b","k":0}
6 5 2024-01-01T00:00:00.000Z /1 PassStateExited "P" {"i":1,"v":"b","k":0}
7 6 2024-01-01T00:00:00.000Z /1 MapIterationSucceeded "M" {"index":1}
8 3 2024-01-01T00:00:00.000Z /0 MapIterationStarted "M" {"index":0}
9 8 2024-01-01T00:00:00.000Z /0 PassStateEntered "P" {"i":0,"v":"a","k":0}
10 9 2024-01-01T00:00:00.000Z /0 PassStateExited "P" {"i":0,"v":"a","k":0}
11 10 2024-01-01T00:00:00.000Z /0 MapIterationSucceeded "M" {"index":0}
12 11 2024-01-01T00:00:00.000Z / MapStateSucceeded "M" {}
13 12 2024-01-01T00:00:00.000Z / MapStateExited "M" [{"i":0,"v":"a","k":0},{"i":1,"v":"b","k":0}]
14 13 2024-01-01T00:00:00.000Z / ExecutionSucceeded "" [{"i":0,"v":"a","k":0},{"i":1,"v":"b","k":0}]
status SUCCEEDED [{"i":0,"v":"a","k":0},{"i":1,"v":"b","k":0}]
""",
        )

    def test_an_empty_list_forks_and_joins(self):
        definition = '{"StartAt":"M","States":{"M":{"Type":"Map","End":true,"Iterator":{"StartAt":"S","States":{"S":{"Type":"Succeed"}}}}}}'
        self.assertEqual(
            self.told(definition, "[]", steps(["/", "/0", "/"])),
            """\
step / ok
step /0 S2 NoSuchPlace
step / ok
1 0 2024-01-01T00:00:00.000Z / ExecutionStarted "" []
2 1 2024-01-01T00:00:00.000Z / MapStateEntered "M" []
3 2 2024-01-01T00:00:00.000Z / MapStateStarted "M" {"length":0}
4 3 2024-01-01T00:00:00.000Z / MapStateSucceeded "M" {}
5 4 2024-01-01T00:00:00.000Z / MapStateExited "M" []
6 5 2024-01-01T00:00:00.000Z / ExecutionSucceeded "" []
status SUCCEEDED []
""",
        )

    def test_an_iteration_begins_in_a_state_of_any_type(self):
        for state, kind in EACH_TYPE:
            with self.subTest(kind):
                definition = '{"StartAt":"M","States":{"M":{"Type":"Map","End":true,"Iterator":{"StartAt":"S","States":{"S":{%s}}}}}}' % state
                text = self.told(definition, "[7]", steps(["/", "/0"]), answered(""), "M#c")
                begins = """
4 3 2024-01-01T00:00:00.000Z /0 MapIterationStarted "M" {"index":0}
5 4 2024-01-01T00:00:00.000Z /0 %s "S" 7
"""
                self.assertIn(begins % kind, text)

    def test_at_most_so_many_iterations_run_at_once(self):
        mocks = answered('"0":{"Return":"x"},"1":{"Return":"y"},"2":{"Return":"z"}')
        for most, replies, output in SLOTS:
            with self.subTest(most):
                definition = (
                    '{"StartAt":"M","States":{"M":{"Type":"Map","MaxConcurrency":%d,"Iterator":{"StartAt":"W","States":{"W":{"Type":"Task",'
                    '"Resource":"r","End":true}}},"End":true}}}'
                ) % most
                text = self.told(definition, "[10,20,30]", steps(place for place, _ in replies), mocks, "M#c")
                self.assertTrue(text.startswith("".join(f"step {place} {reply}\n" for place, reply in replies)), text)
                self.assertTrue(text.endswith(f"\nstatus SUCCEEDED {output}\n"), text)

    def test_a_failed_iteration_is_retried_with_all_others(self):
        definition = (
            '{"StartAt":"M","States":{"M":{"Type":"Map","Parameters":{"r.$":"$$.State.RetryCount","v.$":"$$.Map.Item.Value"},'
            '"Iterator":{"StartAt":"W","States":{"W":{"Type":"Task","Resource":"r","ResultPath":"$.w","End":true}}},'
            '"Retry":[{"ErrorEquals":["E"],"IntervalSeconds":1,"MaxAttempts":1}],"End":true}}}'
        )
        moments = steps(["/", "/0", "/1", "/2", "/", "/", "/0"]) + steps(["/", "/0", "/1", "/2", "/"], "2024-01-01T00:00:01Z")
        mocks = answered('"0":{"Return":0},"1":{"Throw":{"Error":"E"}},"2-4":{"Return":1}')
        text = self.told(definition, "[5,6,7]", moments, mocks, "M#c")
        replies = """\
step / ok
step /0 ok
step /1 ok
step /2 S3 Stopped
step / ok
step / S7 NotYet 2024-01-01T00:00:01.000Z
step /0 S2 NoSuchPlace
step / ok
step /0 ok
step /1 ok
step /2 ok
step / ok
"""
        self.assertTrue(text.startswith(replies), text)
        self.assertIn(
            """ /1 MapIterationFailed "M" {"index":1}
17 16 2024-01-01T00:00:00.000Z / MapStateFailed "M" {"Error":"E"}
18 17 2024-01-01T00:00:01.000Z / MapStateStarted "M" {"length":3}
19 18 2024-01-01T00:00:01.000Z /0 MapIterationStarted "M" {"index":0}
20 19 2024-01-01T00:00:01.000Z /0 TaskStateEntered "W" {"r":1,"v":5}
""",
            text,
        )
        self.assertTrue(text.endswith('\nstatus SUCCEEDED [{"r":1,"v":5,"w":1},{"r":1,"v":6,"w":1},{"r":1,"v":7,"w":1}]\n'), text)

    def test_a_map_ends_by_what_its_members_say(self):
        for members, answers, given, lines, status in ENDED:
            with self.subTest(members):
                definition = (
                    '{"StartAt":"M","States":{"M":{"Type":"Map",%s,"Iterator":{"StartAt":"W","States":{"W":{"Type":"Task","Resource":"r",'
                    '"End":true}}}},"H":{"Type":"Succeed"}}}'
                ) % members
                text = self.told(definition, given, steps(["/", "/0", "/", "/"]), answered(answers), "M#c")
                self.assert_ends(text, lines, status)

    def test_the_item_of_the_innermost_map_is_in_the_context(self):
        # A Map in a Map, with a Parallel inside. Each asks for the item that it is at.
        definition = (
            '{"StartAt":"O","States":{"O":{"Type":"Map","Iterator":{"StartAt":"I","States":{"I":{"Type":"Map","InputPath":null,'
            '"ItemsPath":"$$.Map.Item.Value","Parameters":{"i.$":"$$.Map.Item.Index","v.$":"$$.Map.Item.Value"},"Iterator":{"StartAt":"Q",'
            '"States":{"Q":{"Type":"Parallel","Branches":[{"StartAt":"P","States":{"P":{"Type":"Pass","Parameters":{"in.$":"$",'
            '"i.$":"$$.Map.Item.Index","v.$":"$$.Map.Item.Value"},"End":true}}}],"OutputPath":"$[0]","End":true}}},'
            '"ResultSelector":{"all.$":"$","i.$":"$$.Map.Item.Index"},"End":true}}},"End":true}}}'
        )
        places = ["/", "/0", "/1", "/0/0", "/0/1", "/1/0", "/0/0/0", "/0/1/0", "/1/0/0", "/0/0", "/0/1", "/1/0", "/0", "/1", "/"]
        text = self.told(definition, "[[5,6],[7]]", steps(places))
        status = (
            'status SUCCEEDED [{"all":[{"in":{"i":0,"v":5},"i":0,"v":5},{"in":{"i":1,"v":6},"i":1,"v":6}],"i":0},{"all":[{"in":{"i":0,'
            '"v":7},"i":0,"v":7}],"i":1}]'
        )
        self.assertEqual(text.splitlines()[-1], status)
        self.assertIn(' /0/1 MapIterationSucceeded "I" {"index":1}\n', text)
        self.assertIn(' /1 MapIterationSucceeded "O" {"index":1}\n', text)

    def test_a_map_runs_alike_in_each_spelling(self):
        older, *others = [self.told(it, "[1,2]", steps(["/", "/0", "/1", "/"])) for it in SPELLINGS]
        self.assertTrue(older.endswith('\nstatus SUCCEEDED [{"v":1},{"v":2}]\n'), older)
        for other in others:
            self.assertEqual(other, older)

    def test_an_iteration_in_the_middle_fails_a_map_of_999(self):
        definition = (
            '{"StartAt":"M","States":{"M":{"Type":"Map","Iterator":{"StartAt":"W","States":{"W":{"Type":"Task","Resource":"r","End":true}}}'
            ',"Catch":[{"ErrorEquals":["E"],"Next":"H"}],"End":true},"H":{"Type":"Succeed"}}}'
        )
        items = ",".join(999 * ["0"])
        places = ["/", *(f"/{number}" for number in range(501)), "/998", "/", "/"]
        mocks = answered('"0-499":{"Return":1},"500":{"Throw":{"Error":"E"}},"501-998":{"Return":1}')
        text = self.told(definition, f"[{items}]", steps(places), mocks, "M#c")
        self.assertIn("\nstep /500 ok\nstep /998 S3 Stopped\nstep / ok\nstep / ok\n", text)
        # To the fork three, of each iteration seven, or six where it fails, then of the Map's failure, its end and the last state.
        self.assert_ends(text, 505 + 3 + 500 * 7 + 6 + 2 + 3 + 1, 'status SUCCEEDED {"Error":"E"}')
