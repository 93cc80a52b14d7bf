"""Where runs go on and when: Choice and Wait."""
from program import ProgramTest, steps

# Counts to two in a loop.
LOOP = (
    '{"StartAt":"A","States":{"A":{"Type":"Pass","Parameters":{"n.$":"States.MathAdd($.n, 1)"},"Next":"D"},"D":{"Type":"Pass","Next":"C"},'
    '"C":{"Type":"Choice","Choices":[{"Variable":"$.n","NumericLessThan":2,"Next":"A"}],"Default":"Z"},"Z":{"Type":"Succeed"}}}'
)

# Members of the Choice A, the input, how many lines a run of two steps has, and the last one. A goes on to Y or Z.
CHOICES = [
    ('"Type":"Choice","Choices":[{"Variable":"$.n","NumericEquals":2,"Next":"Y"},{"Variable":"$.n","NumericEquals":1,"Next":"Z"},'
        '{"Variable":"$.n","IsNumeric":true,"Next":"Y"}]', '{"n":1}', 9, 'status SUCCEEDED "z"'),
    ('"Type":"Choice","Choices":[{"Variable":"$.n","NumericEquals":2,"Next":"Z"}],"Default":"Y","OutputPath":"$.n"', '{"n":1}', 9, "status SUCCEEDED 1"),
    ('"Type":"Choice","InputPath":"$.a","Choices":[{"Variable":"$.n","NumericEquals":1,"Next":"Y"}]', '{"a":{"n":1}}', 9, 'status SUCCEEDED {"n":1}'),
    ('"Type":"Choice","Choices":[{"Variable":"$$.State.Name","StringEquals":"A","Next":"Y"}]', "{}", 9, "status SUCCEEDED {}"),
    ('"Type":"Choice","Choices":[{"And":[{"Variable":"$.v","IsPresent":true},{"Variable":"$.v","NumericEquals":1}],"Next":"Y"}]', "{}", 6,
        'status FAILED {"Error":"States.NoChoiceMatched","Cause":"no rule holds"}'),
    ('"Type":"Choice","Choices":[{"And":[{"Variable":"$.v","NumericEquals":1},{"Variable":"$.v","IsPresent":true}],"Next":"Y"}]', "{}", 6,
        'status FAILED {"Error":"States.Runtime","Cause":"$.v: no value"}'),
    (r'"Type":"Choice","Choices":[{"Variable":"$.v","StringMatches":"a\\b","Next":"Y"}],"Default":"Z"', '{"v":"ab"}', 6,
        'status FAILED {"Error":"States.Runtime","Cause":"StringMatches: open escape"}'),
    ('"Type":"Choice","Choices":[{"Variable":"$.v","IsNull":true,"Next":"Y"}],"Default":"Z","OutputPath":"$.q"', "{}", 6,
        'status FAILED {"Error":"States.Runtime","Cause":"$.v: no value"}'),
    ('"Type":"Choice","Choices":[{"Variable":"$","IsNull":true,"Next":"Y"}],"OutputPath":"$.q"', "{}", 6,
        'status FAILED {"Error":"States.NoChoiceMatched","Cause":"no rule holds"}'),
    ('"Type":"Choice","Choices":[{"Variable":"$","IsNull":false,"Next":"Y"}],"OutputPath":"$.q"', "{}", 6,
        'status FAILED {"Error":"States.Runtime","Cause":"OutputPath: no value"}'),
]

# The same of the Wait A. The second step comes five seconds after the first.
WAITS = [
    ('"Type":"Wait","Seconds":0,"End":true', "{}", 7, "status SUCCEEDED {}"),
    ('"Type":"Wait","Seconds":5,"End":true', "{}", 7, "status SUCCEEDED {}"),
    ('"Type":"Wait","Seconds":6,"End":true', "{}", 5, "status RUNNING"),
    ('"Type":"Wait","InputPath":"$.a","Seconds":0,"End":true', "{}", 6, 'status FAILED {"Error":"States.Runtime","Cause":"InputPath: no value"}'),
    ('"Type":"Wait","SecondsPath":"$.s","End":true', '{"s":5.0}', 7, 'status SUCCEEDED {"s":5.0}'),
    ('"Type":"Wait","InputPath":"$.a","SecondsPath":"$.s","OutputPath":"$.s","End":true', '{"a":{"s":5}}', 7, "status SUCCEEDED 5"),
    ('"Type":"Wait","SecondsPath":"$$.State.RetryCount","End":true', "{}", 7, "status SUCCEEDED {}"),
    ('"Type":"Wait","SecondsPath":"$.s","End":true', '{"s":1.5}', 6, 'status FAILED {"Error":"States.Runtime","Cause":"SecondsPath: no value"}'),
    ('"Type":"Wait","SecondsPath":"$.s","End":true', '{"s":-1}', 6, 'status FAILED {"Error":"States.Runtime","Cause":"SecondsPath: no value"}'),
    ('"Type":"Wait","SecondsPath":"$.s","End":true', '{"s":100000000}', 6, 'status FAILED {"Error":"States.Runtime","Cause":"SecondsPath: no value"}'),
    ('"Type":"Wait","SecondsPath":"$.s","End":true', '{"s":"5"}', 6, 'status FAILED {"Error":"States.Runtime","Cause":"SecondsPath: no value"}'),
    ('"Type":"Wait","Timestamp":"2023-01-01T00:00:00Z","End":true', "{}", 7, "status SUCCEEDED {}"),
    ('"Type":"Wait","Timestamp":"2024-01-01T00:00:05.0001Z","End":true', "{}", 5, "status RUNNING"),
    ('"Type":"Wait","TimestampPath":"$.t","End":true', '{"t":"2024-01-01T01:00:05+01:00"}', 7, 'status SUCCEEDED {"t":"2024-01-01T01:00:05+01:00"}'),
    ('"Type":"Wait","TimestampPath":"$.t","End":true', '{"t":"2024-01-01t00:00:00Z"}', 6,
        'status FAILED {"Error":"States.Runtime","Cause":"TimestampPath: no value"}'),
    ('"Type":"Wait","Seconds":0,"InputPath":"$.q","End":true', "{}", 6, 'status FAILED {"Error":"States.Runtime","Cause":"InputPath: no value"}'),
    ('"Type":"Wait","Seconds":0,"OutputPath":"$.q","End":true', "{}", 6, 'status FAILED {"Error":"States.Runtime","Cause":"OutputPath: no value"}'),
]


class FlowTest(ProgramTest):
    def test_a_loop_counts_to_two(self):
        text = self.told(LOOP, '{"n":0}', steps(7 * "/"))
        self.assert_ends(text, 24, 'status SUCCEEDED {"n":2}')
        self.assertIn(
            """
6 5 2024-01-01T00:00:00.000Z / ChoiceStateEntered "C" {"n":1}
7 6 2024-01-01T00:00:00.000Z / ChoiceStateExited "C" {"n":1}
8 7 2024-01-01T00:00:00.000Z / PassStateEntered "A" {"n":1}
""",
            text,
        )
        self.assertIn('\n16 15 2024-01-01T00:00:00.000Z / ExecutionSucceeded "" {"n":2}\n', text)

    def one_state(self, members, given, others=""):
        definition = '{"StartAt":"A","States":{"A":{%s}%s}}' % (members, others)
        return self.told(definition, given, "/ 2024-01-01T00:00:00Z\n/ 2024-01-01T00:00:05Z\n")

    def test_a_choice_goes_on_by_its_first_rule_that_holds(self):
        targets = ',"Y":{"Type":"Succeed"},"Z":{"Type":"Pass","Result":"z","End":true}'
        for members, given, lines, status in CHOICES:
            with self.subTest(members):
                self.assert_ends(self.one_state(members, given, targets), lines, status)

    def test_a_wait_waits_as_long_as_it_says(self):
        for members, given, lines, status in WAITS:
            with self.subTest(members):
                self.assert_ends(self.one_state(members, given), lines, status)

    def test_a_wait_is_over_at_the_next_millisecond(self):
        definition = '{"StartAt":"W","States":{"W":{"Type":"Wait","Timestamp":"2024-01-01T01:00:00.0001+01:00","Next":"P"},"P":{"Type":"Pass","End":true}}}'
        moments = "/ 2024-01-01T00:00:00Z\n/ 2024-01-01T00:00:00Z\n/ 2024-01-01T00:00:00.001Z\n/ 2024-01-01T00:00:00Z\n"
        self.assertEqual(
            self.told(definition, steps=moments),
            """\
step / ok
step / S7 NotYet 2024-01-01T00:00:00.001Z
step / ok
step / ok
1 0 2024-01-01T00:00:00.000Z / ExecutionStarted "" {}
2 1 2024-01-01T00:00:00.000Z / WaitStateEntered "W" {}
3 2 2024-01-01T00:00:00.001Z / WaitStateExited "W" {}
4 3 2024-01-01T00:00:00.001Z / PassStateEntered "P" {}
5 4 2024-01-01T00:00:00.001Z / PassStateExited "P" {}
6 5 2024-01-01T00:00:00.001Z / ExecutionSucceeded "" {}
status SUCCEEDED {}
""",
        )

    def test_a_wait_ends_at_the_last_moment(self):
        definition = '{"StartAt":"W","States":{"W":{"Type":"Wait","Seconds":10,"End":true}}}'
        text = self.told(definition, steps="/ 9999-12-31T23:59:59Z\n/ 9999-12-31T23:59:59.998Z\n/ 9999-12-31T23:59:59.999Z\n")
        self.assertTrue(text.startswith("step / ok\nstep / S7 NotYet 9999-12-31T23:59:59.999Z\nstep / ok\n"), text)
        self.assertTrue(text.endswith("\nstatus SUCCEEDED {}\n"), text)
