"""What states make of data: templates, paths into the Context Object, errors that a Fail names."""
from program import ProgramTest

TWO_STEPS = "/ 2024-01-01T00:00:00Z\n/ 2024-01-01T00:00:05Z\n"

# Members of the state A, the input, how many lines a run of two steps has, and the last one.
ONE_STATE = [
    ('"Type":"Pass","Parameters":{"s.$":"$$.State.Name","t.$":"$$.Execution.StartTime"},"End":true', "{}", 7,
        'status SUCCEEDED {"s":"A","t":"2024-01-01T00:00:00.000Z"}'),
    ('"Type":"Pass","InputPath":"$$","End":true', '{"n":1.50}', 7,
        'status SUCCEEDED {"Execution":{"Id":"execution:M:run","Name":"run","Input":{"n":1.50},"StartTime":"2024-01-01T00:00:00.000Z"},'
        '"StateMachine":{"Id":"stateMachine:M","Name":"M"},"State":{"Name":"A","EnteredTime":"2024-01-01T00:00:00.000Z","RetryCount":0}}'),
    ('"Type":"Pass","InputPath":"$.a","Parameters":{"k.$":"$.b","l":[{"m.$":"States.MathAdd($.b, 1)"}]},"ResultPath":"$.r","OutputPath":'
        '"$.r","End":true', '{"a":{"b":1}}', 7, 'status SUCCEEDED {"k":1,"l":[{"m":2}]}'),
    ('"Type":"Pass","Result":{"k.$":"$.x"},"ResultPath":"$.r","End":true', '{"a":1}', 7, 'status SUCCEEDED {"a":1,"r":{"k.$":"$.x"}}'),
    ('"Type":"Pass","Parameters":{"x.$":"$.q"},"Result":7,"End":true', "{}", 6,
        'status FAILED {"Error":"States.ParameterPathFailure","Cause":"x.$: no value"}'),
    ('''"Type":"Pass","Parameters":{"x.$":"States.MathAdd('x', 1)"},"End":true''', "{}", 6,
        'status FAILED {"Error":"States.IntrinsicFailure","Cause":"x.$: unfit"}'),
    ('"Type":"Pass","Parameters":{"x.$":"States.MathAdd($.q, 1)"},"End":true', "{}", 6,
        'status FAILED {"Error":"States.IntrinsicFailure","Cause":"x.$: path"}'),
    ('"Type":"Pass","OutputPath":"$$.Task.Token","End":true', "{}", 6, 'status FAILED {"Error":"States.Runtime","Cause":"OutputPath: no value"}'),
    ('"Type":"Succeed","OutputPath":"$$.StateMachine"', "{}", 7, 'status SUCCEEDED {"Id":"stateMachine:M","Name":"M"}'),
    ('"Type":"Fail"', "{}", 6, "status FAILED {}"),
    ('''"Type":"Fail","Error":"E","CausePath":"States.Format('n={}', $.n)"''', '{"n":2}', 6, 'status FAILED {"Error":"E","Cause":"n=2"}'),
    ('"Type":"Fail","ErrorPath":"$$.State.Name","Cause":"because"', "{}", 6, 'status FAILED {"Error":"A","Cause":"because"}'),
    ('"Type":"Fail","Error":"E","CausePath":"$.n"', '{"n":2}', 6, 'status FAILED {"Error":"States.Runtime","Cause":"CausePath: no value"}'),
    ('"Type":"Fail","ErrorPath":"$.e","CausePath":"$.c"', "{}", 6, 'status FAILED {"Error":"States.Runtime","Cause":"ErrorPath: no value"}'),
]

# A Pass that asks when it was entered, and one that asks for more.
TWO_PASSES = (
    '{"StartAt":"A","States":{"A":{"Type":"Pass","Parameters":{"at.$":"$$.State.EnteredTime"},"Next":"B"},"B":{"Type":"Pass",'
    '"Parameters":{"a.$":"$.at","b.$":"$$.State.EnteredTime","start.$":"$$.Execution.StartTime","name.$":"$$.Execution.Name",'
    '"state.$":"$$.State.Name"},"End":true}}}'
)

LIMIT = 'status FAILED {"Error":"States.DataLimitExceeded","Cause":"data limit"}'


def passes(result, more=""):
    return '{"StartAt":"A","States":{"A":{"Type":"Pass","Result":%s%s,"End":true}}}' % (result, more)


class DataTest(ProgramTest):
    def test_one_state_tells_what_it_makes(self):
        for members, given, lines, status in ONE_STATE:
            with self.subTest(members):
                definition = '{"StartAt":"A","States":{"A":{%s}}}' % members
                self.assert_ends(self.told(definition, given, TWO_STEPS), lines, status)

    def test_each_state_sees_a_context_of_its_own(self):
        mocks = '{"StateMachines":{"M":{"TestCases":{"c":{}}}}}'
        text = self.told(TWO_PASSES, steps=TWO_STEPS, mocks=mocks, chosen="M#c")
        status = 'status SUCCEEDED {"a":"2024-01-01T00:00:00.000Z","b":"2024-01-01T00:00:05.000Z","start":"2024-01-01T00:00:00.000Z","name":"c","state":"B"}'
        self.assertEqual(text.splitlines()[-1], status)

    def test_a_call_whose_path_names_nothing_fails_a_pass(self):
        definition = """{"StartAt":"P","States":{"P":{"Type":"Pass","Parameters":{"s.$":"States.Format('{} is {}', $.n, 2.50)"},"End":true}}}"""
        self.assert_ends(self.told(definition, '{"n":"x"}', TWO_STEPS), 7, 'status SUCCEEDED {"s":"x is 2.50"}')
        failure = 'status FAILED {"Error":"States.IntrinsicFailure","Cause":"s.$: path"}'
        self.assert_ends(self.told(definition, "{}", TWO_STEPS), 6, failure)

    def test_an_output_has_at_most_262144_bytes(self):
        # Beside the characters, two quotes.
        most = '"' + 262_142 * "x" + '"'
        self.assert_ends(self.told(passes(most), steps=TWO_STEPS), 7, f"status SUCCEEDED {most}")
        over = '"' + 262_143 * "x" + '"'
        self.assert_ends(self.told(passes(over), steps=TWO_STEPS), 6, LIMIT)
        part = self.told(passes('{"k":1,"l":%s}' % over, ',"OutputPath":"$.k"'), steps=TWO_STEPS)
        self.assert_ends(part, 7, "status SUCCEEDED 1")
