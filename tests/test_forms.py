"""Printed definitions: whole texts, each with its canonical form, from the table of members by hand."""
from definitions import STATE, DefinitionTest
from nesting import nested

# Definitions, and their canonical forms.
WHOLE = [
    ('{"States":{"A":{"End":true,"Type":"Pass"}},"StartAt":"A"}', '{"StartAt":"A","States":{"A":{"Type":"Pass","End":true}}}'),
    ('{"States":{"A":{"Type":"Succeed"}},"TimeoutSeconds":5.0,"StartAt":"A","Version":"1.0","QueryLanguage":"JSONPath","Comment":"c"}',
        '{"Comment":"c","QueryLanguage":"JSONPath","Version":"1.0","StartAt":"A","TimeoutSeconds":5.0,"States":{"A":{"Type":"Succeed"}}}'),
    ("""\
 {
"StartAt" : "B" , "States" : {"B":{"Type":"Succeed"}, "A":{"Type":"Pass","Next":"B","End":false}} }
""", '{"StartAt":"B","States":{"B":{"Type":"Succeed"},"A":{"Type":"Pass","Next":"B"}}}'),
    (r'{"StartAt":"\u0041\/\u00e9\ud83d\ude00","States":{"A/é😀":{"Type":"Succeed","Comment":"\b\u001F\u0022\\"}}}',
        r'{"StartAt":"A/é😀","States":{"A/é😀":{"Type":"Succeed","Comment":"\b\u001f\"\\"}}}'),
]

# The members of the state A, and these in canonical order.
STATES = [
    ('"End":true,"Type":"Pass"', '"Type":"Pass","End":true'),
    ('"End":false,"Next":"A","Type":"Pass"', '"Type":"Pass","Next":"A"'),
    ('"End":true,"OutputPath":"$.o","ResultPath":null,"Result":{"End":false,"a":[]},"Parameters":{"b":1,"a.$":"$.a"},"InputPath":"$",'
        '"QueryLanguage":"JSONPath","Comment":"c","Type":"Pass"',
        '"Type":"Pass","Comment":"c","QueryLanguage":"JSONPath","InputPath":"$","Parameters":{"b":1,"a.$":"$.a"},"Result":{"End":false,"a":'
        '[]},"ResultPath":null,"OutputPath":"$.o","End":true'),
    ('"Next":"A","Catch":[{"Next":"A","ResultPath":"$.e","ErrorEquals":["E"],"Comment":"c"}],"Retry":[{"JitterStrategy":"NONE",'
        '"MaxDelaySeconds":6e1,"BackoffRate":1.50,"MaxAttempts":2.0,"IntervalSeconds":3,"ErrorEquals":["E","F"],"Comment":"c"}],'
        '"OutputPath":"$","ResultPath":"$.r","ResultSelector":{"x":1},"HeartbeatSecondsPath":"$.h","TimeoutSeconds":9,"Credentials":{"z":1,'
        '"a":2},"Parameters":[],"InputPath":null,"Resource":"r","Comment":"c","Type":"Task"',
        '"Type":"Task","Comment":"c","Resource":"r","InputPath":null,"Parameters":[],"Credentials":{"z":1,"a":2},"TimeoutSeconds":9,'
        '"HeartbeatSecondsPath":"$.h","ResultSelector":{"x":1},"ResultPath":"$.r","OutputPath":"$","Retry":[{"Comment":"c","ErrorEquals":'
        '["E","F"],"IntervalSeconds":3,"MaxAttempts":2.0,"BackoffRate":1.50,"MaxDelaySeconds":6e1,"JitterStrategy":"NONE"}],"Catch":'
        '[{"Comment":"c","ErrorEquals":["E"],"ResultPath":"$.e","Next":"A"}],"Next":"A"'),
    ('"HeartbeatSeconds":5,"TimeoutSecondsPath":"$.t","End":true,"Resource":"r","Type":"Task"',
        '"Type":"Task","Resource":"r","TimeoutSecondsPath":"$.t","HeartbeatSeconds":5,"End":true'),
    ('"OutputPath":"$","Default":"A","Choices":[{"Next":"A","NumericEquals":1.0,"Variable":"$.v","Comment":"c"},{"Next":"A","And":'
        '[{"IsPresent":true,"Variable":"$.v"},{"Not":{"StringMatches":"a*","Variable":"$.w"}}]},{"Or":[{"BooleanEqualsPath":"$.b",'
        '"Variable":"$.v"}],"Next":"A"}],"InputPath":"$","Type":"Choice"',
        '"Type":"Choice","InputPath":"$","Choices":[{"Comment":"c","Variable":"$.v","NumericEquals":1.0,"Next":"A"},{"And":[{"Variable":'
        '"$.v","IsPresent":true},{"Not":{"Variable":"$.w","StringMatches":"a*"}}],"Next":"A"},{"Or":[{"Variable":"$.v","BooleanEqualsPath":'
        '"$.b"}],"Next":"A"}],"Default":"A","OutputPath":"$"'),
    ('"End":true,"OutputPath":"$","Seconds":5,"InputPath":"$","Type":"Wait"', '"Type":"Wait","InputPath":"$","Seconds":5,"OutputPath":"$","End":true'),
    ('"End":true,"SecondsPath":"$.s","Type":"Wait"', '"Type":"Wait","SecondsPath":"$.s","End":true'),
    ('"End":true,"Timestamp":"2024-01-01T01:00:00.0001+01:00","Type":"Wait"', '"Type":"Wait","Timestamp":"2024-01-01T01:00:00.0001+01:00","End":true'),
    ('"End":true,"TimestampPath":"$.t","Type":"Wait"', '"Type":"Wait","TimestampPath":"$.t","End":true'),
    ('"End":true,"Catch":[],"Retry":[],"OutputPath":"$","ResultPath":"$","ResultSelector":1,"Branches":[{"States":{"C":{"Type":"Succeed"},'
        '"B":{"Next":"C","Type":"Pass"}},"StartAt":"B","Comment":"c"},{"States":{"D":{"Type":"Fail"}},"StartAt":"D"}],"Parameters":{},'
        '"InputPath":"$","Type":"Parallel"',
        '"Type":"Parallel","InputPath":"$","Parameters":{},"Branches":[{"Comment":"c","StartAt":"B","States":{"C":{"Type":"Succeed"},"B":'
        '{"Type":"Pass","Next":"C"}}},{"StartAt":"D","States":{"D":{"Type":"Fail"}}}],"ResultSelector":1,"ResultPath":"$","OutputPath":"$",'
        '"Retry":[],"Catch":[],"End":true'),
    ('"End":true,"Catch":[],"Retry":[],"OutputPath":"$","ResultPath":"$","ResultSelector":1,"Iterator":{"States":{"B":{"Type":"Succeed"}},'
        '"StartAt":"B"},"Parameters":{},"MaxConcurrency":0,"ItemsPath":"$.i","InputPath":"$","Type":"Map"',
        '"Type":"Map","InputPath":"$","ItemsPath":"$.i","MaxConcurrency":0,"Parameters":{},"Iterator":{"StartAt":"B","States":{"B":{"Type":'
        '"Succeed"}}},"ResultSelector":1,"ResultPath":"$","OutputPath":"$","Retry":[],"Catch":[],"End":true'),
    ('"End":true,"Catch":[],"Retry":[],"OutputPath":"$","ResultPath":"$","ResultSelector":1,"ItemProcessor":{"States":{"B":{"End":true,'
        '"Type":"Pass"}},"StartAt":"B","ProcessorConfig":{"Mode":"INLINE"},"Comment":"c"},"ItemSelector":{"z":1,"v.$":"$$.Map.Item.Value"},'
        '"MaxConcurrency":0,"ItemsPath":"$.i","InputPath":"$","Type":"Map"',
        '"Type":"Map","InputPath":"$","ItemsPath":"$.i","MaxConcurrency":0,"ItemSelector":{"z":1,"v.$":"$$.Map.Item.Value"},'
        '"ItemProcessor":{"Comment":"c","ProcessorConfig":{"Mode":"INLINE"},"StartAt":"B","States":{"B":{"Type":"Pass","End":true}}},'
        '"ResultSelector":1,"ResultPath":"$","OutputPath":"$","Retry":[],"Catch":[],"End":true'),
    ('"Next":"A","ItemProcessor":{"States":{"B":{"Type":"Succeed"}},"StartAt":"B","ProcessorConfig":{}},"Parameters":[1],"Type":"Map"',
        '"Type":"Map","Parameters":[1],"ItemProcessor":{"ProcessorConfig":{},"StartAt":"B","States":{"B":{"Type":"Succeed"}}},"Next":"A"'),
    ('"Iterator":{"States":{"B":{"Type":"Succeed"}},"StartAt":"B"},"ItemSelector":null,"End":true,"Type":"Map"',
        '"Type":"Map","ItemSelector":null,"Iterator":{"StartAt":"B","States":{"B":{"Type":"Succeed"}}},"End":true'),
    ('"OutputPath":null,"InputPath":null,"Comment":"c","Type":"Succeed"', '"Type":"Succeed","Comment":"c","InputPath":null,"OutputPath":null'),
    ('"Cause":"c","Error":"e","Type":"Fail"', '"Type":"Fail","Error":"e","Cause":"c"'),
    ('"CausePath":"$.c","ErrorPath":"$.e","Type":"Fail"', '"Type":"Fail","ErrorPath":"$.e","CausePath":"$.c"'),
]


class FormTest(DefinitionTest):
    def assert_printed(self, wanted):
        """Each text is printed so, and what is printed is printed the same."""
        self.assert_answers([*wanted, *((form, form) for _, form in wanted)])

    def test_whole_definitions(self):
        self.assert_printed(WHOLE)

    def test_states(self):
        self.assert_printed([(STATE.around(members), STATE.around(form)) for members, form in STATES])

    def test_sixteen_machines(self):
        self.assert_answers([(nested(16), nested(16))])
