"""Definitions with planted faults, each with the line that tells of it."""
from definitions import STATE, DefinitionTest, answer
from nesting import nested

# Definitions, and what is told of each.
WHOLE = [
    ("1", "F2 NotObject"),
    ("{}", "F3 Missing /StartAt"),
    ('{"StartAt":"","States":{"":{"Type":"Succeed"}}}', "F7 Range /States/"),
    ("", "F1 Json J1 Syntax 0"),
    ('{"a":1.0e19}', "F1 Json J4 Number 5"),
    ('{"StartAt":"A","StartAt":5}', "F1 Json J2 Duplicate 15"),
    ("[]", "F2 NotObject"),
    ('{"StartAt":"A"}', "F3 Missing /States"),
    ('{"StartAt":"A","States":{}}', "F10 NoTarget /StartAt"),
    ('{"QueryLanguage":"JSONata","StartAt":"A","States":{"A":{"Type":"Succeed"}}}', "F5 Unsupported /QueryLanguage"),
    ('{"QueryLanguage":"JSONPath","Version":"1.0","TimeoutSeconds":5,"Comment":"c","StartAt":"A","States":{"A":{"Type":"Succeed"}}}', "ok"),
    ('{"Version":"1.1","StartAt":"A","States":{"A":{"Type":"Succeed"}}}', "F5 Unsupported /Version"),
    ('{"Version":1,"StartAt":"A","States":{"A":{"Type":"Succeed"}}}', "F6 WrongType /Version"),
    ('{"TimeoutSeconds":0,"StartAt":"A","States":{"A":{"Type":"Succeed"}}}', "F7 Range /TimeoutSeconds"),
    ('{"TimeoutSeconds":100000000,"StartAt":"A","States":{"A":{"Type":"Succeed"}}}', "F7 Range /TimeoutSeconds"),
    ('{"TimeoutSeconds":2.0,"StartAt":"A","States":{"A":{"Type":"Succeed"}}}', "ok"),
    ('{"TimeoutSeconds":1.5,"StartAt":"A","States":{"A":{"Type":"Succeed"}}}', "F7 Range /TimeoutSeconds"),
    ('{"StartAt":"A","States":{"":{"Type":"Succeed"},"A":{"Type":"Succeed"}}}', "F7 Range /States/"),
    ('{"StartAt":"A","States":[]}', "F6 WrongType /States"),
    ('{"StartAt":"A","States":{"A":1}}', "F6 WrongType /States/A"),
    ('{"StartAt":"A","Foo":1,"States":{"A":{"Type":"Pass","Next":"X","Foo":2}}}', "F4 UnknownField /Foo"),
    ('{"StartAt":"A","States":{"A":{"Type":"Parallel","End":true,"Branches":[{"StartAt":"A","States":{"A":{"Type":"Succeed"}}}]}}}',
        "F11 DuplicateState /States/A/Branches/0/States/A"),
    ('{"StartAt":"A","States":{"A":{"Type":"Parallel","End":true,"Branches":[{"StartAt":"B","States":{"B":{"Type":"Succeed"}}},{"StartAt":'
        '"B","States":{"B":{"Type":"Succeed"}}}]}}}', "F11 DuplicateState /States/A/Branches/1/States/B"),
    ('{"StartAt":"A","States":{"A":{"Type":"Parallel","End":true,"Branches":[{"StartAt":"C","States":{"B":{"Type":"Succeed"}}}]}}}',
        "F10 NoTarget /States/A/Branches/0/StartAt"),
]

# The members of the state A, and what is told of the definition.
STATES = [
    ('"Next":"X"', "F3 Missing /States/A/Type"),
    ('"Type":"Succeed","a/b~c":1', "F4 UnknownField /States/A/a~1b~0c"),
    ('"Type":"Foo","Bar":1', "F5 Unsupported /States/A/Type"),
    ('"Type":1,"Bar":1', "F6 WrongType /States/A/Type"),
    ('"Type":"Succeed","OutputPath":"$$"', "ok"),
    ('"Type":"Succeed","InputPath":"$.a","OutputPath":null', "ok"),
    ('"Type":"Pass","End":false,"Next":"A","Result":{"Type":1}', "ok"),
    ('"Type":"Pass","Next":"A","End":true', "F8 Both /States/A/End"),
    ('"Type":"Pass","End":true,"Next":"A"', "F8 Both /States/A/Next"),
    ('"Type":"Pass","End":false', "F9 Neither /States/A"),
    ('"Type":"Pass","End":false,"Next":"A"', "ok"),
    ('"Type":"Pass","End":0', "F6 WrongType /States/A/End"),
    ('"Type":5', "F6 WrongType /States/A/Type"),
    ('"Type":"Foo"', "F5 Unsupported /States/A/Type"),
    ("", "F3 Missing /States/A/Type"),
    ('"Type":"Pass","Next":"X"', "F10 NoTarget /States/A/Next"),
    ('"Type":"Pass","Next":"X","Foo":1', "F4 UnknownField /States/A/Foo"),
    ('"Type":"Pass","Next":"X","Assign":1', "F5 Unsupported /States/A/Assign"),
    ('"Type":"Pass","End":true,"InputPath":"$.a[*]"', "F13 Path /States/A/InputPath"),
    ('"Type":"Pass","End":true,"InputPath":"$$.a","OutputPath":null', "ok"),
    ('"Type":"Pass","End":true,"ResultPath":"$$.a"', "F13 Path /States/A/ResultPath"),
    ('"Type":"Pass","End":true,"Parameters":{"x.$":"States.Nope()"}', "F14 Expression /States/A/Parameters/x.$"),
    ('"Type":"Pass","End":true,"Parameters":{"x.$":"$.a..b"}', "F13 Path /States/A/Parameters/x.$"),
    ('"Type":"Pass","End":true,"Parameters":[0,{"x.$":5}]', "F6 WrongType /States/A/Parameters/1/x.$"),
    ('"Type":"Pass","End":true,"Parameters":{"x.$":"$.a","y":{"x":1,"x.$":"$"}}', "F8 Both /States/A/Parameters/y/x.$"),
    ('"Type":"Pass","End":true,"Parameters":{"x.$":"$.a","y.$":"States.Array(1)","z":{"a":[1,"$.b"]}}', "ok"),
    ('"Type":"Pass","End":true,"Result":{"x.$":5}', "ok"),
    ('"Type":"Task","Resource":"r","End":true,"Retry":[{"ErrorEquals":["E"],"MaxAttempts":1.5}]', "F7 Range /States/A/Retry/0/MaxAttempts"),
    ('"Type":"Task","Resource":"r","End":true,"Retry":[{"ErrorEquals":["States.ALL"]},{"ErrorEquals":["E"]}]', "F12 AllNotLast /States/A/Retry/0/ErrorEquals"),
    ('"Type":"Task","Resource":"r","End":true,"Retry":[{"ErrorEquals":["E"]},{"ErrorEquals":["States.ALL"]}]', "ok"),
    ('"Type":"Task","Resource":"r","End":true,"Retry":[{"ErrorEquals":["States.ALL","States.ALL"]}]', "F12 AllNotLast /States/A/Retry/0/ErrorEquals"),
    ('"Type":"Task","Resource":"r","End":true,"Catch":[{"ErrorEquals":["States.ALL"],"Next":"A"},{"ErrorEquals":["E"],"Next":"A"}]',
        "F12 AllNotLast /States/A/Catch/0/ErrorEquals"),
    ('"Type":"Task","Resource":"r","End":true,"Catch":[{"ErrorEquals":["E","States.ALL"],"Next":"A"}]', "F12 AllNotLast /States/A/Catch/0/ErrorEquals"),
    ('"Type":"Task","Resource":"r","End":true,"Retry":[{"ErrorEquals":[]}]', "F7 Range /States/A/Retry/0/ErrorEquals"),
    ('"Type":"Task","Resource":"r","End":true,"Retry":[{"ErrorEquals":["E",1]}]', "F6 WrongType /States/A/Retry/0/ErrorEquals/1"),
    ('"Type":"Task","Resource":"r","End":true,"Retry":[],"Catch":[]', "ok"),
    ('"Type":"Task","Resource":"r","End":true,"Retry":[{"ErrorEquals":["E"],"BackoffRate":2.0,"IntervalSeconds":3,"MaxAttempts":0}]', "ok"),
    ('"Type":"Task","Resource":"r","End":true,"Retry":[{"ErrorEquals":["E"],"BackoffRate":0.5}]', "F7 Range /States/A/Retry/0/BackoffRate"),
    ('"Type":"Task","Resource":"r","End":true,"Retry":[{"ErrorEquals":["E"],"Label":"x"}]', "F5 Unsupported /States/A/Retry/0/Label"),
    ('"Type":"Task","Resource":"r","End":true,"Retry":[{"ErrorEquals":["E"],"MaxDelaySeconds":5,"JitterStrategy":"NONE"}]', "ok"),
    ('"Type":"Task","Resource":"r","End":true,"Retry":[{"ErrorEquals":["E"],"MaxDelaySeconds":31622400}]', "F7 Range /States/A/Retry/0/MaxDelaySeconds"),
    ('"Type":"Task","Resource":"r","End":true,"Retry":[{"ErrorEquals":["E"],"JitterStrategy":"HALF"}]', "F7 Range /States/A/Retry/0/JitterStrategy"),
    ('"Type":"Task","Resource":"r","End":true,"Retry":[{"ErrorEquals":["E"],"JitterStrategy":null}]', "F6 WrongType /States/A/Retry/0/JitterStrategy"),
    ('"Type":"Task","Resource":"r","End":true,"Catch":[{"ErrorEquals":["E"],"Next":"A","MaxDelaySeconds":5}]',
        "F4 UnknownField /States/A/Catch/0/MaxDelaySeconds"),
    ('"Type":"Task","Resource":"r","End":true,"Catch":[{"ErrorEquals":["E"],"Next":"X"}]', "F10 NoTarget /States/A/Catch/0/Next"),
    ('"Type":"Task","Resource":"r","End":true,"Catch":[{"ErrorEquals":["E"]}]', "F3 Missing /States/A/Catch/0/Next"),
    ('"Type":"Task","End":true', "F3 Missing /States/A/Resource"),
    ('"Type":"Task","End":true,"Catch":[{"ErrorEquals":["E"]}]', "F3 Missing /States/A/Catch/0/Next"),
    ('"Type":"Task","Resource":"r","End":true,"TimeoutSeconds":5,"TimeoutSecondsPath":"$.t"', "F8 Both /States/A/TimeoutSecondsPath"),
    ('"Type":"Wait","End":true', "F9 Neither /States/A"),
    ('"Type":"Wait","End":true,"Seconds":5,"Timestamp":"2024-01-01T00:00:00Z","SecondsPath":"$.s"', "F8 Both /States/A/Timestamp"),
    ('"Type":"Wait","End":true,"Timestamp":"2024-01-01t00:00:00Z"', "F7 Range /States/A/Timestamp"),
    ('"Type":"Wait","End":true,"Timestamp":"2024-01-01T01:00:00.0001+01:00"', "ok"),
    ('"Type":"Wait","End":true,"Seconds":0', "ok"),
    ('''"Type":"Fail","Error":"E","CausePath":"States.Format('n={}', $.n)"''', "ok"),
    ('"Type":"Fail","Error":"E","ErrorPath":"$.e"', "F8 Both /States/A/ErrorPath"),
    ('"Type":"Fail","ErrorPath":"$.e["', "F13 Path /States/A/ErrorPath"),
    ('"Type":"Fail","CausePath":"c"', "F14 Expression /States/A/CausePath"),
    ('"Type":"Succeed","Next":"A"', "F4 UnknownField /States/A/Next"),
    ('"Type":"Map","End":true', "F9 Neither /States/A"),
    ('"Type":"Map","End":true,"ItemsPath":null,"Iterator":{"StartAt":"B","States":{"B":{"Type":"Succeed"}}}', "F6 WrongType /States/A/ItemsPath"),
    ('"Type":"Map","End":true,"MaxConcurrency":0,"Iterator":{"StartAt":"B","States":{"B":{"Type":"Succeed"}}}', "ok"),
    ('"Type":"Map","End":true,"Iterator":{"StartAt":"B","TimeoutSeconds":1,"States":{"B":{"Type":"Succeed"}}}',
        "F4 UnknownField /States/A/Iterator/TimeoutSeconds"),
    ('"Type":"Parallel","End":true,"Branches":[]', "F7 Range /States/A/Branches"),
    ('"Type":"Choice","Choices":[]', "F7 Range /States/A/Choices"),
    ('"Type":"Choice","Choices":[{"Variable":"$.a","NumericEquals":1,"Next":"A"}],"Default":"A"', "ok"),
    ('"Type":"Choice","Choices":[{"NumericEquals":1,"Next":"A"}]', "F3 Missing /States/A/Choices/0/Variable"),
    ('"Type":"Choice","Choices":[{"Variable":"$.a","Next":"A"}]', "F9 Neither /States/A/Choices/0"),
    ('"Type":"Choice","Choices":[{"Next":"A"}]', "F9 Neither /States/A/Choices/0"),
    ('"Type":"Choice","Choices":[{"Variable":"$.a","NumericEquals":1,"IsNull":true,"Next":"A"}]', "F8 Both /States/A/Choices/0/IsNull"),
    ('"Type":"Choice","Choices":[{"Variable":"$.a","And":[{"Variable":"$.a","IsNull":true}],"Next":"A"}]', "F8 Both /States/A/Choices/0/And"),
    ('"Type":"Choice","Choices":[{"And":[{"Variable":"$.a","IsNull":true,"Next":"A"}],"Next":"A"}]', "F4 UnknownField /States/A/Choices/0/And/0/Next"),
    ('"Type":"Choice","Choices":[{"And":[],"Next":"A"}]', "F7 Range /States/A/Choices/0/And"),
    ('"Type":"Choice","Choices":[{"Not":{"Variable":"$.a","TimestampLessThan":"x"},"Next":"A"}]', "F7 Range /States/A/Choices/0/Not/TimestampLessThan"),
    ('"Type":"Choice","Choices":[{"Not":{"Variable":"$.a","StringEqualsPath":"x"},"Next":"A"}]', "F13 Path /States/A/Choices/0/Not/StringEqualsPath"),
    (r'"Type":"Choice","Choices":[{"Variable":"$.a","StringMatches":"a\\b","Comment":"c","Next":"A"}]', "ok"),
    ('"Type":"Choice","Choices":[{"Variable":"$.a","BooleanEquals":1,"Next":"A"}]', "F6 WrongType /States/A/Choices/0/BooleanEquals"),
    ('"Type":"Choice","Choices":[{"Variable":"$.a","IsNull":true,"Next":"A"}],"Next":"A"', "F4 UnknownField /States/A/Next"),
]

# The same for Maps with members of both spellings, and for machines that aren't a Map's.
SPELLINGS = [
    ('"Type":"Map","End":true,"ItemProcessor":{}', "F3 Missing /States/A/ItemProcessor/StartAt"),
    ('"Type":"Map","End":true,"ItemProcessor":{"StartAt":"B","States":{"B":{"Type":"Succeed"}}}', "ok"),
    ('"Type":"Map","End":true,"Iterator":{"StartAt":"B","States":{"B":{"Type":"Succeed"}}},"ItemProcessor":{"StartAt":"C","States":{"C":'
        '{"Type":"Succeed"}}}', "F8 Both /States/A/ItemProcessor"),
    ('"Type":"Map","End":true,"ItemProcessor":{"StartAt":"B","States":{"B":{"Type":"Succeed"}}},"Iterator":{"StartAt":"C","States":{"C":'
        '{"Type":"Succeed"}}}', "F8 Both /States/A/Iterator"),
    ('"Type":"Map","End":true,"ItemSelector":{"v.$":"$$.Map.Item.Value"},"Iterator":{"StartAt":"B","States":{"B":{"Type":"Succeed"}}}', "ok"),
    ('"Type":"Map","End":true,"Parameters":{"v.$":"$$.Map.Item.Value"},"ItemProcessor":{"StartAt":"B","States":{"B":{"Type":"Succeed"}}}', "ok"),
    ('"Type":"Map","End":true,"Parameters":{},"ItemSelector":{},"ItemProcessor":{"StartAt":"B","States":{"B":{"Type":"Succeed"}}}',
        "F8 Both /States/A/ItemSelector"),
    ('"Type":"Map","End":true,"ItemSelector":{},"Parameters":{},"ItemProcessor":{"StartAt":"B","States":{"B":{"Type":"Succeed"}}}',
        "F8 Both /States/A/Parameters"),
    ('"Type":"Map","End":true,"ItemSelector":{"x.$":"States.Nope()"},"ItemProcessor":{"StartAt":"B","States":{"B":{"Type":"Succeed"}}}',
        "F14 Expression /States/A/ItemSelector/x.$"),
    ('"Type":"Pass","End":true,"ItemSelector":{}', "F4 UnknownField /States/A/ItemSelector"),
    ('"Type":"Map","End":true,"ItemProcessor":{"ProcessorConfig":{"Mode":"DISTRIBUTED","ExecutionType":"STANDARD"},"StartAt":"B","States":'
        '{"B":{"Type":"Succeed"}}}', "F5 Unsupported /States/A/ItemProcessor/ProcessorConfig/Mode"),
    ('"Type":"Map","End":true,"ItemProcessor":{"StartAt":"B","States":{"B":{"Type":"Succeed"}},"ProcessorConfig":{"ExecutionType":'
        '"STANDARD","Mode":1}}', "F5 Unsupported /States/A/ItemProcessor/ProcessorConfig/ExecutionType"),
    ('"Type":"Map","End":true,"ItemProcessor":{"ProcessorConfig":"INLINE","StartAt":"B","States":{"B":{"Type":"Succeed"}}}',
        "F6 WrongType /States/A/ItemProcessor/ProcessorConfig"),
    ('"Type":"Map","End":true,"Iterator":{"ProcessorConfig":{"Mode":"INLINE"},"StartAt":"B","States":{"B":{"Type":"Succeed"}}}',
        "F4 UnknownField /States/A/Iterator/ProcessorConfig"),
    ('"Type":"Parallel","End":true,"Branches":[{"ProcessorConfig":{},"StartAt":"B","States":{"B":{"Type":"Succeed"}}}]',
        "F4 UnknownField /States/A/Branches/0/ProcessorConfig"),
    ('"Type":"Map","End":true,"ItemProcessor":{"StartAt":"A","States":{"B":{"Type":"Succeed"}}}', "F10 NoTarget /States/A/ItemProcessor/StartAt"),
    ('"Type":"Map","End":true,"ItemProcessor":{"StartAt":"A","States":{"A":{"Type":"Succeed"}}}', "F11 DuplicateState /States/A/ItemProcessor/States/A"),
]


def inside(members, line, around):
    """A definition whose state A has these members in the innermost of its machines, so many of which are around it; and what is told of
    it, by what is told where none is."""
    text = STATE.around(members)
    for level in reversed(range(around)):
        text = '{"StartAt":"M%d","States":{"M%d":{"Type":"Map","End":true,"Iterator":%s}}}' % (level, level, text)
    fault, slash, place = line.partition("/")
    return text, fault + "".join(f"/States/M{level}/Iterator" for level in range(around)) + slash + place if slash else line


def chain(count, last):
    """A machine of so many states, each of which goes on to the next, and the last one to a state of this name."""
    states = ",".join('"S%d":{"Type":"Pass","Next":"%s"}' % (number, f"S{number + 1}" if number < count else last) for number in range(count + 1))
    return '{"StartAt":"S0","States":{%s}}' % states


class FaultTest(DefinitionTest):
    def assert_told(self, wanted):
        """Each of these definitions has this fault, or is accepted where that is `ok`: it is then printed, in whatever order."""
        for text, line in wanted:
            with self.subTest(text):
                told = answer(text)
                self.assertEqual("ok" if told.startswith("{") else told, line)

    def test_whole_definitions(self):
        self.assert_told(WHOLE)

    def test_states(self):
        self.assert_told([(STATE.around(members), line) for members, line in STATES])

    def test_maps_in_both_spellings(self):
        self.assert_told([(STATE.around(members), line) for members, line in SPELLINGS])

    def test_a_map_has_one_machine_for_its_items_in_one_spelling(self):
        machine = '{%%s"StartAt":"%s","States":{"%s":{"Type":"Pass","End":true}}}'
        first, second = (machine % (name, name) for name in "PQ")
        wanted = [
            (f'"Iterator":{first % ""},"ItemProcessor":{second % ""},', "F8 Both /States/M/ItemProcessor"),
            ("", "F9 Neither /States/M"),
            ('"ItemProcessor":%s,' % (first % '"ProcessorConfig":{"Mode":"DISTRIBUTED"},'), "F5 Unsupported /States/M/ItemProcessor/ProcessorConfig/Mode"),
        ]
        self.assert_told([('{"StartAt":"M","States":{"M":{"Type":"Map",%s"End":true}}}' % members, line) for members, line in wanted])

    def test_states_of_inner_machines(self):
        self.assert_told([inside(members, line, around) for members, line in STATES for around in (1, 4)])

    def test_maps_of_inner_machines(self):
        self.assert_told([inside(members, line, 4) for members, line in SPELLINGS])

    def test_sixteen_machines(self):
        self.assert_told([(nested(16), "ok")])
        line = answer(nested(17))
        self.assertRegex(line, r"\AF15 Nesting /States/A1/Iterator/States/A2/ItemProcessor/.*/States/A16/ItemProcessor\Z")

    def test_a_lower_number_inside_the_seventeenth_machine(self):
        # What is inside the seventeenth is searched all the same.
        line = answer(nested(17, '"Type":"Succeed","End":true'))
        self.assertRegex(line, r"\AF4 UnknownField /States/A1/Iterator/.*/ItemProcessor/States/Z/End\Z")

    def test_names_have_at_most_80_characters(self):
        # Characters count, and not the bytes of their UTF-8.
        for character in "aé€😀":
            definition = lambda name: '{"StartAt":"%s","States":{"%s":{"Type":"Succeed"}}}' % (name, name)
            self.assert_told([(definition(80 * character), "ok"), (definition(81 * character), f"F7 Range /States/{81 * character}")])

    def test_wide_definitions(self):
        # In quadratic time this takes longer than a test may.
        self.assert_told([(chain(20_000, "S0"), "ok"), (chain(20_000, "X"), "F10 NoTarget /States/S20000/Next")])
