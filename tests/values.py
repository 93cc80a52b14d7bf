"""What fits each kind of member, and what doesn't. (Amazon States Language; RFC 3339 for timestamps.)"""

# Values of each type.
SAMPLES = [
    ("Null", "null"),
    ("Truth", "true"),
    ("Truth", "false"),
    ("Number", "0"),
    ("Number", "1.5"),
    ("Text", '""'),
    ("Text", '"1"'),
    ("List", "[]"),
    ("List", "[1,null]"),
    ("Object", "{}"),
    ("Object", '{"Foo":1}'),
]
TEXTS = ['""', '"x"', r'"é\"\\\u0001"', '"$."']
PATHS = [
    '"$"',
    '"$.a"',
    '"$.1"',
    '"$.-"',
    '"$.a_1-b.C.é"',
    '''"$['a b']"''',
    r'''"$[\"a'b\"]"''',
    r'''"$['\"$.[0]']"''',
    '''"$['']"''',
    '"$[0]"',
    '"$[000000007].x[999999999]"',
]
# Paths on the Context Object.
CONTEXT_PATHS = ['"$$"', '"$$.Execution.Id"', '''"$$['Map'].Item"''']
# Texts that begin as a path and aren't one.
BROKEN_PATHS = [
    '"$."',
    '"$..a"',
    '"$.a."',
    '"$.a[*]"',
    '"$.*"',
    '"$[-1]"',
    '"$[1234567890]"',
    '"$[]"',
    '"$[a]"',
    '"$[0"',
    '"$[0:1]"',
    '"$[0,1]"',
    '"$[?(@.a)]"',
    '''"$['a"''',
    '''"$['a']b"''',
    r'''"$['a\\'b']"''',
    r'"$[\"a\\\\\"]"',
    '"$a"',
    '"$ "',
    '"$.a b"',
    r'"$.a\n"',
    '"$.$"',
    '"$$$"',
    '"$$."',
    '"$$a"',
]
# Other texts that aren't a path.
NO_PATHS = ['""', '"x"', '" $"', '".a"', r'"\\$"', '"States.Array()"']
CALLS = [
    '"States.Array()"',
    '''"States.Array (1 , 'a',null,true,false, $ )"''',
    '''"States.Format('n={}', $.n)"''',
    r'''"States.Format('\\'\\\\\\{\\}é')"''',
    '"States.MathAdd($$.State.RetryCount,-1.0)"',
    '''"States.StringToJson(States.JsonToString($['a b']))"''',
    '"States.Array(States.Array(States.Array(States.Array(States.Array(States.Array(States.Array(States.Array(States.Array(States.Array())))))))))"',
]
# Texts that aren't a call of an intrinsic function, and don't begin as a path.
NO_CALLS = [
    '""',
    '"x"',
    '" $"',
    '"States.Nope()"',
    '"States.array()"',
    '"Array()"',
    '"States.UUID()"',
    '"States.MathRandom(1, 2)"',
    '"States.Array"',
    '"States.Array("',
    '"States.Array(1"',
    '"States.Array(1,)"',
    '"States.Array(1 2)"',
    '"States.Array()x"',
    '" States.Array()"',
    '"States.Array() "',
    '"States. Array()"',
    '''"States.Array('a)"''',
    r'''"States.Array('\\n')"''',
    r'"States.Array(\"a\")"',
    '"States.Array(1e18)"',
    '"States.Array(0.1234567891)"',
    '"States.Array($.)"',
    '"States.ArrayLength()"',
    '"States.MathAdd(1)"',
    '"States.MathAdd(1,2,3)"',
    '"States.Array(States.Array(States.Array(States.Array(States.Array(States.Array(States.Array(States.Array(States.Array(States.Array('
    'States.Array()))))))))))"',
]
TIMESTAMPS = [
    '"2024-01-01T00:00:00Z"',
    '"2024-01-01T01:00:00.0001+01:00"',
    '"2024-02-29T23:59:59.123456789012-23:59"',
    '"2024-01-01T00:00:00-00:00"',
    '"1970-01-01T00:00:00Z"',
    '"1969-12-31T23:59:59.9995Z"',
    '"1969-12-31T23:30:00-01:00"',
    '"9999-12-31T23:59:59.999Z"',
]
NO_TIMESTAMPS = [
    '""',
    '"x"',
    '"2024-01-01"',
    '"2024-01-01T00:00:00"',
    '"2024-01-01t00:00:00Z"',
    '"2024-01-01T00:00:00z"',
    '"2024-01-01 00:00:00Z"',
    '"2024-01-01T00:00Z"',
    '"2024-01-01T00:00:60Z"',
    '"2024-01-01T00:60:00Z"',
    '"2024-01-01T24:00:00Z"',
    '"2024-02-30T00:00:00Z"',
    '"2023-02-29T00:00:00Z"',
    '"2024-13-01T00:00:00Z"',
    '"2024-00-01T00:00:00Z"',
    '"2024-01-00T00:00:00Z"',
    '"2024-1-01T00:00:00Z"',
    '"2024-01-01T00:00:00.Z"',
    '"2024-01-01T00:00:00,5Z"',
    '"2024-01-01T00:00:00+24:00"',
    '"2024-01-01T00:00:00+01:60"',
    '"2024-01-01T00:00:00+0100"',
    '"2024-01-01T00:00:00Z "',
    '"1969-12-31T23:59:59.999Z"',
    '"1970-01-01T00:00:00+00:01"',
    '"9999-12-31T23:59:59.9991Z"',
    '"10000-01-01T00:00:00Z"',
]
# Whole numbers from 1 to 99,999,999, however they are spelled.
FROM_ONE = ["1", "2", "2.0", "20e-1", "1e0", "1E+2", "0.1e1", "99999999", "9.9999999E7"]
NOT_FROM_ONE = ["0", "-0", "0.0", "-1", "0.5", "0.999999999", "1.000000001", "1.5", "99999999.5", "100000000", "1e8", "999999999999999999"]
# Whole numbers from 0 to 99,999,999.
FROM_ZERO = ["0", "-0", "0.0", "0e9", "1", "2.0", "20e-1", "99999999", "99999999.000"]
NOT_FROM_ZERO = ["-1", "-0.000000001", "0.000000001", "1.5", "99999999.000000001", "100000000", "-99999999"]
# Whole numbers from 1 to 31,622,399.
DELAY_LIMITS = ["1", "2.0", "20e-1", "60", "31622399", "3.1622399E7"]
NO_DELAY_LIMITS = ["0", "-0", "0.5", "-1", "1.5", "31622399.5", "31622400", "99999999"]
JITTERS = ['"FULL"', '"NONE"']
NO_JITTERS = ['"HALF"', '""', '"full"', '"Full"', '"FULL "', '"FUL"', '"FULLNONE"']
# Numbers from 1 to 1000, also with a fraction.
RATES = ["1", "1.0", "1.000000001", "1.50", "2.0", "20e-1", "999.999999999", "1000", "1e3"]
NO_RATES = ["0", "-0", "0.5", "0.999999999", "1000.000000001", "1001", "-1", "-2.0"]
NUMBERS = ["0", "-0", "-1", "1.5", "2.0", "1e1", "-0.000000001", "999999999999999999"]
# Values in which nothing is searched.
ANYTHING = ["null", "false", "-1.50", '"$."', "[]", "{}", '{"x.$":5,"x":1,"End":false,"Type":"Pass","Assign":[]}', '[{"b":1,"a":{"z":[],"y":""}}]']
TEMPLATES = [
    "null",
    "true",
    "2.0",
    '"$."',
    "[]",
    "{}",
    '{"x.$":"$.a","y":1,"Type":"Foo","Assign":{"End":false}}',
    '{"x":{"x.$":"$"},"y":[{"x.$":"$$.State.Name"},{"x":0}]}',
    '[{"b.$":"States.Array(1)"},3,["$.b"]]',
    '{".$":"$"}',
    '{"$":5,"x$":5,"x.$y":5,"x.$ ":5,"x. $":5}',
]
NUMBER_BELOW = ['{"x.$":5}', '{"x.$":null}', '{"x.$":[{"y.$":"$."}]}', '{"x.$":{"x.$":"$.","y":1,"y.$":"$"}}']
TWICE_BELOW = ['{"x":1,"x.$":"$"}', '{"x":1,"x.$":"$."}', '{"y.$":"x","x":{"z.$":"$."},"x.$":"$"}']
PATH_BELOW = ['{"x.$":"$."}', '{"x.$":"$$$"}', '{"y.$":"x","x.$":"$.a[*]","z.$":"$."}']
CALL_BELOW = ['{"x.$":""}', '{"x.$":"x"}', '{"x.$":" $"}', '{"x.$":"States.Nope()"}', '{"x.$":"States.UUID()","z.$":"x"}']
TEMPLATE_ANSWERS = [
    ("ok", TEMPLATES),
    ("F6 WrongType /x.$", NUMBER_BELOW),
    ("F6 WrongType /1/y/0/x.$", ['[0,{"y":[{"x.$":true}]}]']),
    ("F6 WrongType /a~1b~0c.$", ['{"a/b~c.$":5}']),
    ("F6 WrongType /.$", ['{".$":5}']),
    ("F8 Both /x.$", TWICE_BELOW),
    ("F8 Both /x", ['{"x.$":"$","x":1}']),
    ("F8 Both /x.$.$", ['{"x.$":"$","x.$.$":"$"}']),
    ("F8 Both /.$", ['{"":1,".$":"$"}']),
    ("F8 Both /a/0/x.$", ['{"a":[{"x":1,"y":2,"x.$":"$"}]}']),
    ("F13 Path /x.$", PATH_BELOW),
    ("F13 Path /0/0/x.$", ['[[{"x.$":"$.."}]]']),
    ("F14 Expression /x.$", CALL_BELOW),
    ("F14 Expression /a/b/c.$", ['{"a":{"b":{"c.$":"c"}}}']),
]
EXECUTION_TYPES = ['{"ExecutionType":"STANDARD"}', '{"Mode":"INLINE","ExecutionType":"EXPRESS"}']

# What is told of values of a kind that have a type which it may have: `ok`, or a fault at the value or, behind a slash, in it.
ANSWERS = {
    "Text": [("ok", TEXTS)],
    "QueryLanguage": [("ok", ['"JSONPath"']), ("F5 Unsupported", ['"JSONata"', '"jsonpath"', '""'])],
    "Version": [("ok", ['"1.0"']), ("F5 Unsupported", ['"1"', '"1.1"', '"1.00"', '""'])],
    "Type": [("F5 Unsupported", ['"Foo"', '"pass"', '"Pass "', '""'])],
    "Target": [("F10 NoTarget", ['"X"', '""', '"a"', '"A "'])],
    "Path": [("ok", PATHS), ("ok", CONTEXT_PATHS), ("F13 Path", BROKEN_PATHS), ("F13 Path", NO_PATHS)],
    "PathOrNull": [("ok", ["null"]), ("ok", PATHS), ("ok", CONTEXT_PATHS), ("F13 Path", BROKEN_PATHS), ("F13 Path", NO_PATHS)],
    "PlaceOrNull": [("ok", ["null"]), ("ok", PATHS), ("F13 Path", CONTEXT_PATHS), ("F13 Path", BROKEN_PATHS), ("F13 Path", NO_PATHS)],
    "PathOrCall": [("ok", PATHS), ("ok", CONTEXT_PATHS), ("ok", CALLS), ("F13 Path", BROKEN_PATHS), ("F14 Expression", NO_CALLS)],
    "Timestamp": [("ok", TIMESTAMPS), ("F7 Range", NO_TIMESTAMPS)],
    "Truth": [("ok", ["true", "false"])],
    "End": [("ok", ["true"])],
    "Number": [("ok", NUMBERS)],
    "FromZero": [("ok", FROM_ZERO), ("F7 Range", NOT_FROM_ZERO)],
    "FromOne": [("ok", FROM_ONE), ("F7 Range", NOT_FROM_ONE)],
    "Rate": [("ok", RATES), ("F7 Range", NO_RATES)],
    "DelayLimit": [("ok", DELAY_LIMITS), ("F7 Range", NO_DELAY_LIMITS)],
    "Jitter": [("ok", JITTERS), ("F7 Range", NO_JITTERS)],
    "Any": [("ok", ANYTHING)],
    "ErrorNames": [
        ("ok", ['["States.ALL"]', '["",""]', '["States.all","E","E","States.Timeout"]']),
        ("F7 Range", ["[]"]),
        ("F6 WrongType /0", ["[1]", '[["E"],1]']),
        ("F6 WrongType /2", ['["E","E",null]']),
        ("F12 AllNotLast", ['["States.ALL","E"]', '["E","States.ALL"]', '["States.ALL","States.ALL"]']),
    ],
    "Retriers": [("ok", ["[]"]), ("F6 WrongType /0", ["[1]", "[[],1]"]), ("F3 Missing /0/ErrorEquals", ["[{}]", "[{},1]"])],
    "Catchers": [("ok", ["[]"]), ("F6 WrongType /0", ["[1]", "[[],1]"]), ("F3 Missing /0/ErrorEquals", ["[{}]", "[{},1]"])],
    "Rules": [("F7 Range", ["[]"]), ("F6 WrongType /0", ["[1]", "[null,[]]"])],
    "InnerRules": [("F7 Range", ["[]"]), ("F6 WrongType /0", ["[1]", "[null,[]]"])],
    "InnerRule": [("F9 Neither", ["{}", '{"Variable":"$"}'])],
    "Machines": [("F7 Range", ["[]"]), ("F6 WrongType /0", ["[1]", '[null,"x"]']), ("F3 Missing /0/StartAt", ["[{}]"])],
    "Machine": [("F3 Missing /StartAt", ["{}"])],
    "ProcessorConfig": [
        ("ok", ["{}", '{"Mode":"INLINE"}']),
        ("F4 UnknownField /Foo", ['{"Mode":"INLINE","Foo":1}']),
        ("F5 Unsupported /Mode", ['{"Mode":"DISTRIBUTED"}']),
        ("F5 Unsupported /ExecutionType", EXECUTION_TYPES),
        ("F6 WrongType /Mode", ['{"Mode":null}']),
    ],
    "Mode": [("ok", ['"INLINE"']), ("F5 Unsupported", ['"DISTRIBUTED"', '"inline"', '"INLINE "', '""'])],
    "States": [
        ("F6 WrongType /B", ['{"B":1}', '{"B":null,"":{"Type":"Succeed"}}']),
        ("F7 Range /", ['{"":{"Type":"Succeed"}}']),
        ("F3 Missing /B/Type", ['{"B":{}}']),
    ],
    "Template": TEMPLATE_ANSWERS,
}

# The types that a value of a kind may have; of the others, texts alone.
TYPES = {
    "PathOrNull": ["Null", "Text"],
    "PlaceOrNull": ["Null", "Text"],
    **dict.fromkeys(["Truth", "End"], ["Truth"]),
    **dict.fromkeys(["Number", "FromZero", "FromOne", "Rate", "DelayLimit"], ["Number"]),
    **dict.fromkeys(["Template", "Any"], ["Null", "Truth", "Number", "Text", "List", "Object"]),
    **dict.fromkeys(["ErrorNames", "Retriers", "Catchers", "Rules", "InnerRules", "Machines"], ["List"]),
    **dict.fromkeys(["InnerRule", "Machine", "ProcessorConfig", "States"], ["Object"]),
}
