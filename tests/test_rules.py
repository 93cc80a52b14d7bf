"""Choice rules: what each test of a value says, what stars match, and which rule is the first that holds."""
import json

from program import ProgramTest

# A test's second part, and where it holds: for a less, an equal and a greater value.
RELATIONS = [
    ("Equals", False, True, False),
    ("LessThan", True, False, False),
    ("GreaterThan", False, False, True),
    ("LessThanEquals", True, True, False),
    ("GreaterThanEquals", False, True, True),
]

# A test's first part, pairs of values of which the first is less, pairs of equal values, and values of an unfit type.
FAMILIES = [
    (
        "String",
        [
            ('"a"', '"b"'),
            ('"a"', '"ab"'),
            ('""', '"a"'),
            ('"Z"', '"a"'),
            ('"10"', '"9"'),
            ('"z"', '"é"'),
            # In UTF-16 the second begins with a lesser unit.
            (r'"\uffff"', r'"\ud800\udc00"'),
        ],
        [
            ('""', '""'),
            ('"a"', r'"\u0061"'),
            ('"é"', r'"\u00e9"'),
        ],
        ["null", "true", "1", "[]", '["a"]', "{}"],
    ),
    (
        "Numeric",
        [
            ("9", "10"),
            ("-1", "0"),
            ("-2", "-1"),
            ("-10", "-9"),
            ("0.1", "0.25"),
            ("99", "1e2"),
            ("999999999999999999", "999999999999999999.000000001"),
            ("-0.000000001", "0"),
        ],
        [
            ("1", "1.0"),
            ("1", "10e-1"),
            ("1.0", "10e-1"),
            ("100", "1E+2"),
            ("0", "-0"),
            ("0", "0.000e9"),
            ("-1.50", "-15e-1"),
        ],
        ["null", "true", '"1"', "[1]", "{}"],
    ),
    (
        "Timestamp",
        [
            ('"2024-01-01T00:00:00Z"', '"2024-01-01T00:00:00.001Z"'),
            ('"2024-01-01T10:00:00+09:00"', '"2024-01-01T02:00:00Z"'),
            ('"2024-02-29T23:59:59Z"', '"2024-02-29T23:30:00-01:00"'),
            ('"1970-01-01T00:00:00Z"', '"9999-12-31T23:59:59.999Z"'),
        ],
        [
            ('"2024-01-01T00:00:00Z"', '"2024-01-01T01:00:00+01:00"'),
            ('"2024-01-01T00:00:00Z"', '"2023-12-31T19:00:00-05:00"'),
            ('"2024-01-01T00:00:00Z"', '"2024-01-01T00:00:00.000Z"'),
        ],
        ["null", "true", "1704067200", '""', '"2024-01-01"', '"2024-01-01t00:00:00z"', '"2023-02-29T00:00:00Z"', "[]", "{}"],
    ),
]

# Tests that no value says anything of where there is none.
MISSING = [
    ("StringEquals", '"a"'),
    ("NumericEquals", "1"),
    ("TimestampEquals", '"2024-01-01T00:00:00Z"'),
    ("BooleanEquals", "true"),
    ("StringMatches", '"*"'),
    ("StringMatches", r'"\\"'),
    ("IsNull", "true"),
    ("IsNull", "false"),
    ("IsNumeric", "false"),
    ("IsString", "false"),
    ("IsBoolean", "false"),
    ("IsTimestamp", "false"),
]

# Members of a rule, an input, and the answer.
ROWS = [
    ('"Variable":"$.v","BooleanEquals":true', '{"v":true}', "true"),
    ('"Variable":"$.v","BooleanEquals":true', '{"v":false}', "false"),
    ('"Variable":"$.v","BooleanEquals":false', '{"v":false}', "true"),
    ('"Variable":"$.v","BooleanEquals":false', '{"v":true}', "false"),
    ('"Variable":"$.v","BooleanEquals":false', '{"v":null}', "false"),
    ('"Variable":"$.v","BooleanEquals":false', '{"v":0}', "false"),
    ('"Variable":"$.v","BooleanEquals":true', '{"v":"true"}', "false"),
    ('"Variable":"$.v","BooleanEqualsPath":"$.w"', '{"v":true,"w":true}', "true"),
    ('"Variable":"$.v","BooleanEqualsPath":"$.w"', '{"v":false,"w":false}', "true"),
    ('"Variable":"$.v","BooleanEqualsPath":"$.w"', '{"v":true,"w":false}', "false"),
    ('"Variable":"$.v","BooleanEqualsPath":"$.w"', '{"v":null,"w":null}', "false"),
    ('"Variable":"$.v","BooleanEqualsPath":"$.w"', '{"v":1,"w":1}', "false"),
    ('"Variable":"$.v","BooleanEqualsPath":"$.w"', '{"v":1}', "missing $.w"),
    ('"Variable":"$.v","BooleanEqualsPath":"$.w"', '{"w":true}', "missing $.v"),
    ('"Variable":"$.v","StringMatches":"log-*.txt"', '{"v":"log-7.txt"}', "true"),
    ('"Variable":"$.v","StringMatches":"log-*.txt"', '{"v":"log.txt"}', "false"),
    (r'"Variable":"$.v","StringMatches":"a*\\*"', '{"v":"ab*"}', "true"),
    ('"Variable":"$.v","StringMatches":"*"', '{"v":""}', "true"),
    ('"Variable":"$.v","StringMatches":""', '{"v":"x"}', "false"),
    ('"Variable":"$.v","StringMatches":"*"', '{"v":null}', "false"),
    ('"Variable":"$.v","StringMatches":"*"', '{"v":1}', "false"),
    (r'"Variable":"$.v","StringMatches":"a\\b"', '{"v":"x"}', "StringMatches: open escape"),
    (r'"Variable":"$.v","StringMatches":"a\\b"', '{"v":""}', "StringMatches: open escape"),
    (r'"Variable":"$.v","StringMatches":"a\\b"', '{"v":1}', "false"),
    (r'"Variable":"$.v","StringMatches":"a\\b"', '{"v":null}', "false"),
    (r'"Variable":"$.v","StringMatches":"a\\b"', "{}", "missing $.v"),
    ('"Variable":"$","IsPresent":true', "null", "true"),
    ('"Variable":"$","NumericEquals":1', "1", "true"),
    ('"Variable":"$.a[1]","NumericEquals":2', '{"a":[1,2]}', "true"),
    ('"Variable":"$.a[2]","NumericEquals":2', '{"a":[1,2]}', "missing $.a[2]"),
    ('''"Variable":"$['a b']","NumericEquals":2''', '{"a":2}', "missing $['a b']"),
    ('"Variable":"$.v","NumericEqualsPath":"$.v"', '{"v":1e0}', "true"),
    ('"Variable":"$$.v","NumericEquals":1', '{"v":1}', "missing $$.v"),
    ('"And":[{"Variable":"$.v","IsPresent":true},{"Variable":"$.v","NumericEquals":1}]', "{}", "false"),
    ('"And":[{"Variable":"$.v","NumericEquals":1},{"Variable":"$.v","IsPresent":true}]', "{}", "missing $.v"),
    ('"And":[{"Variable":"$.v","IsPresent":true},{"Variable":"$.v","NumericEquals":1}]', '{"v":1.0}', "true"),
    ('"And":[{"Variable":"$.v","NumericEquals":1},{"Variable":"$.w","NumericEquals":1}]', '{"v":1}', "missing $.w"),
    ('"Or":[{"Variable":"$.v","NumericEquals":1},{"Variable":"$.w","NumericEquals":1}]', '{"v":1}', "true"),
    ('"Or":[{"Variable":"$.v","NumericEquals":1},{"Variable":"$.w","NumericEquals":1}]', '{"v":2}', "missing $.w"),
    ('"Or":[{"Variable":"$.w","NumericEquals":1},{"Variable":"$.v","NumericEquals":1}]', '{"v":1}', "missing $.w"),
    ('"Or":[{"Variable":"$.v","NumericEquals":1},{"Variable":"$.v","NumericEquals":2}]', '{"v":3}', "false"),
    (r'"Or":[{"Variable":"$.v","StringMatches":"\\"},{"Variable":"$.w","IsNull":true}]', '{"v":"x"}', "StringMatches: open escape"),
    (r'"Or":[{"Variable":"$.w","IsNull":true},{"Variable":"$.v","StringMatches":"\\"}]', '{"v":"x"}', "missing $.w"),
    ('"Not":{"Variable":"$.v","NumericEquals":1}', '{"v":1}', "false"),
    ('"Not":{"Variable":"$.v","NumericEquals":1}', '{"v":"1"}', "true"),
    ('"Not":{"Variable":"$.v","NumericEquals":1}', "{}", "missing $.v"),
    (r'"Not":{"Variable":"$.v","StringMatches":"\\"}', '{"v":"x"}', "StringMatches: open escape"),
    ('"Not":{"Not":{"Variable":"$.v","IsNull":true}}', '{"v":null}', "true"),
    ('"Not":{"Comment":"c","And":[{"Or":[{"Variable":"$.v","IsString":true},{"Not":{"Variable":"$.v","IsNumeric":true}}]}]}', '{"v":1}', "true"),
    ('"Not":{"Comment":"c","And":[{"Or":[{"Variable":"$.v","IsString":true},{"Not":{"Variable":"$.v","IsNumeric":true}}]}]}', '{"v":[]}', "false"),
    ('"Comment":"c","Variable":"$.v","NumericGreaterThan":1', '{"v":2}', "true"),
]

# A value, and whether each of these says so.
PROPERTY_NAMES = ["IsNull", "IsNumeric", "IsString", "IsBoolean", "IsTimestamp"]
PROPERTIES = [
    ("null", [True, False, False, False, False]),
    ("0", [False, True, False, False, False]),
    ("-1.5e3", [False, True, False, False, False]),
    ('""', [False, False, True, False, False]),
    ('"1"', [False, False, True, False, False]),
    ('"null"', [False, False, True, False, False]),
    ("true", [False, False, False, True, False]),
    ("false", [False, False, False, True, False]),
    ('"2024-01-01T00:00:00Z"', [False, False, True, False, True]),
    ('"2024-01-01T00:00:00.5+23:59"', [False, False, True, False, True]),
    ('"2024-01-01T24:00:00Z"', [False, False, True, False, False]),
    ('"1969-12-31T23:59:59Z"', [False, False, True, False, False]),
    ("[]", [False, False, False, False, False]),
    ("{}", [False, False, False, False, False]),
]

# A rule about the Context Object and the input {"v":1}, and the answer.
CONTEXT = [
    ('"Variable":"$$.State.RetryCount","NumericEquals":0', "true"),
    ('"Variable":"$.v","NumericEquals":1', "true"),
    ('"Variable":"$$.State.Name","StringEquals":"C"', "true"),
    ('"Variable":"$.State.Name","StringEquals":"C"', "missing $.State.Name"),
    ('"Variable":"$$.State.RetryCount","NumericLessThanPath":"$.v"', "true"),
    ('"Variable":"$.v","NumericLessThanPath":"$$.State.RetryCount"', "false"),
    ('"Variable":"$.v","NumericLessThanPath":"$$.w"', "missing $$.w"),
    ('"Variable":"$$.State","IsPresent":true', "true"),
    ('"Variable":"$$.Task","IsPresent":true', "false"),
]

# Rules of one Choice, and where it goes on for each input.
RULES = '{"Variable":"$.v","NumericEquals":1,"Next":"A"},{"Variable":"$.v","NumericLessThan":5,"Next":"B"},{"Variable":"$.w","IsNull":true,"Next":"A"}'
NEXTS = [
    ('{"v":1}', "A"),
    ('{"v":2}', "B"),
    ('{"v":9,"w":null}', "A"),
    ('{"v":9,"w":1}', "none"),
    ('{"v":"1","w":1}', "none"),
    ('{"v":9}', "missing $.w"),
    ('{"w":null}', "missing $.v"),
]

# Patterns, texts that each matches, and texts that it doesn't.
PATTERNS = [
    # Worked examples.
    (r'a*\*', ["a*", "ab*", "a**", "a*b*"], ["a", "", "*", "a*b", "ba*"]),
    ("*", ["", "x", "*", '\\', "any text"], []),
    ("", [""], ["x", " "]),
    # The standard's own example.
    ("log-*.txt", ["log-.txt", "log-2024.txt", "log-a.txt.txt"], ["log.txt", "log-2024.txt ", "Log-2024.txt", "log-2024-txt"]),
    # No star.
    ("abc", ["abc"], ["", "ab", "abcd", "xabc", "ABC"]),
    # Escapes.
    (r'\*', ["*"], ["", "x", r'\*', "**"]),
    ('\\\\', ['\\'], ["", '\\\\']),
    (r'\\*', ['\\', r'\x', r'\*'], ["", "*", "x"]),
    (r'*\\\**', [r'\*', r'a\*b', r'\\**'], ['\\', "*", '*\\']),
    # Several stars: the leftmost place isn't always the one that the end needs.
    ("*ab", ["ab", "abab", "aab", "xabab"], ["aba", "b", "abx"]),
    ("*ab*ba", ["abba", "ababa", "abxba", "xabxbaba"], ["aba", "abb", "baab"]),
    ("a*b*c", ["abc", "axbxc", "abcbc", "abbc"], ["ac", "acb", "abcx", "bc"]),
    ("**a**", ["a", "ba", "ab", "bab"], ["", "b"]),
    # Characters of several bytes.
    ("*é*", ["é", "café", "été"], ["e", "è", ""]),
]

# Patterns with an open escape.
OPEN = [r'a\b', '\\', 'a\\', '*\\', '\\\\\\', '\\*\\', r'\n', r'a*\ *', r'\é']

NO_MATCH = 'status FAILED {"Error":"States.NoChoiceMatched","Cause":"no rule holds"}'
RUNTIME = 'status FAILED {"Error":"States.Runtime","Cause":"'


class RuleTest(ProgramTest):
    def next(self, rules, given):
        """Where a Choice of these rules goes on, `none`, or what is wrong."""
        states = ",".join('"%s":{"Type":"Pass","Result":"%s","End":true}' % (name, name) for name in "ABZ")
        definition = '{"StartAt":"C","States":{"C":{"Type":"Choice","Choices":[%s]},%s}}' % (rules, states)
        status = self.told(definition, given).splitlines()[-1]
        if status == NO_MATCH:
            return "none"
        if status.startswith(RUNTIME):
            cause = status[len(RUNTIME) : -2]
            return "missing " + cause[: -len(": no value")] if cause.endswith(": no value") else cause
        return status[len('status SUCCEEDED "') : -1]

    def asked(self, members, given):
        """What a rule with these members answers."""
        answer = self.next('{%s,"Next":"Z"}' % members, given)
        return {"Z": "true", "none": "false"}.get(answer, answer)

    def assert_told(self, wanted, name, v, operand):
        """The test by this name, of a value and an operand."""
        answer = self.asked('"Variable":"$.v","%s":%s' % (name, operand), '{"v":%s,"w":null}' % v)
        self.assertEqual(answer, "true" if wanted else "false", f"{name} {v} {operand}")

    def assert_told_by_path(self, wanted, name, v, w):
        """The same with a path to the operand."""
        answer = self.asked('"Variable":"$.v","%sPath":"$.w"' % name, '{"v":%s,"w":%s}' % (v, w))
        self.assertEqual(answer, "true" if wanted else "false", f"{name}Path {v} {w}")

    def test_values_are_compared_as_their_type_is(self):
        for family, rising, same, _ in FAMILIES:
            for relation, less, equal, greater in RELATIONS:
                rows = [it for low, high in rising for it in [(less, low, high), (greater, high, low), (equal, low, low)]]
                rows += [it for one, other in same for it in [(equal, one, other), (equal, other, one)]]
                for wanted, v, w in rows:
                    self.assert_told(wanted, family + relation, v, w)
                    self.assert_told_by_path(wanted, family + relation, v, w)

    def test_values_of_an_unfit_type_pass_no_comparison(self):
        for family, _, same, unfit in FAMILIES:
            for name in [family + relation for relation, *_ in RELATIONS]:
                for value in unfit:
                    for fit, _ in same:
                        self.assert_told(False, name, value, fit)
                        self.assert_told_by_path(False, name, value, fit)
                        self.assert_told_by_path(False, name, fit, value)
                    self.assert_told_by_path(False, name, value, value)

    def test_a_path_without_a_value_is_missing(self):
        for name, operand in MISSING:
            for given in ["{}", '{"w":1}']:
                self.assertEqual(self.asked('"Variable":"$.v","%s":%s' % (name, operand), given), "missing $.v", name)
        for name in [family + relation for family, *_ in FAMILIES for relation, *_ in RELATIONS]:
            rule = '"Variable":"$.v","%sPath":"$.w"' % name
            for given in ["{}", '{"w":null}']:
                self.assertEqual(self.asked(rule, given), "missing $.v", rule)
            # A value of any type: both paths are looked up first.
            for given in ['{"v":"a"}', '{"v":1}', '{"v":null}']:
                self.assertEqual(self.asked(rule, given), "missing $.w", rule)

    def test_rules_answer_as_they_are_read_by_hand(self):
        for rule, given, wanted in ROWS:
            self.assertEqual(self.asked(rule, given), wanted, f"{rule} on {given}")

    def test_a_property_is_to_equal_its_operand(self):
        for value, answers in PROPERTIES:
            for name, answer in zip([*PROPERTY_NAMES, "IsPresent"], [*answers, True]):
                self.assert_told(answer, name, value, "true")
                self.assert_told(not answer, name, value, "false")
        present, absent = '"Variable":"$.v","IsPresent":true', '"Variable":"$.v","IsPresent":false'
        self.assertEqual(self.asked(present, "{}"), "false")
        self.assertEqual(self.asked(absent, "{}"), "true")
        self.assertEqual(self.asked(absent, "[]"), "true")

    def test_two_dollars_lead_into_the_context_object(self):
        for rule, wanted in CONTEXT:
            self.assertEqual(self.asked(rule, '{"v":1}'), wanted, rule)

    def test_a_deep_rule_is_decided(self):
        # Rules inside each other, as deep as a definition has them.
        rule = 28 * '"Not":{' + '"Variable":"$.v","IsNull":true' + 28 * "}"
        self.assertEqual([self.asked(rule, it) for it in ['{"v":null}', '{"v":0}', "{}"]], ["true", "false", "missing $.v"])

    def test_the_first_rule_that_holds_says_what_comes_next(self):
        for given, wanted in NEXTS:
            self.assertEqual(self.next(RULES, given), wanted, given)

    def matches(self, pattern, text):
        quoted = [json.dumps(it, ensure_ascii=False) for it in (pattern, text)]
        return self.asked('"Variable":"$","StringMatches":%s' % quoted[0], quoted[1])

    def test_stars_match_texts(self):
        for pattern, matched, others in PATTERNS:
            self.assertEqual([it for it in matched if self.matches(pattern, it) != "true"], [], pattern)
            self.assertEqual([it for it in others if self.matches(pattern, it) != "false"], [], pattern)

    def test_an_open_escape_matches_nothing(self):
        for pattern in OPEN:
            for text in ["", "a", "ab", r"a\b", pattern]:
                self.assertEqual(self.matches(pattern, text), "StringMatches: open escape", f"{pattern} on {text}")

    def test_many_stars_take_no_more_than_pattern_times_text(self):
        # A pattern of many stars on a text that lacks its end would take as many tries as there are ways, were ways tried.
        text = 20_000 * "a"
        self.assertEqual(self.matches(1_000 * "a*", text), "true")
        self.assertEqual(self.matches(1_000 * "a*" + "b", text), "false")
        self.assertEqual(self.matches(100_000 * "*", text), "true")
