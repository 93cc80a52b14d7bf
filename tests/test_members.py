"""Each member of each object of a definition: where it is printed, and what is told of its values, its absence, and of members besides."""
from definitions import DefinitionTest, line_at
from members import OBJECTS
from values import ANSWERS, SAMPLES, TYPES

# Members that no object has.
UNKNOWN = ["Foo", "", "next", "Next ", "type", "StringMatchesPath", "IsNullPath"]

# Members of the language that stand for what isn't supported.
UNSUPPORTED = [
    "Assign",
    "Arguments",
    "Output",
    "Items",
    "Condition",
    "ItemReader",
    "ItemBatcher",
    "ResultWriter",
    "ToleratedFailureCount",
    "ToleratedFailurePercentage",
    "ToleratedFailureCountPath",
    "ToleratedFailurePercentagePath",
    "Label",
    "MaxConcurrencyPath",
    "ExecutionType",
]

# Members that some object has.
OF_OTHERS = ["Iterator", "ItemProcessor", "ItemSelector", "ProcessorConfig", "Mode", "Branches", "Choices", "ErrorEquals", "Resource", "States"]


def members(shape, tried="", value=None, instead=()):
    """The members of an object in which one is tried with a value, or left out where it has none, in canonical order."""
    found = []
    for part in shape.parts:
        for name, _, fit in part.rows:
            if name == tried and value is not None:
                found.append(f'"{name}":{value}')
            elif name != tried and name in shape.enough and name not in instead:
                found.append(f'"{name}":{fit}')
    return found


def rows():
    """Each member of each object: the object, the members that may not stand beside it, its name, its kind and a value that fits."""
    return [(shape, part.instead, *row) for shape in OBJECTS.values() for part in shape.parts for row in part.rows]


def told_of(name, wanted):
    """What is told of a member in the place of its value: `ok`, or the fault behind its name."""
    return wanted if wanted == "ok" else line_at(wanted, f"/{name}")


class MemberTest(DefinitionTest):
    def assert_values(self, wanted):
        """Members with values, and what is told of each in the place of its value."""
        self.assert_parts([(shape.frame, ",".join(members(shape, name, value, instead)), told_of(name, line)) for shape, instead, name, value, line in wanted])

    def test_each_is_printed_in_its_place(self):
        self.assert_values([(shape, instead, name, fit, "ok") for shape, instead, name, _, fit in rows()])

    def test_each_is_put_in_order(self):
        wanted = []
        for shape, instead, name, _, fit in rows():
            found = members(shape, name, fit, instead)
            wanted.append((shape.frame.around(",".join(reversed(found))), shape.frame.around(",".join(found))))
        self.assert_answers(wanted)

    def test_each_has_its_type(self):
        self.assert_values(
            [
                (shape, instead, name, value, "F6 WrongType")
                for shape, instead, name, kind, _ in rows()
                for of, value in SAMPLES
                if of not in TYPES.get(kind, ["Text"])
            ]
        )

    def test_each_has_its_values(self):
        self.assert_values(
            [
                (shape, instead, name, value, wanted)
                for shape, instead, name, kind, _ in rows()
                for wanted, values in ANSWERS[kind]
                for value in values
            ]
        )

    def test_none_that_is_required_is_left_out(self):
        self.assert_values([(shape, (), name, None, "F3 Missing") for shape in OBJECTS.values() for name in shape.required])

    def assert_besides(self, names, wanted):
        """Objects with a member more, in which nothing is searched."""
        more = '"%s":{"StartAt":[],"Type":5}'
        self.assert_parts([(shape.frame, ",".join([*members(shape), more % name]), told_of(name, wanted)) for shape, name in names])

    def test_others_are_unknown(self):
        self.assert_besides([(shape, name) for shape in OBJECTS.values() for name in UNKNOWN], "F4 UnknownField")

    def test_those_of_other_objects_are_unknown(self):
        has = lambda shape, name: any(name == other for part in shape.parts for other, _, _ in part.rows)
        self.assert_besides([(shape, name) for shape in OBJECTS.values() for name in OF_OTHERS if not has(shape, name)], "F4 UnknownField")

    def test_those_of_other_parts_of_the_language_are_unsupported(self):
        self.assert_besides([(shape, name) for shape in OBJECTS.values() for name in UNSUPPORTED], "F5 Unsupported")
