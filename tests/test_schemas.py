"""The JSON Schemas of schemas/: they are those of tools/shapes.py, and take a value in a file exactly where the program does."""
import glob
import json
import re
import subprocess
import sys
import tempfile
import unittest

from program import TOP, run_program

sys.path.insert(0, f"{TOP}/tools")
from shapes import FILES, List, Object, Table, Value  # pylint: disable=wrong-import-position

# Values of each type, and texts and numbers that are something more.
SAMPLES = [
    *("null", "true", "0", "7", "2.0", "-1", "1.5", "[]", '["x"]', '[{"x":1}]', "{}", '{"x":1}', '{"x":"t"}', '{"x":[]}'),
    *('""', '"t"', '"FAILED"', '"failed"', '"/ 2024-01-01T00:00:00Z"', '"/0/10 2024-01-01T00:00:00.5+01:00"', '"/00 2024-01-01T00:00:00Z"', '"/ now"'),
]
TYPES = {"null": type(None), "boolean": bool, "string": str, "array": list, "object": dict}
# The words of JSON Schema that say nothing of values.
SILENT = {"$schema", "title", "description"}
HELLO = f"{TOP}/examples/hello"
# How a file is given to the program, behind a command and in front of other words, and how a fault in its shape begins.
GIVEN = {
    "mocks": (["run", f"{HELLO}/definition.json"], ["Hello", f"{HELLO}/input.json"], r"fault: mocks: M[23] \w+(?: (/.*))?\n"),
    "expectations": (["test", f"{HELLO}/definition.json", f"{HELLO}/mocks.json"], ["--list"], r"fault: expectations: X2 \w+(?: (/.*))?\n"),
    "project": (["check", "--project"], [], r"fault: project: K[23] \w+ \d+:\d+()\n"),
}


def toml(value):
    """A value as TOML spells it behind a key; None where TOML has no such value."""
    if value is None:
        return None
    if isinstance(value, list):
        items = [toml(item) for item in value]
        return None if None in items else "[%s]" % ", ".join(items)
    if isinstance(value, dict):
        members = {json.dumps(name): toml(item) for name, item in value.items()}
        return None if None in members.values() else "{%s}" % ", ".join(f"{name} = {item}" for name, item in members.items())
    return json.dumps(value)


def spelled(file, text):
    """The text of a file that has the value of a JSON text; None where there is none."""
    if file.name != "project":
        return text
    value = json.loads(text)
    members = toml(value) if isinstance(value, dict) else None
    return None if members is None else "".join(f"{json.dumps(name)} = {toml(item)}\n" for name, item in value.items())


def is_of(kind, value):
    """Whether a value is of a type, as JSON Schema names it."""
    if kind == "integer":
        return isinstance(value, (int, float)) and not isinstance(value, bool) and value == int(value)
    return isinstance(value, TYPES[kind])


def fits(schema, value):
    """Whether a value meets a schema. (JSON Schema, draft 2020-12.)"""
    of_members = {"properties", "patternProperties", "additionalProperties", "required", "dependentRequired", "minProperties", "maxProperties"}
    unknown = schema.keys() - SILENT - of_members - {"type", "enum", "items", "minimum", "pattern", "allOf", "oneOf"}
    assert not unknown, unknown
    kinds = schema.get("type", [])
    meets = not kinds or any(is_of(kind, value) for kind in ([kinds] if isinstance(kinds, str) else kinds))
    meets = meets and all(fits(part, value) for part in schema.get("allOf", []))
    meets = meets and ("oneOf" not in schema or sum(fits(part, value) for part in schema["oneOf"]) == 1)
    meets = meets and value in schema.get("enum", [value])
    if isinstance(value, list):
        return meets and all(fits(schema.get("items", {}), item) for item in value)
    if isinstance(value, dict):
        return meets and fit_members(schema, value)
    if isinstance(value, str):
        return meets and bool(re.search(schema.get("pattern", ""), value))
    return meets and (value is None or value >= schema.get("minimum", value))


def fit_members(schema, value):
    """Whether the members of an object meet a schema."""
    own, patterns, others = schema.get("properties", {}), schema.get("patternProperties", {}), schema.get("additionalProperties", {})

    def fits_in(name, one):
        found = [own[name]] if name in own else []
        found += [part for pattern, part in patterns.items() if re.search(pattern, name)]
        return all(fits(part, one) for part in found) if found else others is not False and fits(others, one)

    has_all = all(name in value for name in schema.get("required", []))
    is_counted = schema.get("minProperties", 0) <= len(value) <= schema.get("maxProperties", len(value))
    has_others = all(set(others) <= value.keys() for name, others in schema.get("dependentRequired", {}).items() if name in value)
    return has_all and has_others and is_counted and all(fits_in(name, one) for name, one in value.items())


def least(shape):
    """A value of a shape, as a text."""
    if isinstance(shape, Value):
        return next(text for text in SAMPLES if fits(shape.words, json.loads(text)))
    if isinstance(shape, Object):
        members = [it for it in shape.members if it.is_required] or shape.members[: shape.count or 0]
        return "{%s}" % ",".join(f'"{it.name}":{least(it.shape)}' for it in members)
    return "{}" if isinstance(shape, Table) else "[]"


def with_member(shape, name, value):
    """An object of a shape, as a text, with the member of this name; without it, where there is no value."""
    left_out = {name, *(it.stands_for for it in shape.members if it.name == name)}
    members = [] if shape.count else [f'"{it.name}":{least(it.shape)}' for it in shape.members if (it.is_required or it.name == shape.needs.get(name)) and it.name not in left_out]
    return "{%s}" % ",".join(members + ([] if value is None else [f'"{name}":{value}']))


def parts(shape, place="", around=lambda value: value):
    """The shapes in a shape, each with its place and the whole text around a value there."""
    yield shape, place, around
    if isinstance(shape, Object):
        for it in shape.members:
            yield from parts(it.shape, f"{place}/{it.name}", lambda value, name=it.name: around(with_member(shape, name, value)))
    elif isinstance(shape, Table):
        name = "0" if shape.pattern else "n"
        yield from parts(shape.shape, f"{place}/{name}", lambda value: around('{"%s":%s}' % (name, value)))
    elif isinstance(shape, List):
        yield from parts(shape.shape, f"{place}/0", lambda value: around(f"[{value}]"))


class SchemasTest(unittest.TestCase):
    @classmethod
    def setUpClass(cls):
        cls.schemas = {}
        for file in FILES:
            with open(f"{TOP}/schemas/{file.name}.schema.json", encoding="utf-8") as stored:
                cls.schemas[file.name] = json.load(stored)

    def refused(self, file, text):
        """The place at which the program says that the text of such a file isn't of its shape, or None."""
        before, behind, fault = GIVEN[file.name]
        with tempfile.NamedTemporaryFile("w", prefix="asl-test-", encoding="utf-8") as given:
            given.write(spelled(file, text))
            given.flush()
            told = run_program(*before, given.name, *behind).stderr
        found = re.match(fault, told)
        return (found[1] or "") if found else None

    def assert_alike(self, file, text, place):
        """Both take a text, or both refuse it, the program at a place or below it. Whether they take it."""
        takes = fits(self.schemas[file.name], json.loads(text))
        if spelled(file, text) is None:
            return takes
        refused = self.refused(file, text)
        self.assertEqual(takes, refused is None, text)
        # A project file has lines and columns, and no pointers.
        if refused is not None and file.name != "project":
            self.assertEqual(refused[: len(place)], place, text)
        return takes

    def test_those_of_the_tables(self):
        ran = subprocess.run([sys.executable, "-B", f"{TOP}/tools/schemas", "--check"], capture_output=True, encoding="utf-8", check=False)
        self.assertEqual((ran.returncode, ran.stderr), (0, ""))

    def test_values(self):
        """At each place each value; some that fits, and, where not each one does, some that doesn't."""
        for file in FILES:
            for shape, place, around in parts(file.shape):
                with self.subTest(file.name, place=place):
                    taken = {self.assert_alike(file, around(value), place) for value in [least(shape), *SAMPLES]}
                    self.assertEqual(taken, {True} if isinstance(shape, Value) and not shape.words else {True, False})

    def test_members(self):
        """Each object without each member, with each pair of members, and with one that it doesn't have."""
        for file in FILES:
            for shape, place, around in parts(file.shape):
                if not isinstance(shape, Object):
                    continue
                for it in shape.members:
                    with self.subTest(file.name, place=place, member=it.name):
                        takes = self.assert_alike(file, around(with_member(shape, it.name, None)), place)
                        self.assertEqual(takes, not it.is_required and not it.stands_for and not shape.count)
                        more = with_member(shape, it.name, least(it.shape))[:-1] + ',"Foo":1}'
                        self.assertEqual(self.assert_alike(file, around(more), place), shape.takes_others)
                if shape.count or any(it.stands_for for it in shape.members):
                    whole = "{%s}" % ",".join(f'"{it.name}":{least(it.shape)}' for it in shape.members)
                    self.assertFalse(self.assert_alike(file, around(whole), place))

    def test_keys_of_answers(self):
        file = FILES[0]
        for key, takes in (("0", True), ("007", True), ("1-3", True), ("123456789-999999999", True), ("", False), ("1234567890", False), ("1-", False), ("+1", False)):
            self.assertEqual(self.assert_alike(file, '{"MockedResponses":{"R":{"%s":{"Return":1}}}}' % key, ""), takes)

    def test_examples(self):
        for file in FILES:
            for path in glob.glob(f"{TOP}/examples/*/{file.name}.json"):
                with self.subTest(path), open(path, encoding="utf-8") as stored:
                    self.assertTrue(fits(self.schemas[file.name], json.load(stored)))


if __name__ == "__main__":
    unittest.main()
