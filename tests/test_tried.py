"""What tools/tried.py says of the must-fail edits that are to be tried after a change of the functions that they are of, or below."""
import json
import os
import shutil
import subprocess
import sys
import tempfile
import unittest

TOP = os.path.dirname(os.path.dirname(os.path.realpath(__file__)))
ABOVE = ("asl_path", "asl_json_same", "asl_graph", "asl_mock_sample")
DIGESTS = """
import json, sys
from crates import Crates
from tried import Tried
tried = Tried(Crates().below)
print(json.dumps({it: digest for name in sys.argv[1:] for it, digest in tried.digests(name).items()}))
"""


# This edit isn't inside of a function: it is tried wherever its crate changes.
WHOLE = "asl_json/a_number_has_a_byte_less_room.edit"
# What is changed, in which text, and the edits that are to be tried then; a name of a crate stands for some of its edits.
CHANGES = [
    (
        "a new function",
        "src/access.rt",
        "    pub fn members_at(",
        "    pub fn nobody_calls(&self) -> bool\n        ensures { result ≡ true }\n    {\n        true\n    }\n\n    pub fn members_at(",
        {WHOLE},
    ),
    (
        "a new method behind the last one",
        "src/access.rt",
        "        &mut self.values[i]\n    }\n",
        "        &mut self.values[i]\n    }\n\n    pub fn nobody_calls(&self) -> bool\n        ensures { result ≡ true }\n    {\n        true\n    }\n",
        {WHOLE},
    ),
    ("a new definition", "specs/Access.antt", "abbrev pub members_of_any :", "abbrev pub nobody_uses : ℕ\nnobody_uses = 0\n\nabbrev pub members_of_any :", {WHOLE}),
    ("a comment", "src/access.rt", "/// The members of an object;", "/// Members of an object;", {WHOLE}),
    ("a body", "src/value.rt", "            Json::Num(d) => Ok(Json::Num(d.copy())),", "            Json::Num(n) => Ok(Json::Num(n.copy())),", {WHOLE, "asl_json/clone_turns_truth_values.edit"}),
    ("a definition", "specs/Meaning.antt", "value_in k _ = None", "value_in k any = None", {WHOLE, "asl_json/get_of_another_item.edit", "asl_path", "asl_graph", "asl_mock_sample"}),
    (
        "the contract of a method",
        "src/value.rt",
        "≡ value_in key.now (data_of self.now) }",
        "≡ value_in key.now (data_of self.now) × ⊤ }",
        {WHOLE, "asl_json/get_of_another_item.edit", "asl_path", "asl_mock_sample"},
    ),
]


class TriedTest(unittest.TestCase):
    def setUp(self):
        """A tree with the same crates, of which asl_json may be changed. Of those above it asl_json_same doesn't look up members."""
        room = tempfile.TemporaryDirectory(prefix="asl-test-")
        self.addCleanup(room.cleanup)
        self.tree = room.name
        shutil.copytree(f"{TOP}/tools", f"{self.tree}/tools")
        shutil.copy(f"{TOP}/crates.txt", self.tree)
        os.mkdir(f"{self.tree}/crates")
        for name in os.listdir(f"{TOP}/crates"):
            if name != "asl_json":
                os.symlink(f"{TOP}/crates/{name}", f"{self.tree}/crates/{name}")
        shutil.copytree(f"{TOP}/crates/asl_json", f"{self.tree}/crates/asl_json", ignore=shutil.ignore_patterns("out"))
        self.before = self.digests()

    def digests(self):
        env = {**os.environ, "PYTHONPATH": f"{self.tree}/tools", "PYTHONDONTWRITEBYTECODE": "1"}
        ran = subprocess.run([sys.executable, "-c", DIGESTS, "asl_json", *ABOVE], env=env, stdout=subprocess.PIPE, text=True, check=True)
        return json.loads(ran.stdout)

    def change(self, path, old, new):
        """Changes a text of asl_json, and returns its edits that are to be tried again, and the crates above it that have some."""
        path = f"{self.tree}/crates/asl_json/{path}"
        with open(path, encoding="utf-8") as file:
            text = file.read()
        self.assertEqual(text.count(old), 1)
        with open(path, "w", encoding="utf-8") as file:
            file.write(text.replace(old, new))
        after = self.digests()
        crates = {it: it.partition("/")[0] for it in after if after[it] != self.before[it]}
        return {it if name == "asl_json" else name for it, name in crates.items()}

    def test_a_change(self):
        for name, path, old, new, changed in CHANGES:
            with self.subTest(name):
                self.setUp()
                self.assertEqual(self.change(path, old, new), changed)


if __name__ == "__main__":
    unittest.main()
