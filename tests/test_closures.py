"""What a contract leads to by name, as docs/LANGUAGE.md and the table of docs/PROMISES.md count it: on a small tree, and on contracts of this one that were
followed by hand."""
import os
import sys
import tempfile
import unittest
from unittest import mock

from program import TOP

sys.path.insert(0, f"{TOP}/tools")
import closures  # pylint: disable=wrong-import-position

TREE = {
    "low/specs/Words.antt": """
-- Words.
use Rattle.std.specs.Prelude.{ℕ, List, length}
use Rattle.low.specs.declared.kinds.Kind.{Kind}
use Rattle.low.specs.declared.kinds.Kind.TheVariants.{Round}
use Rattle.low.specs.private.Machine.{run}

-- a number that isn't named by anything below
abbrev pub unused : ℕ
unused = 7

-- one
abbrev pub one : ℕ
one = 1

-- bound in each of these, and so not the definition above
abbrev pub bound_in_pattern : ℕ → ℕ
bound_in_pattern one = one

abbrev pub bound_by_lambda : List ℕ → ℕ
bound_by_lambda xs = length (λ one. one)

abbrev pub bound_in_type : (one : ℕ) → List ℕ
bound_in_type n = n

-- its first field is known to its second
pub record Pair (n : ℕ) : Type 0 where
  pub one : ℕ
  -- the same as the first
  pub same : one ≡ n

-- a name behind λ is bound up to the bracket only
abbrev pub behind_lambda : ℕ → ℕ
behind_lambda n = (λ one. one) one

-- a field that is written
abbrev pub written : ℕ → Pair
written n = record { one = n; same = n.one }

-- a type behind λ
abbrev pub typed : ℕ → ℕ
typed n = λ (one : Kind). one

pub data Shape : Type 0 where
  -- of this kind
  plain : Kind → Shape

abbrev pub by_constructor : Shape → ℕ
by_constructor (plain Round) = 0
by_constructor s = run s

mutual
  pub even : ℕ → ℕ
  even n = odd n

  pub odd : ℕ → ℕ
  odd n = even n
""",
    "low/specs/private/Machine.antt": "abbrev pub run : Shape → ℕ\nrun s = 0\n",
    "low/specs/Passed.antt": "pub use Rattle.low.specs.Words.{one}\n",
    "low/specs/Module.antt": """
use Rattle.low.specs.Words as words
use Rattle.low.specs.Words.{one, plain as flat}

module _ (one : ℕ) where
  abbrev pub inside : ℕ → ℕ
  inside n = one

abbrev pub by_module : words.Shape → ℕ
by_module s = words.even s

abbrev pub by_its_constructor : ℕ → ℕ
by_its_constructor (flat k) = k
""",
    "low/src/kinds.rt": """
/// A kind.
#[derive(Drop)]
pub enum Kind {
    Round,
    /// Of a size.
    Sized(Size),
}

/// What contracts see as a number.
pub struct Size {
    hidden: Hidden,
}

impl Model for Size {
    ghost use Rattle.low.specs.Words.{one};

    ghost Value = { List one };

    ghost view = { λ a. unused a };
}

/// No contract names it.
pub struct Hidden {
    number: u64,
}
""",
    "low/src/lib.rt": "pub use kinds::{Kind, Size};\n",
    "high/src/calls.rt": """
ghost use Rattle.low.specs.Passed.{one};
ghost use Rattle.low.specs.Words.{even, by_constructor};

use low::Kind;

/// What is known of a kind.
pub struct Known {
    kind: Kind,
    ghost about: { kind ≡ one } by { even kind },
}

impl Known {
    /// A call.
    pub fn call(&self, even: u64) -> u64
        requires { one ≡ result }
        // A comment that names by_constructor.
        ensures first { even ≡ 0 }
        ensures second { by_constructor self.now ≡ 0 }
    {
        even
    }
}
""",
}


class SmallTree(unittest.TestCase):
    def setUp(self):
        folder = tempfile.TemporaryDirectory()
        self.addCleanup(folder.cleanup)
        for path, text in TREE.items():
            crate, _, rest = path.partition("/")
            whole = f"{folder.name}/crates/{crate}/{rest}"
            os.makedirs(os.path.dirname(whole), exist_ok=True)
            with open(whole, "w", encoding="utf-8") as file:
                file.write(text.lstrip("\n"))
        patched = mock.patch.object(closures, "TOP", folder.name)
        patched.start()
        self.addCleanup(patched.stop)
        self.forget()
        self.addCleanup(self.forget)

    @staticmethod
    def forget():
        for it in (closures.specs, closures.code, closures.definition, closures.closure, closures.declared, closures.target_of, closures.is_own):
            it.cache_clear()

    def named(self, name, module="Words"):
        """What a definition names, words of the kit aside."""
        return sorted(it[-1] for it in closures.definition(("specs", "low", module, name)).names if it[0] != "kit")

    def test_names(self):
        """A name counts where a definition names it, and not where the definition binds it."""
        for name in ("unused", "one", "bound_in_pattern", "bound_by_lambda", "bound_in_type", "Pair"):
            self.assertEqual(self.named(name), [], name)
        self.assertEqual(self.named("behind_lambda"), ["one"])
        self.assertEqual(self.named("written"), ["Pair"])
        self.assertEqual(self.named("typed"), ["Kind"])
        self.assertEqual(self.named("Shape"), ["Kind"])
        self.assertEqual(self.named("by_constructor"), ["Kind", "Shape", "run"])
        self.assertEqual(self.named("even"), ["odd"])
        self.assertEqual(self.named("inside", "Module"), [])
        self.assertEqual(self.named("by_module", "Module"), ["Shape", "even"])
        self.assertEqual(self.named("by_its_constructor", "Module"), ["Shape"])

    def test_lines(self):
        """A definition's comment counts, and its type and clauses; empty lines don't."""
        for name, lines in {"one": 3, "Pair": 5, "by_constructor": 3, "Shape": 3, "odd": 2}.items():
            self.assertEqual(closures.definition(("specs", "low", "Words", name)).lines, lines, name)

    def test_types(self):
        """A type with a model is what contracts see of it; any other its parts."""
        names = lambda name: sorted(it[-1] for it in closures.definition(("code", "low", "src/kinds.rt", name)).names if it[0] != "kit")
        self.assertEqual(names("Kind"), ["Size"])
        self.assertEqual(names("Size"), ["one"])
        self.assertEqual(closures.code("low", "src/kinds.rt").declaration("Size")[-1], "pub struct Size; // in contracts: List one")

    def test_contract(self):
        """Parameters are bound, and clauses can be chosen; what is required always counts. A type's ghost fields count, their proofs don't."""
        found = lambda *clauses: sorted({it.name for it in closures.closure(closures.roots("high", "calls", "call", clauses))[0]})
        self.assertEqual(found("first"), ["Kind", "Known", "Size", "one"])
        self.assertEqual(found(), ["Kind", "Known", "Shape", "Size", "by_constructor", "one", "run"])
        private = [it.name for it in closures.closure(closures.roots("high", "calls", "call"))[0] if it.is_private]
        self.assertEqual(private, ["run"])


class ThisTree(unittest.TestCase):
    """Contracts that were followed by hand."""

    def found(self, *root):
        its, _ = closures.closure(closures.roots(*root))
        return {it.name for it in its}

    def test_pointer(self):
        self.assertEqual(self.found("asl_json_write", "pointer", "at_name"), {"Pointer", "name_part", "escaped", "escaped_char"})

    def test_colours(self):
        self.assertEqual(self.found("asl_text", "colouring", "coloured"), {"Paint", "IsPainted", "Piece", "control", "plain_piece", "shown_piece"})

    def test_path(self):
        """The two clauses of reading at a path: by the grammar and the steps, and by a function of the text, which goes by a machine."""
        found = self.found("asl_path", "path", "get")
        wanted = {"RefPath", "Json", "Root", "Step", "SpellsPath", "data_of", "at", "child", "item_at", "value_at", "part_at", "at_by", "steps", "run", "Mode"}
        self.assertEqual(wanted - found, set())
        self.assertEqual({"put", "with_part", "put_by", "IsPath", "StartsFrom", "Fails"} & found, set())


if __name__ == "__main__":
    unittest.main()
