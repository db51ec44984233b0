"""Tests of what wrong-definitions makes of an example: its goals and, where it has no proof written by hand, its proof."""
from definition_copies import answers_for, goals_of

SOURCE = """//! Examples.

ghost use Rattle.std.specs.Prelude.{
    ◌≡◌, ℕ,
};
ghost use Rattle.small.specs.Values as values;
"""
IMPORTS = "use Rattle.std.specs.Prelude.{◌≡◌, ℕ}\nuse Rattle.small.specs.Values as values\n"
# The clauses of an example, its goals behind the imports, and its proof behind the line that names them.
EXAMPLES = [
    ({"": "1 ≡ 1"}, """
abbrev pub returns : Type 0
returns = Unit {0} → (1 ≡ 1)
""", """
pub returns : goal.returns
returns c = search
"""),
    ({"one": "1 ≡ 1", "two": "2 ≡ 2"}, """
abbrev pub returns-clause-one : Type 0
returns-clause-one = Unit {0} → (1 ≡ 1)

abbrev pub returns-clause-two : Type 0
returns-clause-two = Unit {0} → (2 ≡ 2)
""", """
pub returns-clause-one : goal.returns-clause-one
returns-clause-one c = search

pub returns-clause-two : goal.returns-clause-two
returns-clause-two c = search
"""),
    ({"one": "1 ≡ 1"}, """
pub record Alone : Type 0 where
  pub one : 1 ≡ 1

abbrev pub returns : Type 0
returns = Unit {0} → (Alone)
""", """
pub returns : goal.returns
returns c = record { one = search }
"""),
]


def test_definitions(tests):
    """One clause without a name, several clauses, and one that has a name."""
    for clauses, wanted, proof in EXAMPLES:
        goals = goals_of(SOURCE, clauses)
        tests.same(f"the goals of {clauses}", goals, IMPORTS + wanted)
        tests.same(f"the proof of {clauses}", answers_for("Rattle.small.proofs.one", goals),
                   "use Rattle.small.proofs.one.Goals as goal\n" + proof)
