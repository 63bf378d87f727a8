"""Tests contracts.py on small contracts whose clauses and characters are counted by hand."""
import os
import tempfile
import unittest

import contracts

SHORT = """
/// One clause with a label, and one without.
pub fn first(x: u8) -> u8
    requires { x < 4 }
    ensures value { result ≡ x }
{
    x
}

fn none() {}

trait Half {
    fn half(&self, x: u8) -> u8
        // Down.
        ensures { result ≡ x / 2 };

    fn unsaid(&self);
}
"""


def of(name: str, text: str) -> contracts.Contract:
    """Returns the contract of the function of this name in a file with this text."""
    with tempfile.TemporaryDirectory() as folder:
        path = os.path.join(folder, "it.rt")
        with open(path, "w", encoding="utf-8") as it:
            it.write(text)
        return next(it for it in contracts.contracts_of("a_crate", path) if it.name == name)


def with_clauses(count: int, characters: int) -> str:
    """Returns a function with this many clauses, of which the last fills the contract up to this many characters."""
    clauses = ["ensures { a }"] * (count - 1)
    left = characters - sum(len(it) + 1 for it in clauses) - len("ensures {  }")
    return "fn it()\n" + "".join(f"    {it}\n" for it in [*clauses, f"ensures {{ {'b' * left} }}"]) + "{}\n"


class TestContracts(unittest.TestCase):
    """What is counted, and what is listed."""

    def test_clauses_are_counted_up_to_the_body(self) -> None:
        """A label, a body and the end of a declaration are no clauses."""
        self.assertEqual([of(name, SHORT).clauses for name in ("first", "none", "half", "unsaid")], [2, 0, 1, 0])

    def test_characters_are_those_from_the_first_clause_to_the_last(self) -> None:
        """An indentation is one space, and what comes before the first clause does not count."""
        self.assertEqual(of("first", SHORT).characters, len("requires { x < 4 } ensures value { result ≡ x }"))
        self.assertEqual(of("none", SHORT).characters, 0)

    def test_a_comment_between_clauses_counts(self) -> None:
        """It is read aloud with them."""
        text = "fn it()\n    ensures { a }\n\n    // Why.\n    ensures { b }\n{}\n"
        self.assertEqual(of("it", text).characters, len("ensures { a } // Why. ensures { b }"))

    def test_a_brace_in_a_clause_does_not_end_it(self) -> None:
        """A record in a clause is part of it."""
        self.assertEqual(of("it", "fn it()\n    ensures { r ≡ record { a = 1 } }\n{}\n").clauses, 1)

    def test_the_limits_are_ten_clauses_and_900_characters(self) -> None:
        """Each limit may be reached, and not be passed."""
        for clauses, characters, is_long in ((10, 900, False), (11, 900, True), (10, 901, True)):
            it = of("it", with_clauses(clauses, characters))
            self.assertEqual((it.clauses, it.characters, it.is_long()), (clauses, characters, is_long))

    def test_each_word_of_two_crates_has_a_reason(self) -> None:
        """The crates of the repository have no other such word, and no reason is left over."""
        self.assertEqual(sorted(contracts.homonyms()), sorted(contracts.REASONS))


if __name__ == "__main__":
    unittest.main()
