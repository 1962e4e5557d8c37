"""One test, one text and one example by its name; and names that select nothing."""

from tests.case import TOOLS, TOP, Case, outcome

ANSWERS = TOP / "answers/check"
EXAMPLES = TOP / "examples/check"
RUN_TOOLS = TOOLS / "tests/run-tools"


class TestByName(Case):
    """What the scripts of the tests run by a name."""

    def test_answers(self) -> None:
        """A file by its path in the folder or in the tree, and the cases that have words in their names."""
        name = "blocks/end_after_begin.txt"
        for word in (name, f"answers/{name}"):
            self.assertEqual(outcome(ANSWERS, word), (0, "2 passed, 0 failed\n", ""))
        self.assertEqual(outcome(ANSWERS, "no word, standard input is closed"), (0, "1 passed, 0 failed\n", ""))
        due = (2, "", "answers/check: no case has this in its name: frobs\n")
        self.assertEqual(outcome(ANSWERS, name, "frobs"), due)

    def test_examples(self) -> None:
        """A description with and without its ending."""
        for word in ("dma_buffers", "dma_buffers.net", "examples/dma_buffers.net"):
            self.assertEqual(outcome(EXAMPLES, word), (0, "2 passed, 0 failed\n", ""))
        self.assertEqual(outcome(EXAMPLES, "none"), (2, "", "examples/check: there is no description none.net\n"))

    def test_tests(self) -> None:
        """A module, a class and a test."""
        for name in ("needs.TestNeeds.test_list", "test_needs.TestNeeds.test_list",
                     "tests.tools.test_needs.TestNeeds.test_list"):
            self.assertEqual(outcome(RUN_TOOLS, name), (0, "1 passed, 0 failed\n", ""))
        status, output, _ = outcome(RUN_TOOLS, "none")
        self.assertEqual((status, output.splitlines()[-1]), (1, "0 passed, 1 failed"))
