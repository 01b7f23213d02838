"""Compares long texts by their first line that differs; a whole difference of a month takes minutes."""

from itertools import zip_longest

from tool_runner import ToolTest


class LongTextTest(ToolTest):
    """A test whose texts have many lines."""

    def setUp(self):
        super().setUp()
        self.addTypeEqualityFunc(str, self.assert_same_text)

    def assert_same_text(self, first, second, msg=None):
        """Fails with the first line that differs."""
        if first == second:
            return
        lines = enumerate(zip_longest(first.splitlines(True), second.splitlines(True)), 1)
        number, (expected, found) = next((number, pair) for number, pair in lines if pair[0] != pair[1])
        self.fail(f"line {number}: {expected!r} isn't {found!r}{f': {msg}' if msg else ''}")
