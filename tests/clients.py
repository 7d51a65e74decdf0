"""Runs clients whose scripts stand in examples/client/rows/ and examples/client/schemes/.

The `.facts` beside a script of rows/ have, for each invocation, the initial questions, the choices
of schemes, the decisions, the sleeps that are absent, the number of calls, and the answer; and then
the buckets and the loads. The `.requests` beside a script of schemes/ have a line for each request
that was sent, with the number of its invocation, and for each one that could not be signed. Both
were written without the program.
"""
import re
from typing import Iterator

from .support.program import EXAMPLES, ProgramTest, run
from .support.scripts import to_lines

ENTRY = re.compile(r"\[\d+,(.*)")
FACT = re.compile(r'"(Initial|Decide)".*|"Start .*"Absent"\]|"Choose"(?!.*"Pending").*')


def facts_of(printed: str) -> Iterator[str]:
    """What a print says of each invocation, and of buckets and loads."""
    calls = 0
    for line in printed.splitlines():
        entry = ENTRY.fullmatch(line)
        if entry:
            calls += 1
            if FACT.fullmatch(entry[1]):
                yield "[" + entry[1]
        elif line.startswith('["invocation"'):
            calls = 0
            yield line
        else:
            if not line.startswith(('["bucket"', '["loads"')):
                yield f"{calls} calls"
            yield line


def requests_of(printed: str) -> Iterator[list]:
    """What each invocation sent, or why it could not sign."""
    invocation = None
    for line in to_lines(printed):
        if line[0] == "invocation":
            invocation = line[1]
        elif line[1] == "Transmit":
            yield [invocation, line[3]]
        elif line[1] == "Sign" and line[2][0] == "Failed":
            yield [invocation, line[2]]


class ClientTest(ProgramTest):
    def test_clients_do_what_their_facts_say(self):
        for script in sorted(EXAMPLES.glob("client/rows/*.json")):
            with self.subTest(script.stem):
                facts = list(facts_of(run("client", text=script.read_text()).output))
                self.assertEqual(facts, script.with_suffix(".facts").read_text().splitlines())

    def test_clients_with_schemes_send_what_is_to_be_sent(self):
        for script in sorted(EXAMPLES.glob("client/schemes/*.json")):
            with self.subTest(script.stem):
                sent = list(requests_of(run("client", text=script.read_text()).output))
                self.assertEqual(sent, to_lines(script.with_suffix(".requests").read_text()))
