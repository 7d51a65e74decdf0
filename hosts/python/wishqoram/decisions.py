"""What the engine decided, for the log `wishqoram` of the module `logging`."""
import logging
from typing import Any, List

from .protocol import Done, Entry

log = logging.getLogger("wishqoram")


def are_logged() -> bool:
    return log.isEnabledFor(logging.INFO)


def log_decisions(client: str, entries: List[Entry], done: Done, requests: int) -> None:
    """Logs each decision of a run that is over, and how it ended."""
    if not are_logged():
        return
    decisions = [entry.answer for entry in entries if entry.kind == "Decide"]
    for attempt, decision in enumerate(decisions, 1):
        log.info("%s: attempt %d: %s", client, attempt, text_of(decision))
    count = "1 request" if requests == 1 else f"{requests} requests"
    log.info("%s: %s after %s", client, done.ending[0], count)


def text_of(decision: Any) -> str:
    """A decision in words."""
    if not (isinstance(decision, list) and decision[0] == "Noted"):
        return "no retry" if decision == "No" else str(decision)
    _, choice, (verdict, _, _, reason, sums) = decision
    return f"{_verdict(verdict)}: {_choice(choice)}{_reason(reason, sums)}"


def _verdict(verdict: Any) -> str:
    if isinstance(verdict, list):
        return str(verdict[1])
    return {"NoActionIndicated": "nothing to try again"}.get(verdict, str(verdict))


def _choice(choice: Any) -> str:
    if isinstance(choice, list):
        word, span = choice
        pause = f"{span / 10**9:.3f} s"
        return f"retry after {pause}" if word == "Delay" else f"no retry, a pause of {pause}"
    return "retry at once" if choice == "Yes" else "no retry"


def _reason(reason: Any, sums: Any) -> str:
    left = "" if sums is None else f", {sums[2]} of {sums[0]} left"
    if isinstance(reason, list):
        word, tokens = reason
        has = "paid" if word == "Granted" else "not enough tokens: it costs"
        return f", {has} {tokens} tokens{left}"
    return ", attempts are used up" if reason == "OutOfAttempts" else ""
