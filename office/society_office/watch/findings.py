"""What is found of an office: each thing with how it is, in words, and as a number; for people, as JSON, and for Prometheus."""

import dataclasses
import json

GOOD, WARNING, WRONG = 0, 1, 2
STATES = {GOOD: "good", WARNING: "look", WRONG: "WRONG"}


@dataclasses.dataclass(frozen=True)
class Finding:
    """What was looked at, how it is, in words, and as a number for a monitor."""

    name: str
    state: int
    words: str
    value: float | None = None
    unit: str = ""


def worst(findings: list[Finding]) -> int:
    """The state of the worst of them, which is the exit status."""
    return max((it.state for it in findings), default=GOOD)


def as_json(findings: list[Finding]) -> str:
    """The findings as JSON."""
    return (
        json.dumps(
            {"state": STATES[worst(findings)], "findings": [dataclasses.asdict(it) | {"state": STATES[it.state]} for it in findings]},
            indent=1,
        )
        + "\n"
    )


def as_metrics(findings: list[Finding]) -> str:
    """The findings as text for Prometheus: the state of each (0 good, 1 look, 2 wrong) and its number."""
    lines = ["# HELP society_state How it is: 0 good, 1 to be looked at, 2 wrong.", "# TYPE society_state gauge"]
    lines += [f'society_state{{of="{it.name}"}} {it.state}' for it in findings]
    for it in findings:
        if it.value is not None:
            name = f"society_{it.name}_{it.unit}"
            lines += [f"# TYPE {name} gauge", f"{name} {it.value:g}"]
    return "\n".join(lines) + "\n"


def as_lines(findings: list[Finding]) -> str:
    """The findings for people."""
    return "".join(f"{STATES[it.state]:5}  {it.name:11}  {it.words}\n" for it in findings)
