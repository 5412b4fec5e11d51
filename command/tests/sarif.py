"""sarif.py LOG: holds a SARIF log of examples/ to what SARIF 2.1.0 asks of the objects that it has (sections 3.13 to 3.58)."""

import json
import sys
from urllib.parse import unquote

with open(sys.argv[1], encoding="utf-8") as file:
    log = json.load(file)

assert log["version"] == "2.1.0" and log["$schema"].endswith("sarif-schema-2.1.0.json")
(run,) = log["runs"]
driver = run["tool"]["driver"]
assert driver["name"] == "stableglow"
rules = driver["rules"]
assert [rule["id"] for rule in rules] == [f"form-{n}" for n in range(1, 11)]
assert all(rule["shortDescription"]["text"] for rule in rules)
assert run["columnKind"] in ("utf16CodeUnits", "unicodeCodePoints")


def location(holder):
    (place,) = holder["locations"]
    physical = place["physicalLocation"]
    return unquote(physical["artifactLocation"]["uri"]), physical.get("region")


def holds(uri, region):
    """The region lies in the file, and its columns and bytes are the same part of it."""
    with open(uri, "rb") as file:
        source = file.read()
    lines = source.decode().split("\n")
    offset, length = region["byteOffset"], region["byteLength"]
    for line, column, byte in [
        (region["startLine"], region["startColumn"], offset),
        (region["endLine"], region["endColumn"], offset + length),
    ]:
        assert 1 <= line <= len(lines) and 1 <= column <= len(lines[line - 1]) + 1
        before = "\n".join(lines[: line - 1] + [lines[line - 1][: column - 1]])
        assert len(before.encode()) == byte, (uri, region)


for result in run["results"]:
    assert result["level"] in ("none", "note", "warning", "error")
    assert rules[result["ruleIndex"]]["id"] == result["ruleId"]
    assert result["message"]["text"]
    holds(*location(result))
(invocation,) = run["invocations"]
assert invocation["executionSuccessful"] is False and invocation["exitCode"] == 2
notes = invocation["toolExecutionNotifications"]
told = {location(note)[0]: note["message"]["text"].split(":")[0] for note in notes}
assert told == {"examples/refused.yar": "refused", "examples/stopped.yar": "stopped"}, told
assert {location(result)[0] for result in run["results"]} == {"examples/damaged.yar", "examples/stopped.yar"}
print("doors: the SARIF log has what 2.1.0 asks for")
