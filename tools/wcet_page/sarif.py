"""What is told, for editors and code hosts: SARIF 2.1.0 (OASIS Static Analysis Results Interchange Format). Not proved: a tool."""
import json
from urllib.parse import quote

from .messages import ERROR, REMARK, WARNING

SCHEMA = "https://json.schemastore.org/sarif-2.1.0.json"
LEVELS = {ERROR: "error", WARNING: "warning", REMARK: "note"}


def text(told):
    """all messages as one text"""
    rules = sorted({each["rule"] for each in told.found})
    driver = {"name": "tools/wcet", "rules": [{"id": rule} for rule in rules]}
    run = {"tool": {"driver": driver}, "columnKind": "unicodeCodePoints", "results": [result(each, told.path_of) for each in told.sorted()]}
    return json.dumps({"$schema": SCHEMA, "version": "2.1.0", "runs": [run]}, indent=1) + "\n"


def result(each, path_of):
    """a message: its rule, level, words and place"""
    words = each["text"] + (f"\n{each['cure']}" if each["cure"] else "")
    found = {"ruleId": each["rule"], "level": LEVELS[each["kind"]], "message": {"text": words}}
    if each["file"] is not None:
        place = {"artifactLocation": {"uri": quote(path_of(each["file"]), errors="surrogateescape")}}
        if each["line"] is not None:
            place["region"] = {"startLine": each["line"], **({"startColumn": each["column"]} if each["column"] else {})}
        found["locations"] = [{"physicalLocation": place}]
    return found
