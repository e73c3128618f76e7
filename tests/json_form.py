#!/usr/bin/env python3
"""Reads the reports of tests/json as JSON: that each is compact, with its keys in the order of their bytes and one newline after it, and that
its members have the kinds that docs/FORMATS.md names. Ends with 1 where one is not."""

import json
import pathlib
import sys

HERE = pathlib.Path(__file__).resolve().parent
FLOW = {"bound": str, "name": str, "sfa": str, "tfa": str}
QUEUE = {"backlog": str, "delay": str, "queue": int, "server": str}


def has_kinds(value, kinds):
    return {key: type(item) for key, item in value.items()} == kinds


def is_edit(value):
    return has_kinds(value, {"cells": int, "ok": bool} if value.get("ok") else {"ok": bool, "refused": str})


def fault(text):
    report = json.loads(text)
    if json.dumps(report, sort_keys=True, separators=(",", ":"), ensure_ascii=False) + "\n" != text:
        return "is not compact, or its keys are in another order"
    if sorted(report) not in (["flows", "queues"], ["edits", "flows", "queues"]):
        return "has other members"
    if not all(has_kinds(flow, FLOW) for flow in report["flows"]) or not all(has_kinds(queue, QUEUE) for queue in report["queues"]):
        return "has a flow or a queue of another kind"
    if not all(is_edit(edit) for edit in report.get("edits", [])):
        return "has an edit of another kind"
    return None


def main():
    failed = 0
    for folder in sorted((HERE / "json").iterdir()):
        if (folder / "status").exists():
            continue
        why = fault((folder / "stdout").read_text())
        if why:
            print(f"{folder.name}: its report {why}", file=sys.stderr)
            failed = 1
    return failed


if __name__ == "__main__":
    sys.exit(main())
