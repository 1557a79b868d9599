#!/usr/bin/env python3
"""notices_to_pagerduty.py: triggers and resolves incidents by PagerDuty's events API v2, with the key PAGERDUTY_KEY.

The deduplication key of an incident is of the host and the service of its event. An event whose state is in
NOTICES_RESOLVED, `ok` by default, resolves it, and any other one triggers it.
"""

import hashlib
import json

import notices_shared
from notices_shared import moment, setting

KEY = setting("PAGERDUTY_KEY")
URL = setting("PAGERDUTY_URL", "https://events.pagerduty.com/v2/enqueue")
SEVERITIES = ("critical", "error", "warning", "info")
LONGEST_KEY, LONGEST_SUMMARY = 255, 1024


def message_of(notice, event):
    host, service = event.get("host", ""), event.get("service", "")
    key = json.dumps([host, service])
    if len(key) > LONGEST_KEY:
        key = hashlib.sha256(key.encode()).hexdigest()
    if event.is_over():
        return {"event_action": "resolve", "dedup_key": key}
    state = event.get("state")
    payload = {
        "summary": (event.words() or notice.name)[:LONGEST_SUMMARY],
        "source": host or "riemann",
        "severity": state if state in SEVERITIES else "critical",
        "timestamp": moment(notice.second),
        "component": service,
        "class": notice.name,
        "custom_details": event,
    }
    return {"event_action": "trigger", "dedup_key": key, "payload": payload}


def make(batch):
    return [message_of(notice, event) for notice in batch.kept for event in notice.events]


def send(message):
    notices_shared.post(URL, {"routing_key": KEY, **message})


if __name__ == "__main__":
    notices_shared.run(make, send)
