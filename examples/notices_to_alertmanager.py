#!/usr/bin/env python3
"""notices_to_alertmanager.py: posts notices as alerts to the Alertmanager at ALERTMANAGER_URL, by its API v2.

The labels are of the service (`alertname`) and the host (`instance`) of the event. An event whose state is in
NOTICES_RESOLVED, `ok` by default, resolves its alert. Any other one fires it, for a year if nothing resolves it: a notice
is written once, and Alertmanager would end an alert without an end after five minutes.
"""

import notices_shared
from notices_shared import moment, setting

URL = setting("ALERTMANAGER_URL").rstrip("/") + "/api/v2/alerts"
YEAR = 365 * 86_400


def alert_of(notice, event):
    end = notice.second if event.is_over() else notice.second + YEAR
    notes = {"summary": event.words() or notice.name, "notice": notice.line}
    notes |= {name: event[name] for name in ("state", "description") if event.get(name)}
    alert = {
        "labels": {"alertname": event.get("service") or notice.name, "instance": event.get("host", ""), "job": "riemann"},
        "annotations": notes,
        "endsAt": moment(end),
    }
    if not event.is_over():
        alert["startsAt"] = moment(notice.second)
    return alert


def make(batch):
    return [[alert_of(notice, event) for event in notice.events] for notice in batch.kept]


def send(alerts):
    notices_shared.post(URL, alerts)


if __name__ == "__main__":
    notices_shared.run(make, send)
