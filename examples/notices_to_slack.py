#!/usr/bin/env python3
"""notices_to_slack.py: posts notices to the webhook SLACK_URL, as the JSON {"text": ".."}.

At most one message is posted in SLACK_SECONDS, with at most SLACK_LINES notices. It says what it left out, by state and
service.
"""

import notices_shared
from notices_shared import setting

URL = setting("SLACK_URL")
SECONDS, LINES = float(setting("SLACK_SECONDS", "60")), int(setting("SLACK_LINES", "20"))
LONGEST_LINE = 500
ESCAPES = str.maketrans({"&": "&amp;", "<": "&lt;", ">": "&gt;"})


def text_of(notice):
    description = notice.events[0].get("description")
    return (notice.words() + (f": {description}" if description else ""))[:LONGEST_LINE]


def make(batch):
    lines = [*map(text_of, batch.kept), batch.left_out_words()[:LONGEST_LINE]]
    return [{"text": "\n".join(filter(None, lines)).translate(ESCAPES)}]


def send(message):
    notices_shared.post(URL, message)


if __name__ == "__main__":
    notices_shared.run(make, send, SECONDS, LINES)
