#!/usr/bin/env python3
"""notices_to_mail.py: sends notices by mail, at most one mail in MAIL_SECONDS, with at most MAIL_LINES of them.

MAIL_SERVER, as HOST or HOST:PORT, MAIL_FROM and MAIL_TO have to be set. MAIL_SECURITY is starttls, tls or none. With
MAIL_USER and MAIL_PASSWORD it logs in. A mail is tried again with the same Message-ID. A receiver that is refused while
others are not is named on standard error.
"""

import contextlib
import email
import email.message
import email.policy
import email.utils
import smtplib
import ssl

import notices_shared
from notices_shared import Refused, moment, setting

HOST, _, PORT = setting("MAIL_SERVER").partition(":")
SENDER, RECEIVERS = setting("MAIL_FROM"), setting("MAIL_TO")
SECURITY = setting("MAIL_SECURITY", "starttls")
USER, PASSWORD = setting("MAIL_USER", ""), setting("MAIL_PASSWORD", "")
SECONDS, LINES = float(setting("MAIL_SECONDS", "60")), int(setting("MAIL_LINES", "1000"))
PORTS = {"starttls": 587, "tls": 465, "none": 25}
if SECURITY not in PORTS:
    notices_shared.refuse_setting(f"MAIL_SECURITY is {SECURITY}, and not one of {', '.join(PORTS)}")
PATIENCE = 30.0


def text_of(notice):
    event = notice.events[0]
    said = [event["description"]] if event.get("description") else []
    return "\n    ".join([f"{moment(notice.second)} {notice.words()}", *said, notice.line])


def make(batch):
    count = len(batch.kept) + batch.left_out.total()
    mail = email.message.EmailMessage(policy=email.policy.SMTP)
    mail["From"], mail["To"] = SENDER, RECEIVERS
    mail["Date"] = email.utils.localtime()
    mail["Message-ID"] = email.utils.make_msgid(domain=email.utils.parseaddr(SENDER)[1].rpartition("@")[2])
    mail["Auto-Submitted"] = "auto-generated"
    mail["Subject"] = batch.kept[0].words()[:150] + (f" and {count - 1} more" if count > 1 else "")
    mail.set_content("\n\n".join([*map(text_of, batch.kept), batch.left_out_words()]))
    return [mail.as_string()]


def connect():
    context = ssl.create_default_context()
    port = int(PORT or PORTS[SECURITY])
    if SECURITY == "tls":
        return smtplib.SMTP_SSL(HOST, port, timeout=PATIENCE, context=context)
    connection = smtplib.SMTP(HOST, port, timeout=PATIENCE)
    if SECURITY == "starttls":
        connection.starttls(context=context)
    return connection


def send(text):
    mail = email.message_from_string(text, policy=email.policy.SMTP)
    try:
        with contextlib.closing(connect()) as connection:
            if USER:
                connection.login(USER, PASSWORD)
            refused = connection.send_message(mail)
            with contextlib.suppress(OSError, smtplib.SMTPException):
                connection.quit()
    except smtplib.SMTPDataError as fault:
        raise Refused(str(fault), fault.smtp_code >= 500) from fault
    except (OSError, smtplib.SMTPException) as fault:
        raise Refused(str(fault)) from fault
    for receiver, why in refused.items():
        notices_shared.say(f"not taken for {receiver}: {why}")


if __name__ == "__main__":
    notices_shared.run(make, send, SECONDS, LINES)
