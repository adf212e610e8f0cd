"""getmail (Debian's getmail6): it fetches all folders, keeps or deletes, and idles. It adds header fields of its own at the beginning and the end, so the rest
is compared. It doesn't store mail as root, so a Maildir of the user nobody takes it then."""
import os
import shutil
import signal
import subprocess

from local import texts, without
from stage import FOLDERS, INBOX, Bad, message_with, until, wait

PACKAGE, PROGRAMS, LACKS = "getmail6", ("getmail",), "search flag copy move create rename remove append".split()
SETTINGS = """
[retriever]
type = SimpleIMAPRetriever
server = {host}
port = {port}
username = me
password = secret
mailboxes = {mailboxes}
[destination]
type = Maildir
path = {home}/Maildir/
{user}
[options]
read_all = {all}
delete = {delete}
"""


def play(scene):
    for it in ("cur", "new", "tmp"):
        os.makedirs(f"{scene.home}/Maildir/{it}")
    if os.geteuid() == 0:
        for it in ("", "/cur", "/new", "/tmp"):
            shutil.chown(f"{scene.home}/Maildir{it}", "nobody", "nogroup")
    os.makedirs(f"{scene.home}/.getmail", 0o700)

    def settings(mailboxes, everything, delete):
        scene.file(".getmail/getmailrc", SETTINGS.format(host=scene.host, port=scene.port, home=scene.home, user="user = nobody" if os.geteuid() == 0 else "",
            mailboxes=mailboxes, all=everything, delete=delete))

    def got():
        return [without(it, b"X-getmail-") for it in texts(f"{scene.home}/Maildir").values()]

    def has(text):
        wanted = text.replace(b"\r\n", b"\n")
        return sum(wanted in it for it in got())

    with scene.step("login", "list", "open"):
        settings("ALL", "false", "false")
        scene.run("getmail")
        for name, messages in {"INBOX": INBOX, **FOLDERS}.items():
            for subject, text in messages.items():
                if has(text) != 1:
                    raise Bad(f"{subject!r} of {name} was fetched {has(text)} times")
    with scene.step("reopen"):
        scene.plain.append("Sent", message_with(scene.big))
        count = len(got())
        scene.run("getmail")
        if has(message_with(scene.big)) != 1 or len(got()) != count + 1:
            raise Bad(f"the message of 5 MB was fetched with other octets, or {len(got()) - count} messages were")
    with scene.step("delete"):
        settings('("INBOX",)', "true", "true")
        scene.run("getmail")
        scene.sees(lambda plain: plain.mail("INBOX") == [], "INBOX is empty")
    with scene.step("idle"):
        with open(f"{scene.room}/idling.log", "wb") as log:
            ran = subprocess.Popen(["getmail", "--idle=INBOX"], env=scene.environment, cwd=scene.home, stdout=log, stderr=log, start_new_session=True)
        scene.closing.append(lambda: os.killpg(ran.pid, signal.SIGKILL))
        wait(5)
        scene.arrives()
        until(lambda: any(b"Subject: just arrived" in it for it in got()), "what arrived wasn't fetched", 15)
