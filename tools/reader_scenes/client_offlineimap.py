"""offlineimap (Debian's offlineimap3), which synchronizes Maildirs both ways, as mbsync's scene does; it idles in INBOX while it stays (idlefolders). It has no
search, copies and moves of its own, and neither renames nor deletes folders."""
import os
import shutil
import signal
import subprocess

from local import file_with, new_message, texts, with_flags, without
from stage import FOLDERS, INBOX, Bad, message_with, until, utf7, wait

PACKAGE, PROGRAMS, LACKS = "offlineimap3", ("offlineimap",), "search copy move rename remove".split()
SETTINGS = """
[general]
accounts = me
ui = basic
[Account me]
localrepository = here
remoterepository = there
autorefresh = 5
[Repository here]
type = Maildir
localfolders = {home}/mail
[Repository there]
type = IMAP
remotehost = {host}
remoteport = {port}
remoteuser = me
remotepass = secret
ssl = no
starttls = no
idlefolders = ['INBOX']
"""
ADDED = (b"X-OfflineIMAP",)


def play(scene):
    scene.file(".offlineimaprc", SETTINGS.format(host=scene.host, port=scene.port, home=scene.home))
    mail = f"{scene.home}/mail"

    def sync():
        return scene.run("offlineimap", "-o", seconds=180)

    def here(name):
        return f"{mail}/{utf7(name).replace('/', '.')}"

    with scene.step("login", "list", "open"):
        sync()
        for name, messages in {"INBOX": INBOX, **FOLDERS}.items():
            got = sorted(without(it, *ADDED) for it in texts(here(name)).values())
            if got != sorted(without(it) for it in messages.values()):
                raise Bad(f"{name} has {len(got)} messages here, or others than there; here are {os.listdir(mail)}")
    with scene.step("flag"):
        with_flags(file_with(here("INBOX"), b"Subject: lunch"), "F")
        scene.plain.ask(b"SELECT INBOX")
        scene.plain.ask(b"STORE 2 +FLAGS (\\Answered)")
        sync()
        scene.has("INBOX", "lunch on friday", "\\Flagged", without=("\\Seen",))
        if "R" not in file_with(here("INBOX"), b"Subject: quarterly").partition(":2,")[2]:
            raise Bad("\\Answered didn't come down")
    with scene.step("delete"):
        os.remove(file_with(here("INBOX"), b"Subject: minutes"))
        sync()
        scene.lacks_message("INBOX", "minutes")
    with scene.step("create"):
        new_message(here("plans"), b"Subject: planned\nFrom: me@example.org\nDate: Tue, 03 Nov 2026 10:00:00 +0100\nMessage-ID: <planned@here>\n\nSoon.\n")
        sync()
        scene.has_names("plans")
        scene.has("plans", "planned")
    with scene.step("append"):
        new_message(here("Sent"), message_with(scene.big))
        sync()
        scene.saved("Sent", "the photographs")
    with scene.step("reopen"):
        shutil.rmtree(mail)
        shutil.rmtree(f"{scene.home}/.offlineimap")
        sync()
        got = [without(it, *ADDED) for it in texts(here("Sent")).values()]
        if got != [without(message_with(scene.big))]:
            raise Bad("what comes down again has other octets")
    with scene.step("idle"):
        with open(f"{scene.room}/idling.log", "wb") as log:
            ran = subprocess.Popen(["offlineimap"], env=scene.environment, cwd=scene.home, stdout=log, stderr=log, start_new_session=True)
        scene.closing.append(lambda: os.killpg(ran.pid, signal.SIGKILL))
        wait(15)
        scene.arrives()
        until(lambda: file_with(here("INBOX"), b"Subject: just arrived"), "what arrived isn't here", 20)
