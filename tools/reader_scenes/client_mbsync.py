"""mbsync (Debian's isync), which synchronizes Maildirs both ways: what the plain client laid out comes down, what is done to the Maildirs goes up. It has no
copies and moves of its own (it stores messages anew), no search, no IDLE, and doesn't rename folders. Its file names the server, and says that all is done both
ways."""
import os
import shutil

from local import file_with, new_message, texts, with_flags, without
from stage import FOLDERS, INBOX, Bad, message_with, utf7

PACKAGE, PROGRAMS, LACKS = "isync", ("mbsync",), "search copy move rename idle".split()
SETTINGS = """
IMAPAccount there
Host {host}
Port {port}
User me
Pass secret
SSLType None

IMAPStore there
Account there

MaildirStore here
Path {home}/mail/
Inbox {home}/mail/INBOX
SubFolders Verbatim

Channel all
Far :there:
Near :here:
Patterns *
Create Both
Remove Both
Expunge Both
"""


def play(scene):
    scene.file(".mbsyncrc", SETTINGS.format(host=scene.host, port=scene.port, home=scene.home))
    mail = f"{scene.home}/mail"
    os.makedirs(mail)

    def sync():
        return scene.run("mbsync", "-a")

    with scene.step("login", "list", "open"):
        sync()
        for name, messages in {"INBOX": INBOX, **FOLDERS}.items():
            got = sorted(without(it, b"X-TUID") for it in texts(f"{mail}/{utf7(name)}").values())
            if got != sorted(without(it) for it in messages.values()):
                raise Bad(f"{name} has {len(got)} messages here, or others than there")
    with scene.step("flag"):
        with_flags(file_with(f"{mail}/INBOX", b"Subject: lunch"), "F")
        scene.plain.ask(b"SELECT INBOX")
        scene.plain.ask(b"STORE 2 +FLAGS (\\Answered)")
        sync()
        scene.has("INBOX", "lunch on friday", "\\Flagged", without=("\\Seen",))
        if "R" not in file_with(f"{mail}/INBOX", b"Subject: quarterly").partition(":2,")[2]:
            raise Bad("\\Answered didn't come down")
    with scene.step("delete"):
        with_flags(file_with(f"{mail}/INBOX", b"Subject: minutes"), "T")
        sync()
        scene.lacks_message("INBOX", "minutes")
        if file_with(f"{mail}/INBOX", b"Subject: minutes"):
            raise Bad("it is still here")
    with scene.step("create"):
        new_message(f"{mail}/plans", b"Subject: planned\n\nSoon.\n")
        sync()
        scene.has_names("plans")
        scene.has("plans", "planned")
    with scene.step("remove"):
        shutil.rmtree(f"{mail}/useless")
        sync()
        scene.has_names(without=("useless",))
    with scene.step("append"):
        new_message(f"{mail}/Sent", message_with(scene.big))
        sync()
        scene.saved("Sent", "the photographs")
    with scene.step("reopen"):
        shutil.rmtree(mail)
        shutil.rmtree(f"{scene.home}/.mbsync")
        os.makedirs(mail)
        sync()
        got = [without(it, b"X-TUID") for it in texts(f"{mail}/Sent").values()]
        if got != [without(message_with(scene.big))]:
            raise Bad("what comes down again has other octets")
