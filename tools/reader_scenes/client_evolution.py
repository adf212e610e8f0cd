"""Evolution under Xvfb, in a D-Bus session of its own, by mouse and keys at the places where it shows things in a window of 1200 by 800. What it shows isn't
read: its cache of folders and messages is, and what it does is seen at the server. Its source files name the server, where mail is sent and the folder for what
it sends; the password is typed. Its search is of subjects; what it found is copied to a folder, so that it is seen. It saves no attachment. Deleting marks, and
its `Expunge` is called."""
import contextlib
import os
import sqlite3

from stage import FOLDERS, INBOX, Bad, Display, until, wait

PACKAGE, PROGRAMS, LACKS = "evolution", ("evolution", "Xvfb", "xdotool", "openbox", "wmctrl", "dbus-run-session"), ()
ACCOUNT = """
[Data Source]
DisplayName=me
Enabled=true
Parent=

[Mail Account]
BackendName=imapx
IdentityUid=identity
NeedsInitialSetup=false

[Authentication]
Host={host}
Method=
Port={port}
RememberPassword=false
User=me

[Security]
Method=none
"""
IDENTITY = """
[Data Source]
DisplayName=me
Enabled=true
Parent=account

[Mail Identity]
Address=me@example.org
Name=Me

[Mail Submission]
SentFolder=folder://account/Sent
TransportUid=transport
"""
TRANSPORT = """
[Data Source]
DisplayName=me
Enabled=true
Parent=account

[Mail Transport]
BackendName=smtp

[Authentication]
Host={host}
Method=
Port={smtp}
User=

[Security]
Method=none
"""


ROOT, OPENED, SENT, OLD, USELESS = 212, 235, 327, 396, 419
ROWS = {subject: 191 + 24 * at for at, subject in enumerate(INBOX)}


def play(scene):
    for name, text in (("account", ACCOUNT), ("identity", IDENTITY), ("transport", TRANSPORT)):
        scene.file(f".config/evolution/sources/{name}.source", text.format(host=scene.host, port=scene.port, smtp=scene.smtp.port))
    # (its local folders, which aren't needed, are folded away)
    scene.file(".config/evolution/mail/state.ini", "[Store local]\nExpanded=false\n")
    it = Display(scene)
    it.start("openbox")
    bus = it.start("dbus-daemon", "--session", "--nofork", f"--address=unix:path={scene.room}/bus")
    scene.environment |= {"DBUS_SESSION_BUS_ADDRESS": f"unix:path={scene.room}/bus", "NO_AT_BRIDGE": "1", "GTK_USE_PORTAL": "0"}
    until(lambda: os.path.exists(f"{scene.room}/bus") or bus.poll() is not None, "there is no D-Bus", 20)
    it.start("evolution", "-c", "mail")
    cache = f"{scene.home}/.cache/evolution/mail/account"

    def select(subject):
        it.click(600, ROWS[subject])

    def choose_folder(name, *keys):
        it.keys(*keys)
        wait(1.5)
        it.type(name)
        wait(0.5)
        it.keys("Return")
        wait(1)

    def listed(subject):
        """Whether its summary of INBOX has a message."""
        with contextlib.suppress(sqlite3.Error), contextlib.closing(sqlite3.connect(f"file:{cache}/folders.db?mode=ro", uri=True)) as base:
            return base.execute("select 1 from INBOX where subject = ?", (subject,)).fetchone()

    with scene.step("login"):
        it.window("(?i)authentication", 60)
        wait(2)
        it.type("secret", "Return")
        it.gone("(?i)authentication")
        it.large("Mail|Inbox|Trash|Drafts|Sent")
        until(lambda: os.path.exists(f"{cache}/folders/useless"), "it hasn't fetched the folders", 60)
        wait(1)

        def opened():
            it.click(88, OPENED)
            wait(2)
            select("lunch on friday")
            wait(2.5)
            return "\\seen" in scene.message("INBOX", "lunch on friday").flags

        until(opened, "it doesn't open the first message")
    with scene.step("list"):
        for name in FOLDERS:
            if not os.path.exists(f"{cache}/folders/{name.replace('/', '/subfolders/')}"):
                raise Bad(f"its cache lacks {name}")
    with scene.step("open"):
        scene.unseen("INBOX", "quarterly report")
        for subject in ("quarterly report", "greetings", "minutes"):
            select(subject)
            scene.has("INBOX", subject, "\\Seen")
            until(lambda: scene.cached(f"{cache}/folders", INBOX[subject]), f"its cache lacks the text of {subject!r}")
    with scene.step("search"):
        it.click(740, 133)
        it.type("zebra", "Return")
        wait(2)
        it.click(600, ROWS["lunch on friday"])
        it.keys("ctrl+a")
        choose_folder("useless", "shift+ctrl+y")
        scene.has("useless", "zebra crossing")
        if len(scene.plain.mail("useless")) != 1:
            raise Bad(f"it found {[it.subject for it in scene.plain.mail('useless')]}")
        it.click(740, 133)
        it.keys("ctrl+a", "BackSpace", "Return")
        wait(2)
    with scene.step("flag"):
        it.click(276, ROWS["lunch on friday"])
        scene.has("INBOX", "lunch on friday", "\\Flagged")
        it.click(276, ROWS["lunch on friday"])
        scene.has("INBOX", "lunch on friday", without=("\\Flagged",))
    with scene.step("copy"):
        select("newsletter")
        choose_folder("work", "shift+ctrl+y")
        scene.copied("work", "newsletter")
    with scene.step("move"):
        select("zebra crossing")
        choose_folder("work", "shift+ctrl+v")
        scene.has("work", "zebra crossing")
        it.keys("ctrl+e")
        wait(1.5)
        it.keys("alt+e")
        scene.lacks_message("INBOX", "zebra crossing")
    with scene.step("delete"):
        select("minutes")
        it.keys("ctrl+d", "ctrl+e")
        wait(1.5)
        it.keys("alt+e")
        scene.lacks_message("INBOX", "minutes")
    with scene.step("idle"):
        it.click(88, OPENED)
        wait(3)
        scene.arrives()
        until(lambda: listed("just arrived"), "what arrived isn't listed", 10)
    with scene.step("rename"):
        it.click(76, OLD)
        wait(4)
        it.keys("F2", "ctrl+a")
        wait(1)
        it.type("older", "Return")
        scene.renamed("old", "older")
    with scene.step("remove"):
        it.click(80, USELESS, 3)
        it.keys("d")
        wait(1.5)
        it.click(802, 456)
        scene.has_names(without=("useless",))
    with scene.step("create"):
        it.click(40, ROOT, 3)
        it.click(112, ROOT + 17)
        wait(1.5)
        it.type("plans")
        it.click(450, 289)
        it.click(754, 148)
        scene.has_names("plans")
    with scene.step("append"):
        it.start("evolution", f"mailto:you@example.org?subject=the%20photographs&body=Here%20they%20are.&attach=file://{scene.big}")
        it.window("photographs|Compose", 60)
        wait(3)
        it.keys("ctrl+Return")
        # (it asks whether that key was meant)
        wait(1.5)
        it.click(876, 480)
        scene.saved("Sent", "the photographs", 90)
    with scene.step("reopen"):
        it.large("old|plans|Inbox|Mail|Sent|useless")
        it.click(70, SENT)
        wait(2)
        it.click(600, 191)
        sent = scene.text("Sent", "the photographs")
        until(lambda: scene.cached(f"{cache}/folders", sent), "its cache lacks the message", 60, 1)
