"""Claws Mail under Xvfb, by mouse and keys at the places where it shows things in a window of 1200 by 800. What it shows isn't read: its list of folders and
its cache of messages are (folderlist.xml, imapcache), and what it does is seen at the server. Its settings name the server, where mail is sent and the folders
for what it sends and deletes; the password is typed. Deleting moves to the trash. What its extended quick search for a body finds is copied to a folder, so
that it is seen. It has no IDLE."""

from stage import FOLDERS, INBOX, REPORT, Bad, Display, until, wait

PACKAGE, PROGRAMS, LACKS = "claws-mail", ("claws-mail", "Xvfb", "xdotool", "openbox", "wmctrl"), ("idle",)
SETTINGS = """
[Account: 1]
account_name=me
is_default=1
name=Me
address=me@example.org
protocol=3
receive_server={host}
smtp_server={host}
user_id=me
ssl_imap=0
ssl_smtp=0
set_imapport=1
imap_port={port}
set_smtpport=1
smtp_port={smtp}
set_sent_folder=1
sent_folder=#imap/me/Sent
set_trash_folder=1
trash_folder=#imap/me/Trash
"""
LIST = '<?xml version="1.0" encoding="UTF-8"?>\n<folderlist>\n<folder type="imap" name="me" collapsed="0" account_id="1">\n</folder>\n</folderlist>\n'
ROOT, OPENED, SENT, OLD, USELESS = 151, 168, 185, 270, 287
ROWS = {subject: 151 + 17 * at for at, subject in enumerate(reversed(INBOX))}
CHOICE = {"useless": 427, "work": 447}
CREATE, RENAME, DELETE, REBUILD = 13, 39, 115, 267


def play(scene):
    scene.file(".claws-mail/accountrc", SETTINGS.format(host=scene.host, port=scene.port, smtp=scene.smtp.port))
    scene.file(".claws-mail/folderlist.xml", LIST)
    # (there is no dictionary for its spelling)
    scene.file(".claws-mail/clawsrc", "[Common]\nenable_aspell=0\n")
    scene.file("Mail/.there", "")
    with open(f"{scene.home}/report.csv", "wb") as file:
        file.write(REPORT)
    it = Display(scene)
    it.start("openbox")
    it.start("claws-mail")

    def select(subject, less=0):
        """Clicks on a message of INBOX, when so many of those above it are gone."""
        it.click(420, ROWS[subject] - 17 * less)

    def folder_menu(row, entry):
        it.click(80, row, 3)
        it.click(172, row + entry)

    def choose_folder(name, *keys):
        it.keys(*keys)
        it.window("(?i)select folder")
        it.click(560, CHOICE[name])
        it.click(703, 578)
        it.gone("(?i)select folder")
        it.large("Claws Mail")

    def save_part(path):
        """Saves the part that the third icon at the right stands for."""
        it.click(1182, 534)
        it.keys("y")
        it.window("(?i)save as")
        it.keys("ctrl+a")
        it.type(path, "Return")
        it.gone("(?i)save as")
        it.large("Claws Mail")

    def listed():
        with open(f"{scene.home}/.claws-mail/folderlist.xml", encoding="utf-8") as file:
            return file.read()

    with scene.step("login"):
        it.window("Error")
        it.keys("Return")
        it.large("Claws Mail")
        folder_menu(ROOT, REBUILD)
        it.window("(?i)rebuild|folder tree")
        it.keys("alt+y")
        it.window("Input password")
        it.click(630, 438)
        it.click(630, 398)
        it.type("secret", "Return")
        it.gone("Input password|Rebuild")
        it.large("Claws Mail")
        until(lambda: 'path="INBOX"' in listed(), "its list has no INBOX")

        def opened():
            """Clicks until it has fetched its folders and then the messages of INBOX."""
            it.click(85, OPENED)
            wait(2)
            select("lunch on friday")
            wait(1)
            return "\\seen" in scene.message("INBOX", "lunch on friday").flags

        until(opened, "it doesn't open the first message")
    with scene.step("list"):
        for name in FOLDERS:
            if name.replace("&", "&amp;") not in listed():
                raise Bad(f"its list lacks {name}: {listed()}")
    with scene.step("open"):
        scene.unseen("INBOX", "quarterly report")
        for subject in ("quarterly report", "greetings", "minutes"):
            select(subject)
            scene.has("INBOX", subject, "\\Seen")
            until(lambda: scene.cached(f"{scene.home}/.claws-mail/imapcache", INBOX[subject]), f"its cache lacks the text of {subject!r}")
        select("quarterly report")
        save_part(f"{scene.room}/saved.csv")
        scene.same_file(f"{scene.room}/saved.csv", f"{scene.home}/report.csv")
    with scene.step("search"):
        it.click(360, 417)
        it.click(311, 565)
        it.click(700, 406)
        it.type("B okapi", "Return")
        it.click(420, 151)
        it.keys("ctrl+a")
        choose_folder("useless", "shift+ctrl+o")
        scene.has("useless", "zebra crossing")
        if len(scene.plain.mail("useless")) != 1:
            raise Bad(f"it found {[it.subject for it in scene.plain.mail('useless')]}")
        it.click(975, 417)
    with scene.step("flag"):
        select("lunch on friday")
        it.keys("asterisk")
        scene.has("INBOX", "lunch on friday", "\\Flagged")
        it.keys("u")
        scene.has("INBOX", "lunch on friday", without=("\\Flagged",))
    with scene.step("copy"):
        select("newsletter")
        choose_folder("work", "shift+ctrl+o")
        scene.copied("work", "newsletter")
    with scene.step("move"):
        select("zebra crossing")
        choose_folder("work", "ctrl+o")
        scene.has("work", "zebra crossing")
        scene.lacks_message("INBOX", "zebra crossing")
    with scene.step("delete"):
        select("minutes", 1)
        it.keys("ctrl+d")
        scene.lacks_message("INBOX", "minutes")
        scene.has("Trash", "minutes")
    with scene.step("rename"):
        folder_menu(OLD, RENAME)
        it.window("(?i)rename")
        it.keys("ctrl+a")
        it.type("older", "Return")
        scene.renamed("old", "older")
    with scene.step("remove"):
        it.large("Claws Mail")
        folder_menu(USELESS, DELETE)
        it.window("(?i)delete folder")
        it.keys("alt+d")
        scene.has_names(without=("useless",))
    with scene.step("create"):
        it.large("Claws Mail")
        folder_menu(ROOT, CREATE)
        it.window("(?i)new folder")
        it.keys("ctrl+a")
        it.type("plans", "Return")
        scene.has_names("plans")
    with scene.step("append"):
        it.start("claws-mail", "--compose", f"mailto:you@example.org?subject=the%20photographs&body=Here%20they%20are.&attach={scene.big}")
        it.window("Notice")
        it.keys("Return")
        it.window("Compose")
        it.keys("ctrl+Return")
        scene.saved("Sent", "the photographs", 90)
    with scene.step("reopen"):
        it.large("Claws Mail")
        sent = scene.text("Sent", "the photographs")
        it.click(85, SENT)

        def opened_again():
            """Clicks on the message, which may not be listed yet."""
            it.click(420, 151)
            wait(1)
            return scene.cached(f"{scene.home}/.claws-mail/imapcache", sent)

        until(opened_again, "its cache lacks the message", 60, 1)
