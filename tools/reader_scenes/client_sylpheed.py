"""sylpheed under Xvfb, by mouse and keys at the places where it shows things in a window of 1200 by 800. What it shows isn't read: its list of folders, which
it stores when it ends, and its cache of messages are (folderlist.xml, imapcache), and what it does is seen at the server. Its settings name the server, where
mail is sent and the folders for what it sends and deletes. Deleting moves to the trash. Its quick search looks at headers that it has fetched; what it found is
copied to a folder, so that it is seen. It has no IDLE."""

from stage import INBOX, REPORT, Bad, Display, until, wait

PACKAGE, PROGRAMS, LACKS = "sylpheed", ("sylpheed", "Xvfb", "xdotool", "openbox", "wmctrl"), ("idle",)
SETTINGS = """
[Account: 1]
account_name=me
is_default=1
name=Me
address=me@example.org
protocol=3
receive_server={host}
smtp_server={host}
user_id=me
password=secret
ssl_imap=0
set_imapport=1
imap_port={port}
set_smtpport=1
smtp_port={smtp}
set_sent_folder=1
sent_folder=#imap/me/Sent
set_trash_folder=1
trash_folder=#imap/me/Trash
"""
LOCAL = '<?xml version="1.0" encoding="UTF-8"?>\n<folderlist>\n<folder type="mh" name="Mailbox" path="Mail"></folder>\n</folderlist>\n'
ROOT, OPENED, SENT, OLD, USELESS = 273, 294, 315, 399, 420
CHOICE = {"useless": 530, "work": 550}
ROWS = {subject: 158 + 21 * at for at, subject in enumerate(INBOX)}


def play(scene):
    scene.file(".sylpheed-2.0/accountrc", SETTINGS.format(host=scene.host, port=scene.port, smtp=scene.smtp.port))
    scene.file(".sylpheed-2.0/folderlist.xml", LOCAL)
    scene.file("Mail/.there", "")
    with open(f"{scene.home}/report.csv", "wb") as file:
        file.write(REPORT)
    it = Display(scene)
    it.start("openbox")
    it.start("sylpheed")

    def select(subject):
        it.click(330, ROWS[subject])

    def folder_menu(row, entry):
        """An entry of the menu of a folder, by its distance from the first one."""
        it.click(70, row, 3)
        it.click(150, row + 12 + 21 * entry)

    def choose_folder(name, *keys):
        it.keys(*keys)
        it.window("(?i)select folder")
        it.click(525, CHOICE[name])
        it.click(713, 642)
        it.gone("(?i)select folder")
        it.large("Sylpheed")

    def save_part(path, row):
        """Saves the attachment whose bar is shown at this height."""
        it.click(300, row)
        it.click(253, row + 67)
        it.window("(?i)save as")
        it.keys("ctrl+a")
        it.type(path, "Return")
        it.gone("(?i)save as")
        it.large("Sylpheed")

    with scene.step("login"):
        it.large("Sylpheed")

        def opened():
            """Clicks until it has fetched its folders and then the messages of INBOX."""
            it.click(85, OPENED)
            wait(2)
            select("lunch on friday")
            wait(1)
            return "\\seen" in scene.message("INBOX", "lunch on friday").flags

        until(opened, "it doesn't open the first message")
    with scene.step("open"):
        scene.unseen("INBOX", "quarterly report")
        for subject in ("quarterly report", "greetings", "minutes"):
            select(subject)
            scene.has("INBOX", subject, "\\Seen")
            until(lambda: scene.cached(f"{scene.home}/.sylpheed-2.0/imapcache", INBOX[subject]), f"its cache lacks the text of {subject!r}")
        select("quarterly report")
        save_part(f"{scene.room}/saved.csv", 492)
        scene.same_file(f"{scene.room}/saved.csv", f"{scene.home}/report.csv")
    with scene.step("search"):
        it.click(500, 102)
        it.type("zebra", "Return")
        it.click(330, 158)
        it.keys("ctrl+a")
        choose_folder("useless", "shift+ctrl+o")
        scene.has("useless", "zebra crossing")
        if len(scene.plain.mail("useless")) != 1:
            raise Bad(f"it found {[it.subject for it in scene.plain.mail('useless')]}")
        it.click(500, 102)
        it.keys("ctrl+a", "BackSpace", "Return")
    with scene.step("flag"):
        select("lunch on friday")
        it.keys("asterisk")
        scene.has("INBOX", "lunch on friday", "\\Flagged")
        it.keys("u")
        scene.has("INBOX", "lunch on friday", without=("\\Flagged",))
    with scene.step("copy"):
        select("newsletter")
        choose_folder("work", "shift+ctrl+o")
        scene.copied("work", "newsletter")
    with scene.step("move"):
        select("zebra crossing")
        choose_folder("work", "ctrl+o")
        scene.has("work", "zebra crossing")
        scene.lacks_message("INBOX", "zebra crossing")
    with scene.step("delete"):
        select("minutes")
        it.keys("ctrl+d")
        scene.lacks_message("INBOX", "minutes")
        scene.has("Trash", "minutes")
    with scene.step("rename"):
        folder_menu(OLD, 1)
        it.window("(?i)rename")
        it.keys("ctrl+a")
        it.type("older", "Return")
        scene.renamed("old", "older")
    with scene.step("remove"):
        it.large("Sylpheed")
        folder_menu(USELESS, 3)
        it.window("(?i)delete folder")
        it.keys("alt+y")
        scene.has_names(without=("useless",))
    with scene.step("create"):
        it.large("Sylpheed")
        folder_menu(ROOT, 0)
        it.window("(?i)new folder")
        it.keys("ctrl+a")
        it.type("plans", "Return")
        scene.has_names("plans")
    with scene.step("append"):
        it.start("sylpheed", "--compose", "mailto:you@example.org?subject=the%20photographs&body=Here%20they%20are.", "--attach", scene.big)
        window = it.window("Compose")
        wait(1)
        it.do("mousemove", "--window", window, "40", "47", "click", "1")
        scene.saved("Sent", "the photographs", 90)
    with scene.step("reopen"):
        it.large("Sylpheed")
        sent = scene.text("Sent", "the photographs")
        it.click(85, SENT)

        def opened_again():
            """Clicks on the message, which may not be listed yet."""
            it.click(330, 158)
            wait(1)
            return scene.cached(f"{scene.home}/.sylpheed-2.0/imapcache", sent)

        until(opened_again, "its cache lacks the message", 60, 1)
    with scene.step("list"):
        it.keys("ctrl+q")
        it.gone("Sylpheed")
        with open(f"{scene.home}/.sylpheed-2.0/folderlist.xml", encoding="utf-8") as file:
            listed = file.read()
        for name in scene.plain.names():
            if f'path="{name.replace("&", "&amp;")}"' not in listed:
                raise Bad(f"its list lacks {name}: {listed}")
