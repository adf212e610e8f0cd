"""mutt in a terminal, by its keys: the folder browser, the index, the pager, the attachment menu, the compose menu. Its settings name the server and where mail is
sent; imap_idle is switched on (it is off by default), and it looks every three seconds at what its IDLE brought (timeout). A search is asked of the server (=b)."""

from stage import INBOX, REPORT, Terminal, wait

PACKAGE, PROGRAMS, LACKS = "mutt", ("mutt", "tmux"), ()
PROGRAM = "mutt"
SETTINGS = """
set folder="imap://me@{host}:{port}/"
set spoolfile="+INBOX" record="+Sent" postponed="+Drafts"
set imap_pass="secret" imap_idle=yes timeout=3
set ssl_starttls=no ssl_force_tls=no
set smtp_url="smtp://{host}:{smtp}/"
set from="me@example.org" realname="Me"
"""


def play(scene, program=PROGRAM):
    scene.file(f".{program}rc", SETTINGS.format(host=scene.host, port=scene.port, smtp=scene.smtp.port))
    with open(f"{scene.home}/report.csv", "wb") as file:
        file.write(REPORT)
    it = Terminal(scene, program)

    def folder(name):
        it.keys("c", "C-u")
        it.type(name, "Enter")

    def to_message(subject):
        """The cursor on the message with this subject, by mutt's own search."""
        it.keys("/", "C-u")
        it.type(subject, "Enter")

    with scene.step("login"):
        for subject in INBOX:
            it.shows(subject)
    with scene.step("list"):
        it.keys("c", "?")
        if program == "neomutt":
            it.keys("Tab")
        for name in ("work", "useless", "Sent", "Köln & Umgebung"):
            it.shows(name)
    with scene.step("create"):
        it.keys("C", "C-u")
        it.type("plans", "Enter")
        scene.has_names("plans")
    with scene.step("rename"):
        it.keys("/")
        it.type("old", "Enter")
        it.keys("r", "C-u")
        it.type("older", "Enter")
        scene.renamed("old", "older")
    with scene.step("remove"):
        it.keys("/")
        it.type("useless", "Enter")
        it.keys("d", "y")
        scene.has_names(without=("useless",))
    it.keys("q")
    with scene.step("open"):
        it.shows("lunch on friday")
        scene.unseen("INBOX", "quarterly report")
        to_message("quarterly")
        it.keys("Enter")
        it.shows("The figures are attached")
        it.keys("v")
        it.shows("report.csv")
        it.keys("j", "s", "C-u")
        it.type(f"{scene.room}/saved.csv", "Enter")
        scene.same_file(f"{scene.room}/saved.csv", f"{scene.home}/report.csv")
        it.keys("q")
        it.keys("i")
        to_message("greetings")
        it.keys("Enter")
        it.shows("Schöne Grüße aus Köln")
        it.keys("i")
        to_message("minutes")
        it.keys("Enter")
        it.shows("What was decided within")
        it.keys("i", "$")
        scene.has("INBOX", "quarterly report", "\\Seen")
        scene.has("INBOX", "greetings", "\\Seen")
    with scene.step("search"):
        it.keys("l", "C-u")
        it.type("=b okapi", "Enter")
        it.hides("lunch on friday")
        it.shows("zebra crossing")
        it.keys("l", "C-u")
        it.type("all", "Enter")
        it.shows("lunch on friday")
    with scene.step("flag"):
        to_message("lunch")
        it.keys("F", "$")
        scene.has("INBOX", "lunch on friday", "\\Flagged", without=("\\Seen",))
        to_message("lunch")
        it.keys("F", "$")
        scene.has("INBOX", "lunch on friday", without=("\\Flagged", "\\Seen"))
    with scene.step("copy"):
        to_message("newsletter")
        it.keys("C", "C-u")
        it.type("=work", "Enter")
        it.shows("Append message")
        it.keys("y")
        scene.copied("work", "newsletter")
    with scene.step("move"):
        to_message("zebra")
        it.keys("s", "C-u")
        it.type("=work", "Enter")
        it.shows("Append message")
        it.keys("y")
        scene.has("work", "zebra crossing")
        it.keys("$")
        it.shows("(?i)purge")
        it.keys("y")
        scene.lacks_message("INBOX", "zebra crossing")
    with scene.step("delete"):
        to_message("minutes")
        it.keys("d", "$")
        it.shows("(?i)purge")
        it.keys("y")
        scene.lacks_message("INBOX", "minutes")
    with scene.step("append"):
        it.keys("m")
        it.shows("To:")
        it.type("you@example.org", "Enter")
        it.shows("Subject:")
        it.type("the photographs", "Enter")
        it.shows("Security:|Sicherheit:")
        it.keys("a")
        it.shows("(?i)attach file")
        it.keys("C-u")
        it.type(scene.big, "Enter")
        it.shows("applica")
        it.keys("y")
        scene.saved("Sent", "the photographs")
    with scene.step("idle"):
        it.hides("Sending|Saving|Uploading")
        folder("=INBOX")
        # (by then it idles)
        wait(6)
        scene.arrives()
        it.shows("just arrived", 12)
    with scene.step("reopen"):
        folder("=Sent")
        it.shows("the photographs")
        it.keys("Enter")
        it.shows("Written by an editor", 60)
        it.keys("v", "j", "s", "C-u")
        it.type(f"{scene.room}/saved.bin", "Enter")
        scene.same_file(f"{scene.room}/saved.bin")
