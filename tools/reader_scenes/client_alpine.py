"""alpine in a terminal, by its keys. Its settings name the server and where mail is sent. It saves by copying and marking deleted, so the copy is undeleted
again and the move expunged. alpine has no IDLE: it asks every 150 seconds."""
from stage import INBOX, REPORT, Terminal

PACKAGE, PROGRAMS, LACKS = "alpine", ("alpine", "tmux"), ("idle",)
SETTINGS = """
personal-name=Me
user-domain=example.org
inbox-path={{{server}}}INBOX
folder-collections=server {{{server}}}[]
default-fcc={{{server}}}Sent
postponed-folder={{{server}}}Drafts
smtp-server={host}:{smtp}
last-version-used=7.25
"""


def play(scene):
    scene.file(".pinerc", SETTINGS.format(server=f"{scene.host}:{scene.port}/user=me/notls", host=scene.host, smtp=scene.smtp.port))
    with open(f"{scene.home}/report.csv", "wb") as file:
        file.write(REPORT)
    it = Terminal(scene, "alpine")

    def find(word):
        """The cursor on the line with this word."""
        it.keys("w", "C-k")
        it.type(word, "Enter")

    def index():
        it.keys("i")
        it.shows("MESSAGE INDEX")

    def save(path):
        it.keys("s")
        it.shows("SAVE: Copy attachment")
        it.keys("C-k")
        it.type(path, "Enter")
        it.shows("written to")

    with scene.step("login"):
        it.shows("ENTER PASSWORD")
        it.type("secret", "Enter")
        it.shows("Preserve password")
        it.keys("n")
        it.shows("6 Messages")
        index()
        for subject in INBOX:
            it.shows(subject)
    with scene.step("list"):
        it.keys("l")
        for name in ("work", "useless", "Sent", "Köln & Umgebung"):
            it.shows(name)
    with scene.step("create"):
        it.keys("a")
        it.type("plans", "Enter")
        scene.has_names("plans")
    with scene.step("rename"):
        find("old")
        it.keys("r")
        it.shows("Rename")
        it.keys("C-k")
        it.type("older", "Enter")
        scene.renamed("old", "older")
    with scene.step("remove"):
        find("useless")
        it.keys("d")
        it.shows("DELETE .useless")
        it.keys("y")
        scene.has_names(without=("useless",))
    index()
    with scene.step("open"):
        scene.unseen("INBOX", "quarterly report")
        find("quarterly")
        it.keys("Enter")
        it.shows("The figures are attached")
        it.keys("v")
        it.shows("report.csv")
        it.keys("Down")
        save(f"{scene.room}/saved.csv")
        scene.same_file(f"{scene.room}/saved.csv", f"{scene.home}/report.csv")
        index()
        find("greetings")
        it.keys("Enter")
        it.shows("Schöne Grüße aus Köln")
        index()
        find("minutes")
        it.keys("Enter")
        it.shows("What was decided within")
        index()
        scene.has("INBOX", "quarterly report", "\\Seen")
        scene.has("INBOX", "greetings", "\\Seen")
    with scene.step("search"):
        it.keys(";", "t", "a")
        it.type("okapi", "Enter")
        it.shows("Select matched 1 message")
        it.hides("lunch on friday")
        it.shows("zebra crossing")
        it.keys(";", "a")
        it.shows("lunch on friday")
    with scene.step("flag"):
        find("lunch")
        it.keys("*", "*")
        scene.has("INBOX", "lunch on friday", "\\Flagged")
        it.keys("*", "!", "*")
        scene.has("INBOX", "lunch on friday", without=("\\Flagged",))
    with scene.step("copy"):
        find("newsletter")
        it.keys("s")
        it.shows("SAVE")
        it.type("work", "Enter")
        scene.copied("work", "newsletter")
        it.keys("u")
        scene.has("INBOX", "newsletter", without=("\\Deleted",))
    with scene.step("move"):
        find("zebra")
        it.keys("s")
        it.shows("SAVE")
        it.type("work", "Enter")
        scene.has("work", "zebra crossing")
        it.keys("x")
        it.shows("(?i)expunge")
        it.keys("y")
        scene.lacks_message("INBOX", "zebra crossing")
    with scene.step("delete"):
        find("minutes")
        it.keys("d", "x")
        it.shows("(?i)expunge")
        it.keys("y")
        scene.lacks_message("INBOX", "minutes")
    with scene.step("append"):
        it.keys("m", "c")
        it.type("you@example.org", "Down", "Down")
        it.keys("C-j")
        it.shows("File to attach")
        it.type(scene.big, "Enter")
        it.shows("Attachment comment")
        it.keys("Enter")
        it.shows("big.bin")
        it.keys("Down")
        it.type("the photographs", "Down")
        it.type("Here they are.", "C-x")
        it.shows("Send message")
        it.keys("y")
        scene.saved("Sent", "the photographs", 90)
    with scene.step("reopen"):
        it.shows("(?i)message sent and copied|MAIN MENU")
        it.keys("g")
        it.shows("(?i)goto folder")
        it.keys("C-k")
        it.type("Sent", "Enter")
        it.shows("the photographs")
        it.keys("Enter")
        it.shows("Here they are")
        it.keys("v")
        it.shows("ATTACHMENT INDEX")
        it.keys("Down")
        save(f"{scene.room}/saved.bin")
        scene.same_file(f"{scene.room}/saved.bin")
