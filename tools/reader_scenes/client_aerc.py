"""aerc in a terminal, by its keys and its command line. Its settings name the server, where mail is sent and the folder for what was sent; they turn off what it
shows while a command is typed, since that can hang it if the command is typed fast. aerc has no renaming of folders."""

from stage import INBOX, REPORT, Terminal, wait

PACKAGE, PROGRAMS, LACKS = "aerc", ("aerc", "tmux"), ("rename",)
SETTINGS = """
[Me]
source = imap+insecure://me:secret@{host}:{port}
outgoing = smtp+none://{host}:{smtp}
default = INBOX
from = Me <me@example.org>
copy-to = Sent
postpone = Drafts
"""


def play(scene):
    with open("/usr/share/aerc/aerc.conf", encoding="utf-8") as file:
        scene.file(".config/aerc/aerc.conf", file.read().replace("#completion-popovers=true", "completion-popovers=false"))
    scene.file(".config/aerc/accounts.conf", SETTINGS.format(host=scene.host, port=scene.port, smtp=scene.smtp.port))
    with open(f"{scene.home}/report.csv", "wb") as file:
        file.write(REPORT)
    editor = scene.script("patient", f'until [ -e {scene.room}/go ]; do sleep 0.1; done; echo "Written by an editor." >> "$1"')
    it = Terminal(scene, "aerc", EDITOR=editor)

    def do(command):
        it.type(f":{command}", "Enter", pause=0.4)

    def find(word):
        do("clear")
        do(f"search {word}")

    def close():
        it.keys("q")
        it.hides("part .* of|Subject:")

    with scene.step("login"):
        for subject in INBOX:
            it.shows(subject)
    with scene.step("list"):
        for name in ("work", "useless", "Sent", "Köln & Umge"):
            it.shows(name)
    with scene.step("open"):
        scene.unseen("INBOX", "quarterly report")
        find("quarterly")
        it.keys("Enter")
        it.shows("The figures are attached")
        it.keys("C-j")
        do(f"save {scene.room}/saved.csv")
        scene.same_file(f"{scene.room}/saved.csv", f"{scene.home}/report.csv")
        close()
        find("greetings")
        it.keys("Enter")
        it.shows("Schöne Grüße aus Köln")
        close()
        scene.has("INBOX", "quarterly report", "\\Seen")
        scene.has("INBOX", "greetings", "\\Seen")
    with scene.step("search"):
        do("filter -b okapi")
        it.hides("lunch on friday")
        it.shows("zebra crossing")
        do("clear")
        it.shows("lunch on friday")
    with scene.step("flag"):
        find("lunch")
        do("flag -x Flagged")
        scene.has("INBOX", "lunch on friday", "\\Flagged")
        do("unflag -x Flagged")
        scene.has("INBOX", "lunch on friday", without=("\\Flagged",))
    with scene.step("copy"):
        find("newsletter")
        do("cp work")
        scene.copied("work", "newsletter")
    with scene.step("move"):
        find("zebra")
        do("mv work")
        scene.has("work", "zebra crossing")
        scene.lacks_message("INBOX", "zebra crossing")
    with scene.step("delete"):
        find("minutes")
        it.keys("D")
        scene.lacks_message("INBOX", "minutes")
    with scene.step("create"):
        do("mkdir plans")
        scene.has_names("plans")
    with scene.step("remove"):
        do("cf useless")
        it.shows("no messages")
        do("rmdir")
        scene.has_names(without=("useless",))
    with scene.step("idle"):
        do("cf INBOX")
        wait(5)
        scene.arrives()
        it.shows("just arrived", 12)
    with scene.step("append"):
        do('compose -H "Subject: the photographs" -H "To: you@example.org"')
        it.shows("Subject: *the photographs")
        scene.file("../go", "")
        it.shows("(?i)send this (?:e)?mail|y .*send", 15)
        do(f"attach {scene.big}")
        it.shows("big.bin")
        it.keys("y")
        scene.saved("Sent", "the photographs", 90)
    with scene.step("reopen"):
        do("cf Sent")
        it.shows("the photographs")
        it.keys("Enter")
        it.shows("Written by an editor", 60)
        it.keys("C-j")
        it.shows("No filter configured", 60)
        do(f"save {scene.room}/saved.bin")
        scene.same_file(f"{scene.room}/saved.bin", seconds=60)
