"""curl: each step is one command line, with curl's own words for IMAP. curl has no IDLE (its `-X IDLE` ends after the continuation)."""
import os

from stage import INBOX, Bad, message_with, utf7

PACKAGE, PROGRAMS, LACKS = "curl", ("curl",), ("idle",)


def play(scene):
    def curl(path, *words):
        return scene.run("curl", "-sS", "--user", "me:secret", f"imap://{scene.host}:{scene.port}/{path}", *words)

    with scene.step("login", "list"):
        shown = curl("")
        for name in scene.plain.names():
            if utf7(name) not in shown:
                raise Bad(f"the list lacks {name}: {shown!r}")
    with scene.step("open"):
        for at, text in enumerate(INBOX.values(), 1):
            if curl(f"INBOX;MAILINDEX={at}").encode() != text.replace(b"\r\n", b"\n") and curl(f"INBOX;MAILINDEX={at}").encode() != text:
                raise Bad(f"message {at} has another text")
        part = curl("INBOX;MAILINDEX=2;SECTION=1")
        if part.strip() != "The figures are attached.":
            raise Bad(f"section 1 is {part!r}")
        scene.has("INBOX", "quarterly report", "\\Seen")
    with scene.step("search"):
        found = curl("INBOX?TEXT%20okapi"), curl("INBOX?SUBJECT%20nothing")
        if [it.split() for it in found] != [["*", "SEARCH", "6"], ["*", "SEARCH"]]:
            raise Bad(f"{found}")
    with scene.step("flag"):
        curl("INBOX", "-X", "STORE 1 +FLAGS (\\Flagged)")
        scene.has("INBOX", "lunch on friday", "\\Flagged", "\\Seen")
        curl("INBOX", "-X", "STORE 1 -FLAGS (\\Flagged \\Seen)")
        scene.has("INBOX", "lunch on friday", without=("\\Flagged", "\\Seen"))
    with scene.step("copy"):
        curl("INBOX", "-X", "COPY 4 work")
        scene.copied("work", "newsletter")
    with scene.step("move"):
        curl("INBOX", "-X", "MOVE 6 work")
        scene.has("work", "zebra crossing")
        scene.lacks_message("INBOX", "zebra crossing")
    with scene.step("delete"):
        curl("INBOX", "-X", "STORE 5 +FLAGS (\\Deleted)")
        curl("INBOX", "-X", "EXPUNGE")
        scene.lacks_message("INBOX", "minutes")
    with scene.step("create"):
        curl("", "-X", "CREATE plans")
        scene.has_names("plans")
    with scene.step("rename"):
        curl("", "-X", "RENAME old older")
        scene.renamed("old", "older")
    with scene.step("remove"):
        curl("", "-X", "DELETE useless")
        scene.has_names(without=("useless",))
    with scene.step("append"):
        path = f"{scene.home}/mail"
        with open(path, "wb") as file:
            file.write(message_with(scene.big))
        curl("Sent", "-T", path)
        scene.saved("Sent", "the photographs")
    with scene.step("reopen"):
        curl("Sent;MAILINDEX=1;SECTION=TEXT", "-o", f"{scene.home}/out")
        with open(f"{scene.home}/out", "rb") as file:
            if file.read() != message_with(scene.big).partition(b"\r\n\r\n")[2]:
                raise Bad(f"it has {os.path.getsize(f'{scene.home}/out')} octets, others than were sent")
