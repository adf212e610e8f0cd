"""s-nail, the mail command: each step is a run of it with its commands at its input. It searches by what IMAP calls a search; what it sends it saves in
`record`. It saves by copying and marking, and marks what it read when it leaves. It has no IDLE and no command that makes a folder."""
import re

from stage import INBOX, REPORT, Bad, attachment_hashes

PACKAGE, PROGRAMS, LACKS = "s-nail", ("s-nail",), "create idle".split()
SETTINGS = """
set mta=smtp://{host}:{smtp} smtp-auth=none
set from=me@example.org
set folder=imap://me:secret@{host}:{port}/
set record=+Sent
"""


def play(scene):
    scene.environment["MAILRC"] = scene.file(".mailrc", SETTINGS.format(host=scene.host, port=scene.port, smtp=scene.smtp.port))
    scene.environment["DEAD"] = f"{scene.room}/dead"
    at = f"imap://me@{scene.host}:{scene.port}/"
    with open(f"{scene.home}/report.csv", "wb") as file:
        file.write(REPORT)

    def mail(*commands, folder="INBOX"):
        lines = "\n".join(commands) + "\n"
        return scene.run("s-nail", "-:u", "-#", "-S", "v15-compat", "-f", f"imap://me:secret@{scene.host}:{scene.port}/{folder}", input=lines, seconds=120)

    def holds(path, attached):
        with open(path, "rb") as file:
            if scene.file_hash(attached) not in attachment_hashes(file.read().partition(b"\n")[2]):
                raise Bad(f"what it stored hasn't the octets of {attached}")

    with scene.step("login"):
        shown = mail("headers", "exit")
        if any(subject not in shown for subject in INBOX):
            raise Bad(f"the headers are {shown!r}")
    with scene.step("list"):
        shown = mail("folders @", "exit")
        if any(name not in shown for name in ("work", "useless", "Sent", "K")):
            raise Bad(f"the folders are {shown!r}")
    with scene.step("open"):
        shown = mail("type 2", "type 3", "type 5", f"copy 2 {scene.room}/part", "quit")
        for text in ("The figures are attached", "Schöne Grüße aus Köln", "What was decided within"):
            if text not in shown:
                raise Bad(f"it doesn't show {text!r}: {shown[-300:]!r}")
        holds(f"{scene.room}/part", f"{scene.home}/report.csv")
        scene.has("INBOX", "quarterly report", "\\Seen")
    with scene.step("search"):
        shown = mail("headers '(body okapi)'", "exit")
        if len(re.findall("zebra crossing", shown)) < 1 or "lunch on friday" in shown.split("zebra")[-1]:
            raise Bad(f"it found {shown!r}")
    with scene.step("flag"):
        mail("flag 1", "quit")
        scene.has("INBOX", "lunch on friday", "\\Flagged")
        mail("unflag 1", "quit")
        scene.has("INBOX", "lunch on friday", without=("\\Flagged",))
    with scene.step("copy"):
        mail("copy 4 +work", "quit")
        scene.has("work", "newsletter")
        scene.has("INBOX", "newsletter")
    with scene.step("move"):
        mail("move 6 +work", "quit")
        scene.has("work", "zebra crossing")
        scene.lacks_message("INBOX", "zebra crossing")
    with scene.step("delete"):
        mail("delete '(subject minutes)'", "quit")
        scene.lacks_message("INBOX", "minutes")
    with scene.step("rename"):
        mail(f"rename {at}old {at}older", "exit")
        scene.renamed("old", "older")
    with scene.step("remove"):
        mail(f"remove {at}useless", "exit")
        scene.has_names(without=("useless",))
    with scene.step("append"):
        scene.run("s-nail", "-:u", "-S", "v15-compat", "-s", "the photographs", "-a", scene.big, "you@example.org", input="Here they are.\n", seconds=120)
        scene.saved("Sent", "the photographs")
    with scene.step("reopen"):
        mail(f"copy 1 {scene.room}/mbox", "exit", folder="Sent")
        holds(f"{scene.room}/mbox", scene.big)
