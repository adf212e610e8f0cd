"""Python's imaplib: a script, run by Debian's Python. imaplib has no IDLE in this version; searching, flags and the rest are its own methods."""
import json

from stage import INBOX, Bad, message_with, utf7

PACKAGE, PROGRAMS, LACKS = "python3", ("/usr/bin/python3",), ("idle", "move")
SCRIPT = """
import imaplib, json, sys
host, port, words = sys.argv[1], int(sys.argv[2]), json.loads(sys.argv[3])
it = imaplib.IMAP4(host, port)
it.login("me", "secret")
for word in words:
    if word[0] == "append":
        word = ["append", word[1], None, None, open(word[2], "rb").read()]
    got = getattr(it, word[0])(*word[1:])
    if got[0] not in ("OK", "BYE"):
        sys.exit(f"{word[:2]}: {got}")
print(json.dumps(got[1], default=lambda it: it.decode("latin-1")))
it.logout()
"""


def play(scene):
    path = scene.file("client.py", SCRIPT)

    def ask(*words):
        return json.loads(scene.run("/usr/bin/python3", path, scene.host, str(scene.port), json.dumps(words)))

    with scene.step("login", "list"):
        shown = ask(["list"])
        for name in scene.plain.names():
            if not any(utf7(name) in it for it in shown) or not any(utf7(name) in it for it in ask(["lsub"])):
                raise Bad(f"the list lacks {name}: {shown!r}")
    with scene.step("open"):
        texts = [it[1] for it in ask(["select"], ["fetch", "1:*", "(RFC822)"]) if isinstance(it, list)]
        if [it.encode("latin-1") for it in texts] != list(INBOX.values()):
            raise Bad(f"the texts are others: {texts}"[:300])
        shown = ask(["select"], ["fetch", "2", "(ENVELOPE BODYSTRUCTURE)"])
        if '"Lovelace' not in str(shown) and "Ada Lovelace" not in str(shown) or "report.csv" not in str(shown):
            raise Bad(f"{shown}")
        scene.has("INBOX", "quarterly report", "\\Seen")
    with scene.step("search"):
        found = [ask(["select"], ["search", None, *keys]) for keys in (["BODY", "okapi"], ["SENTON", "4-Nov-2026"], ["SUBJECT", "nothing"])]
        if found != [["6"], ["2"], [""]]:
            raise Bad(f"{found}")
    with scene.step("flag"):
        ask(["select"], ["store", "1", "+FLAGS", "\\Flagged"])
        scene.has("INBOX", "lunch on friday", "\\Flagged", "\\Seen")
        ask(["select"], ["store", "1", "-FLAGS", "(\\Flagged \\Seen)"])
        scene.has("INBOX", "lunch on friday", without=("\\Flagged", "\\Seen"))
    with scene.step("copy"):
        ask(["select"], ["copy", "4", "work"])
        scene.copied("work", "newsletter")
    with scene.step("delete"):
        ask(["select"], ["store", "5", "+FLAGS", "\\Deleted"], ["expunge"])
        scene.lacks_message("INBOX", "minutes")
    with scene.step("create"):
        ask(["create", '"to do &- done"'])
        scene.has_names("to do & done")
    with scene.step("rename"):
        ask(["rename", "old", "older"])
        scene.renamed("old", "older")
    with scene.step("remove"):
        ask(["delete", "useless"])
        scene.has_names(without=("useless",))
    with scene.step("append"):
        with open(f"{scene.home}/mail", "wb") as file:
            file.write(message_with(scene.big))
        ask(["append", "Sent", f"{scene.home}/mail"])
        scene.saved("Sent", "the photographs")
    with scene.step("reopen"):
        shown = ask(["select", "Sent"], ["fetch", "1", "(BODY[])"])
        if shown[0][1].encode("latin-1") != message_with(scene.big):
            raise Bad(f"it has {len(shown[0][1])} octets, others than were sent")
