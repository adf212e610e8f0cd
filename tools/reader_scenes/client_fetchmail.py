"""fetchmail, run from a shell: it fetches what is unseen and all, keeps and deletes (its default), and idles in the foreground. What it fetches is handed to a
script that stores it in files. It adds header fields, so texts are compared after the header, and subjects in it."""
import glob

from stage import INBOX, Bad, headed, message_with, until, wait

PACKAGE, PROGRAMS, LACKS = "fetchmail", ("fetchmail",), "list flag copy move create rename remove append".split()


def play(scene):
    deliver = scene.script("deliver", f'exec cat > "$(mktemp {scene.room}/got.XXXXXX)"')
    settings = scene.file(".fetchmailrc", f'poll {scene.host} port {scene.port} protocol imap user "me" password "secret" sslproto "" mda "{deliver}"\n')

    def fetch(*words):
        return scene.run("fetchmail", "-f", settings, *words, good=(0, 1))

    def got():
        """The messages that were handed over so far: subject and what follows the header."""
        texts = []
        for path in glob.glob(f"{scene.room}/got.*"):
            with open(path, "rb") as file:
                texts.append(file.read().replace(b"\r\n", b"\n"))
        return texts

    def has(text):
        head, _, body = text.replace(b"\r\n", b"\n").partition(b"\n\n")
        subject = next(it for it in head.split(b"\n") if it.startswith(b"Subject:"))
        return sum(it.partition(b"\n\n")[2].rstrip() == body.rstrip() and subject in it for it in got())

    def count(number):
        if len(got()) != number:
            raise Bad(f"{len(got())} messages were fetched in place of {number}")

    with scene.step("login", "open"):
        fetch("--keep")
        count(5)
        for subject, text in INBOX.items():
            if has(text) != (subject != "minutes"):
                raise Bad(f"{subject!r} was fetched {has(text)} times")
            scene.has("INBOX", subject, "\\Seen")
    with scene.step("search"):
        scene.plain.append("INBOX", headed("only this", "", "It came later."))
        fetch("--keep")
        count(6)
    with scene.step("reopen"):
        scene.plain.append("INBOX", message_with(scene.big))
        fetch("--keep")
        if has(message_with(scene.big)) != 1:
            raise Bad("the message of 5 MB was fetched with other octets")
    with scene.step("delete"):
        fetch("--all")
        count(15)
        scene.sees(lambda plain: plain.mail("INBOX") == [], "INBOX is empty")
    with scene.step("idle"):
        import subprocess

        ran = subprocess.Popen(["fetchmail", "-f", settings, "--idle"], env=scene.environment, stdout=subprocess.DEVNULL, stderr=subprocess.DEVNULL)
        scene.closing.append(ran.kill)
        wait(3)
        scene.arrives()
        until(lambda: len(got()) == 16, "what arrived wasn't fetched", 10)
        ran.terminate()
        ran.wait(10)
