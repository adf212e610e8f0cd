"""Maildirs, in which some clients store what they fetch."""
import glob
import os


def texts(path):
    """The texts of a Maildir, by their files."""
    found = {}
    for it in glob.glob(f"{glob.escape(path)}/new/*") + glob.glob(f"{glob.escape(path)}/cur/*"):
        with open(it, "rb") as file:
            found[it] = file.read().replace(b"\r\n", b"\n")
    return found


def without(text, *fields):
    """A text without the lines of its header that begin so."""
    head, middle, body = text.replace(b"\r\n", b"\n").partition(b"\n\n")
    return b"\n".join(it for it in head.split(b"\n") if not it.startswith(fields)) + middle + body


def file_with(path, word):
    """The file of the one message that has a word in its header."""
    found = [it for it, text in texts(path).items() if word in text.partition(b"\n\n")[0]]
    return found[0] if len(found) == 1 else None


def new_message(path, text):
    """A new message in a Maildir, which is made if it doesn't exist."""
    for it in ("cur", "new", "tmp"):
        os.makedirs(f"{path}/{it}", exist_ok=True)
    name = f"{abs(hash(text))}.1.here"
    with open(f"{path}/tmp/{name}", "wb") as file:
        file.write(text.replace(b"\r\n", b"\n"))
    os.rename(f"{path}/tmp/{name}", f"{path}/new/{name}")


def with_flags(path, flags):
    """Renames a message's file to one with these flags added."""
    name, _, old = path.partition(":2,")
    folder, base = os.path.split(name)
    fresh = f"{os.path.dirname(folder)}/cur/{base}:2,{''.join(sorted(set(old) | set(flags)))}"
    os.rename(path, fresh)
    return fresh
