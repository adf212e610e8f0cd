"""What the scenes of tools/readers are played on: a plain IMAP client that checks from outside, the mail that it lays out, a place that takes mail for sending,
terminals and displays."""
import base64
import contextlib
import glob
import hashlib
import os
import pwd
import random
import re
import shutil
import signal
import socket
import subprocess
import threading
import time

USER, PASSWORD = "me", "secret"
STEPS = "login list open search flag copy move delete create rename remove append reopen idle".split()
PATIENCE = float(os.environ.get("PATIENCE", "25"))
SLOWNESS = max(PATIENCE / 25, 1)


class Bad(Exception):
    """What went wrong."""


def wait(seconds):
    """Lets a program work for some seconds, for more of them if more patience is asked for."""
    time.sleep(seconds * SLOWNESS)


def until(condition, what, seconds=25, pause=0.1):
    """What the condition gives as soon as that is true; Bad if it isn't in time."""
    deadline = time.monotonic() + seconds * SLOWNESS
    while not (it := condition()):
        if time.monotonic() > deadline:
            raise Bad(what() if callable(what) else what)
        time.sleep(pause)
    return it


# ---- the plain client


def utf7(name):
    """A mailbox's name in modified UTF-7 (RFC 3501, section 5.1.3)."""

    def shifted(run):
        return "&" + base64.b64encode(run[0].encode("utf-16-be")).decode().rstrip("=").replace("/", ",") + "-"

    return re.sub(r"[^\x20-\x7e]+", shifted, name.replace("&", "&-"))


def from_utf7(name):
    def plain(run):
        coded = run[1].replace(",", "/")
        return base64.b64decode(coded + "=" * (-len(coded) % 4)).decode("utf-16-be") if coded else "&"

    return re.sub(r"&([^-]*)-", plain, name)


class Ended(Bad):
    """The client ended before its scene."""


class Message:
    def __init__(self, plain, mailbox, uid, flags, header):
        self.plain, self.mailbox, self.uid, self.flags = plain, mailbox, uid, flags
        found = re.search(rb"(?im)^subject:[ \t]*(.*(?:\r\n[ \t].*)*)", header)
        self.subject = re.sub(r"\r\n[ \t]+", " ", found[1].decode("utf-8", "replace")).strip() if found else ""

    @property
    def text(self):
        """All octets of the message."""
        self.plain.ask(b"EXAMINE " + self.plain.spelled(self.mailbox))
        for it in self.plain.ask(b"UID FETCH %d (UID BODY.PEEK[])" % self.uid):
            if found := re.match(rb"\* \d+ FETCH \(.*?BODY\[\] \{\d+\}\r\n(.*)\)\Z", it, re.S):
                return found[1]
        raise Bad(f"{self.subject!r} in {self.mailbox} is gone")


class Plain:
    """An IMAP client that knows only what the checks need. At a port of the profile (`rev2`) names are UTF-8, elsewhere modified UTF-7."""

    def __init__(self, address, rev2):
        self.rev2, self.tags, self.unread = rev2, 0, b""
        self.socket = socket.create_connection(address, timeout=60)
        self.socket.setsockopt(socket.IPPROTO_TCP, socket.TCP_NODELAY, 1)
        self.answer()
        self.ask(b"LOGIN %s %s" % (USER.encode(), PASSWORD.encode()))

    def more(self):
        octets = self.socket.recv(1 << 18)
        if not octets:
            raise Bad("the server hung up on the plain client")
        self.unread += octets

    def answer(self):
        """The next answer, its literals included, without its last CRLF."""
        end = 0
        while True:
            while (at := self.unread.find(b"\r\n", end)) < 0:
                self.more()
            literal = re.search(rb"\{(\d+)\}\Z", self.unread[end:at])
            if not literal:
                break
            end = at + 2 + int(literal[1])
            while len(self.unread) < end:
                self.more()
        answer, self.unread = self.unread[:at], self.unread[at + 2 :]
        return answer

    def ask(self, command, literal=None):
        """The untagged answers of a command that must be answered OK; a literal is waited for and ends the command."""
        self.tags += 1
        tag = b"p%d " % self.tags
        self.socket.sendall(tag + command + (b" {%d}" % len(literal) if literal is not None else b"") + b"\r\n")
        untagged = []
        while not (it := self.answer()).startswith(tag):
            if it.startswith(b"+") and literal is not None:
                self.socket.sendall(literal + b"\r\n")
            else:
                untagged.append(it)
        if not it.startswith(tag + b"OK"):
            raise Bad(f"{command[:60]!r} of the plain client was answered {it[:100]!r}")
        return untagged

    def spelled(self, name):
        coded = name if self.rev2 else utf7(name)
        return b'"' + coded.replace("\\", "\\\\").replace('"', '\\"').encode() + b'"'

    def read_names(self, answers):
        names = set()
        for it in answers:
            found = re.match(rb'\* (?:LIST|LSUB) \(([^)]*)\) (?:"."|NIL) (?:"((?:[^"\\]|\\.)*)"|\{\d+\}\r\n(.*)|(\S+))\Z', it, re.S)
            if found and not re.search(rb"(?i)\\(noselect|nonexistent)", found[1]):
                name = next(part for part in found.groups()[1:] if part is not None).decode()
                name = re.sub(r"\\(.)", r"\1", name)
                names.add(name if self.rev2 else from_utf7(name))
        return names

    def names(self):
        return self.read_names(self.ask(b'LIST "" "*"'))

    def subscribed(self):
        return self.read_names(self.ask(b'LIST (SUBSCRIBED) "" "*"' if self.rev2 else b'LSUB "" "*"'))

    def mail(self, name):
        """The messages of a mailbox, and none if it doesn't exist."""
        try:
            told = self.ask(b"EXAMINE " + self.spelled(name))
        except Bad:
            return []
        if b"* 0 EXISTS" in told:
            return []
        messages = []
        for it in self.ask(b"FETCH 1:* (UID FLAGS BODY.PEEK[HEADER])"):
            if found := re.match(rb"\* \d+ FETCH \((.*?)BODY\[HEADER\] (?:\{\d+\}\r\n(.*)|\"\")\)\Z", it, re.S):
                plain = found[1].decode()
                flags = frozenset(re.search(r"FLAGS \(([^)]*)\)", plain)[1].lower().split()) - {"\\recent"}
                messages.append(Message(self, name, int(re.search(r"UID (\d+)", plain)[1]), flags, found[2] or b""))
        return messages

    def append(self, name, text, flags=""):
        self.ask(b"APPEND " + self.spelled(name) + (f" ({flags})" if flags else "").encode(), text)

    def create(self, name):
        self.ask(b"CREATE " + self.spelled(name))
        self.ask(b"SUBSCRIBE " + self.spelled(name))

    def clear(self):
        """Leaves INBOX only, without a message."""
        for name in sorted(self.subscribed(), reverse=True):
            self.ask(b"UNSUBSCRIBE " + self.spelled(name))
        for name in sorted(self.names() - {"INBOX"}, reverse=True):
            self.ask(b"DELETE " + self.spelled(name))
        if any(not it.startswith(b"* 0 EXISTS") for it in self.ask(b"SELECT INBOX") if b" EXISTS" in it):
            self.ask(b"STORE 1:* +FLAGS.SILENT (\\Deleted)")
            self.ask(b"EXPUNGE")

    def close(self):
        self.socket.close()


# ---- the mail that is laid out


def text_of(*lines):
    return "\r\n".join((*lines, "")).encode()


def headed(subject, *lines, sender="Ada Lovelace <ada@example.org>", day=3, kind="text/plain; charset=us-ascii"):
    return text_of(
        f"From: {sender}", "To: Me <me@example.org>", f"Subject: {subject}", f"Date: Tue, {day:02} Nov 2026 10:00:00 +0100",
        f"Message-ID: <{hashlib.sha1(subject.encode()).hexdigest()[:12]}@example.org>", "MIME-Version: 1.0", f"Content-Type: {kind}", *lines,
    )


REPORT = b"month,sum\n" + b"".join(b"%d,%d\n" % (at, at * at) for at in range(1, 400))
INBOX = {
    "lunch on friday": headed("lunch on friday", "", "Shall we meet by the river, at noon?"),
    "quarterly report": headed(
        "quarterly report", "", "--cut", "Content-Type: text/plain", "", "The figures are attached.", "--cut", 'Content-Type: text/csv; name="report.csv"',
        'Content-Disposition: attachment; filename="report.csv"', "Content-Transfer-Encoding: base64", "",
        *base64.encodebytes(REPORT).decode().split(), "--cut--", day=4, kind='multipart/mixed; boundary="cut"'),
    "greetings": headed(
        "=?utf-8?q?Gr=C3=BC=C3=9Fe?= greetings", "Content-Transfer-Encoding: quoted-printable", "", "Sch=C3=B6ne Gr=C3=BC=C3=9Fe aus K=C3=B6ln.",
        sender="=?utf-8?q?J=C3=BCrgen?= <juergen@example.org>", day=5, kind="text/plain; charset=utf-8"),
    "newsletter": headed(
        "newsletter", "", "--a", "Content-Type: text/plain", "", "News in plain letters.", "--a", "Content-Type: text/html", "", "<p>News in <b>bold</b>.</p>", "--a--",
        day=6, kind="multipart/alternative; boundary=a"),
    "minutes": headed(
        "minutes", "", "--m", "Content-Type: text/plain", "", "See below.", "--m", "Content-Type: message/rfc822", "",
        "From: Bob <bob@example.org>", "Subject: inner", "Date: Mon, 02 Nov 2026 09:00:00 +0100", "", "What was decided within.", "--m--",
        day=7, kind="multipart/mixed; boundary=m"),
    "zebra crossing": headed("zebra crossing", "", "An okapi crossed the road.", sender="Carl <carl@example.org>", day=8),
}
FOLDERS = {
    "work": {"first at work": headed("first at work", "", "Begin.", day=1), "second at work": headed("second at work", "", "Go on.", day=2)},
    "work/2024": {"long ago": headed("long ago", "", "Then.", day=1)},
    "old": {"kept one": headed("kept one", "", "It stays when the folder is renamed.", day=1)},
    "useless": {},
    "K\u00f6ln & Umgebung": {"from the south": headed("from the south", "", "Hello.", day=1)},
    "Sent": {},
    "Drafts": {},
    "Trash": {},
}


def lay_out(plain):
    """The mail that each scene begins with."""
    plain.clear()
    for subject, text in INBOX.items():
        plain.append("INBOX", text, "\\Seen" if subject == "minutes" else "")
    plain.ask(b"SUBSCRIBE INBOX")
    for name, messages in FOLDERS.items():
        plain.create(name)
        for text in messages.values():
            plain.append(name, text)


def message_with(path):
    """A message with a file attached."""
    with open(path, "rb") as file:
        coded = base64.encodebytes(file.read()).decode().splitlines()
    return headed(
        "the photographs", "", "--p", "Content-Type: text/plain", "", "Here they are.", "--p", 'Content-Type: application/octet-stream; name="big.bin"',
        'Content-Disposition: attachment; filename="big.bin"', "Content-Transfer-Encoding: base64", "", *coded, "--p--", kind="multipart/mixed; boundary=p")


# ---- a scene


class Scene:
    """A client's scene: its folder, the server's address, and what became of its steps."""

    def __init__(self, name, room, address, plain, lacks=()):
        self.name, self.room, (self.host, self.port), self.plain, self.lacks = name, room, address, plain, lacks
        self.passed, self.failed, self.notes, self.closing = [], {}, [], []
        self.seen = self.ended = None
        self.home = f"{room}/home"
        os.makedirs(self.home)
        self.big = f"{room}/big.bin"
        with open(self.big, "wb") as file:
            file.write(random.Random(5).randbytes(5_000_000))
        self.smtp = Smtp()
        self.closing.append(self.smtp.close)
        self.environment = {
            "HOME": self.home, "PATH": os.environ["PATH"], "LANG": "C.UTF-8", "LC_ALL": "C.UTF-8", "TMPDIR": room, "USER": pwd.getpwuid(os.getuid()).pw_name,
            "LOGNAME": pwd.getpwuid(os.getuid()).pw_name, "XDG_RUNTIME_DIR": room,
            "EDITOR": self.script("editor", 'sleep 0.2; echo "Written by an editor." >> "$1"'), "VISUAL": f"{room}/editor", "BROWSER": "true",
        }

    def script(self, name, body):
        """An executable script of the shell in the scene's folder."""
        return self.file(f"../{name}", f"#!/bin/sh\n{body}\n", 0o755)

    def file(self, name, text, mode=0o600):
        """A file below the home, with its folders."""
        path = os.path.normpath(f"{self.home}/{name}")
        os.makedirs(os.path.dirname(path), exist_ok=True)
        with open(path, "w", encoding="utf-8") as file:
            file.write(text)
        os.chmod(path, mode)
        return path

    @contextlib.contextmanager
    def step(self, *names):
        """Steps that pass if nothing is raised within; otherwise the first line of what was seen is reported."""
        try:
            yield
            self.passed += names
        except (Bad, OSError, subprocess.SubprocessError) as why:
            shown = f"; on its screen: {self.seen()}" if self.seen else ""
            for name in names:
                self.failed[name] = f"{type(why).__name__ + ': ' if not isinstance(why, Bad) else ''}{why}{shown}"
            if self.ended and self.ended():
                raise Ended("the client has ended") from why

    def run(self, *words, seconds=60, good=(0,), **more):
        """What a program printed that ends by itself."""
        done = subprocess.run(words, capture_output=True, text=True, env=self.environment, timeout=seconds * SLOWNESS, cwd=self.home, errors="replace", **more)
        if done.returncode not in good:
            raise Bad(f"{' '.join(words)[:60]} ended with {done.returncode}: {(done.stderr + done.stdout).strip()[-200:]}")
        return done.stdout + done.stderr

    # what the plain client sees

    def message(self, name, subject):
        """The message with this text in its subject, or None; Bad if there are several."""
        found = [it for it in self.plain.mail(name) if subject in it.subject]
        if len(found) > 1:
            raise Bad(f"{name} has {len(found)} messages {subject!r}")
        return found[0] if found else None

    def text(self, name, subject):
        if it := self.message(name, subject):
            return it.text
        raise Bad(f"{name} has no message {subject!r}")

    def sees(self, condition, what, seconds=25):
        """Waits until a condition of what the plain client sees is true."""
        until(lambda: condition(self.plain), f"seen from outside: not that {what}", seconds, 0.3)

    def has(self, name, subject, *flags, without=(), seconds=25):
        def condition(_):
            it = self.message(name, subject)
            return it and {flag.lower() for flag in flags} <= it.flags and not it.flags & {flag.lower() for flag in without}

        self.sees(condition, f"{name} has {subject!r}" + (f" with {' '.join(flags)}" if flags else ""), seconds)

    def lacks_message(self, name, subject, seconds=25):
        self.sees(lambda _: self.message(name, subject) is None, f"{name} lacks {subject!r}", seconds)

    def unseen(self, name, subject):
        if "\\seen" in self.message(name, subject).flags:
            raise Bad(f"{subject!r} has \\Seen before it is opened")

    def has_names(self, *names, without=(), seconds=25):
        def condition(plain):
            existing = plain.names()
            return set(names) <= existing and not existing & set(without)

        self.sees(condition, f"there are {names or 'others than'} and not {without}" if without else f"there are {names}", seconds)

    def renamed(self, old, new):
        self.has_names(new, without=(old,))
        self.has(new, "kept one")

    def copied(self, name, subject):
        """The message is in both mailboxes with the text that was laid out."""
        self.has(name, subject)
        self.has("INBOX", subject)
        if self.message(name, subject).text != INBOX[subject]:
            raise Bad(f"the copy of {subject!r} has another text")

    def saved(self, name, subject, seconds=60):
        """A message with the 5 MB in it is in the mailbox."""
        self.has(name, subject, seconds=seconds)
        if self.file_hash(self.big) not in attachment_hashes(self.message(name, subject).text):
            raise Bad(f"{subject!r} in {name} lacks the octets of the attachment")

    def arrives(self, subject="just arrived"):
        self.plain.append("INBOX", headed(subject, "", "It came while the reader idled.", day=9))

    @staticmethod
    def file_hash(path):
        with open(path, "rb") as file:
            return hashlib.sha256(file.read()).hexdigest()

    def same_file(self, path, other=None, seconds=25):
        """A file that the client saved has the octets of the attachment."""
        wanted = self.file_hash(other) if other else self.file_hash(self.big)
        until(lambda: os.path.exists(path) and self.file_hash(path) == wanted,
            lambda: f"{os.path.basename(path)} has {os.path.getsize(path) if os.path.exists(path) else 'no'} octets, not those of the attachment", seconds)

    @staticmethod
    def cached(folder, text):
        """Whether a file below a folder whose name is a number has the text of a message."""
        wanted = text.replace(b"\r\n", b"\n").strip()
        for path in glob.glob(f"{folder}/**/[0-9]*", recursive=True):
            if os.path.isfile(path):
                with open(path, "rb") as file:
                    if file.read().replace(b"\r\n", b"\n").strip() == wanted:
                        return True
        return False

    def close(self):
        for it in reversed(self.closing):
            with contextlib.suppress(Exception):
                it()


def attachment_hashes(text):
    import email

    return {hashlib.sha256(part.get_payload(decode=True) or b"").hexdigest() for part in email.message_from_bytes(text).walk() if not part.is_multipart()}


# ---- where clients send mail


class Smtp:
    """A place that takes all mail that clients send, at a port of its own, and throws it away."""

    def __init__(self):
        self.listener = socket.create_server(("127.0.0.1", 0))
        self.port = self.listener.getsockname()[1]
        self.taken = 0
        threading.Thread(target=self.serve, daemon=True).start()

    def serve(self):
        with contextlib.suppress(OSError):
            while True:
                client, _ = self.listener.accept()
                threading.Thread(target=self.talk, args=(client,), daemon=True).start()

    def talk(self, client):
        with contextlib.suppress(OSError), client, client.makefile("rb") as lines:
            client.sendall(b"220 sink ESMTP\r\n")
            for line in lines:
                word = line[:4].upper()
                if word == b"EHLO":
                    client.sendall(b"250-sink\r\n250 8BITMIME\r\n")
                elif word == b"DATA":
                    client.sendall(b"354 go on\r\n")
                    while (line := lines.readline()) not in (b".\r\n", b""):
                        pass
                    self.taken += 1
                    client.sendall(b"250 taken\r\n")
                elif word == b"QUIT":
                    client.sendall(b"221 bye\r\n")
                    return
                else:
                    client.sendall(b"250 ok\r\n")

    def close(self):
        self.listener.close()


# ---- terminals


class Terminal:
    """A program in a terminal of 130 columns and 40 lines, which tmux draws."""

    def __init__(self, scene, *words, **more):
        self.scene, self.words = scene, words
        self.socket = f"{scene.room}/tmux-{len(scene.closing)}"
        environment = {**scene.environment, "TERM": "xterm", **more}
        line = " ".join(f"'{it}'" for it in words)
        self.tmux("-f", "/dev/null", "new-session", "-d", "-x", "130", "-y", "40",
            f"cd {scene.home}; {line} 2>{scene.room}/stderr; echo; echo ended with $?; sleep 1000", environment=environment)
        self.tmux("set-option", "-s", "escape-time", "0")
        scene.seen, scene.ended = self.brief, lambda: re.search(r"(?m)^ended with \d+", self.screen())
        scene.closing.append(self.close)

    def tmux(self, *words, environment=None):
        done = subprocess.run(["tmux", "-S", self.socket, *words], capture_output=True, text=True, env=environment or self.scene.environment, timeout=20 * SLOWNESS,
            errors="replace")
        if done.returncode:
            raise Bad(f"tmux {words[0]}: {done.stderr.strip()}")
        return done.stdout

    def screen(self):
        return self.tmux("capture-pane", "-p")

    def brief(self):
        lines = [re.sub(r"\s+", " ", it).strip() for it in self.screen().splitlines()]
        text = " | ".join(it for it in lines if it)
        return text if len(text) < 700 else text[:300] + " .. " + text[-400:]

    def keys(self, *keys, pause=0.15):
        """Keys by tmux's names, such as Enter and C-x."""
        for key in keys:
            self.tmux("send-keys", "\\;" if key == ";" else key)
            wait(pause)

    def type(self, text, *keys, pause=0.15):
        """Text as it is, then keys."""
        self.tmux("send-keys", "-l", text)
        wait(0.15)
        self.keys(*keys, pause=pause)

    def shows(self, pattern, seconds=25):
        """The match of a regular expression on the screen, once it is there."""
        return until(lambda: re.search(pattern, self.screen()), f"the screen doesn't show {pattern!r}", seconds)

    def hides(self, pattern, seconds=25):
        until(lambda: not re.search(pattern, self.screen()), f"the screen still shows {pattern!r}", seconds)

    def ends(self, seconds=25):
        return until(lambda: re.search(r"ended with (\d+)", self.screen()), "the program doesn't end", seconds)

    def close(self):
        self.tmux("kill-server")


# ---- displays


class Display:
    """An X server of 1200 by 800 without a screen, and the programs that draw on it."""

    def __init__(self, scene):
        self.scene = scene
        number = next(it for it in range(220, 300) if not os.path.exists(f"/tmp/.X11-unix/X{it}") and not os.path.exists(f"/tmp/.X{it}-lock"))
        self.name = f":{number}"
        self.log = open(f"{scene.room}/display.log", "ab")
        self.server = subprocess.Popen(["Xvfb", self.name, "-screen", "0", "1200x800x24", "-nolisten", "tcp"], stdout=self.log, stderr=self.log)
        scene.closing.append(self.close)
        until(lambda: os.path.exists(f"/tmp/.X11-unix/X{number}"), "Xvfb doesn't start", 20)
        scene.environment["DISPLAY"] = self.name
        scene.seen = self.windows
        self.ran = []

    def start(self, *words, **more):
        log = open(f"{self.scene.room}/program.log", "ab")
        it = subprocess.Popen(words, env={**self.scene.environment, **more}, cwd=self.scene.home, stdout=log, stderr=log, start_new_session=True)
        self.ran.append(it)
        return it

    def do(self, *words, good=True):
        done = subprocess.run(["xdotool", *words], capture_output=True, text=True, env=self.scene.environment, timeout=30 * SLOWNESS)
        if good and done.returncode:
            raise Bad(f"xdotool {' '.join(words)[:60]}: {done.stderr.strip()[:100]}")
        return done.stdout.strip()

    def keys(self, *keys, pause=0.3):
        for key in keys:
            self.do("key", "--clearmodifiers", key)
            wait(pause)

    def type(self, text, *keys, pause=0.15):
        self.do("type", "--delay", "15", text)
        wait(0.3)
        self.keys(*keys)

    def click(self, x, y, button=1, times=1):
        self.do("mousemove", str(x), str(y), "click", "--repeat", str(times), "--delay", "80", str(button))
        wait(0.4)

    def titles(self):
        """The titles of the windows that are shown."""
        found = self.do("search", "--onlyvisible", "--name", ".", good=False).split()
        return {it: self.do("getwindowname", it, good=False) for it in found}

    def windows(self):
        """What is shown, for a report; a picture is left in the scene's folder if ImageMagick is installed."""
        if installed("import"):
            picture = f"{self.scene.room}/failed-{len(self.scene.failed)}.png"
            subprocess.run(["import", "-window", "root", picture], env=self.scene.environment, timeout=30 * SLOWNESS, check=False)
        return f"windows {sorted(set(it for it in self.titles().values() if it))}"

    def window(self, pattern, seconds=25, focus=True):
        """The window whose title matches, brought to the front once it is there."""

        def found():
            return next((it for it, title in self.titles().items() if re.search(pattern, title)), None)

        it = until(found, f"no window {pattern!r}", seconds)
        if focus:
            self.do("windowraise", it, good=False)
            self.do("windowfocus", "--sync", it, good=False)
            wait(0.3)
        return it

    def large(self, pattern, seconds=25):
        """Makes a window as large as the display, and brings it to the front."""
        it = self.window(pattern, seconds)
        subprocess.run(["wmctrl", "-i", "-r", it, "-b", "add,maximized_vert,maximized_horz"], env=self.scene.environment, timeout=20 * SLOWNESS, check=False)
        subprocess.run(["wmctrl", "-i", "-a", it], env=self.scene.environment, timeout=20 * SLOWNESS, check=False)
        wait(0.7)
        return it

    def gone(self, pattern, seconds=25):
        until(lambda: not any(re.search(pattern, it) for it in self.titles().values()), f"a window {pattern!r} stays", seconds)

    def close(self):
        for it in self.ran:
            if it.poll() is None:
                with contextlib.suppress(OSError):
                    os.killpg(it.pid, signal.SIGTERM)
        wait(0.5)
        for it in self.ran:
            with contextlib.suppress(OSError):
                os.killpg(it.pid, signal.SIGKILL)
            it.wait(10)
        self.server.terminate()
        self.server.wait(10)


def installed(program):
    return shutil.which(program) or shutil.which(program, path="/usr/sbin:/usr/games")
