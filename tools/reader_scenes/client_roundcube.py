"""Roundcube behind PHP's own web server, with its database in SQLite and Debian's settings but for addresses, keys, places of files and PHP's limit for
uploads, which is 2 MB unless set. The scene is its browser: it opens pages, posts their forms, and sends the requests that Roundcube's JavaScript would send,
with cookies and tokens. That JavaScript doesn't run, so the scene shows what Roundcube answers, not what is drawn. Messages that are deleted go to the trash,
and are deleted there for good. A draft with the 5 MB is saved and then sent. The folders for these are gone before that, and Roundcube makes them. It has no
IDLE: it asks every minute, which the scene does once."""
import hashlib
import html
import json
import os
import re
import socket
import subprocess
import urllib.parse
import urllib.request

from stage import FOLDERS, INBOX, PATIENCE, REPORT, SLOWNESS, Bad, until, utf7

PACKAGE, PROGRAMS, LACKS = "roundcube-core", ("php", "/usr/share/roundcube/bin/updatedb.sh"), ("idle",)
SETTINGS = """<?php
$config['db_dsnw'] = 'sqlite:///{room}/roundcube.db?mode=0600';
$config['imap_host'] = '{host}:{port}';
$config['smtp_host'] = '127.0.0.1:{smtp}';
$config['smtp_user'] = $config['smtp_pass'] = '';
$config['log_dir'] = '{room}/logs';
$config['temp_dir'] = '{room}/temp';
$config['des_key'] = 'twenty-four octets of it';
$config['enable_spellcheck'] = false;
"""
SHOWN = {
    "lunch on friday": "Shall we meet by the river, at noon?", "quarterly report": "The figures are attached.",
    "greetings": "Sch\u00f6ne Gr\u00fc\u00dfe aus K\u00f6ln.", "newsletter": "News in bold.", "minutes": "What was decided within.",
    "zebra crossing": "An okapi crossed the road.",
}


class Browser:
    """What a browser does for Roundcube's pages: `env` has what the last page told its JavaScript."""

    def __init__(self, address):
        self.address, self.env = address, {}
        self.opener = urllib.request.build_opener(urllib.request.HTTPCookieProcessor(), urllib.request.ProxyHandler({}))

    def ask(self, query, data=None, **headers):
        request = urllib.request.Request(f"{self.address}/?{urllib.parse.urlencode(query)}", data, headers)
        with self.opener.open(request, timeout=PATIENCE * 4) as answer:
            return answer.read()

    def page(self, task, action="", form=None, **query):
        """The text of a page, got or posted to."""
        query = {"_task": task, **({"_action": action} if action else {}), **query}
        text = self.ask(query, urllib.parse.urlencode({"_token": self.env["request_token"], **form}).encode() if form else None).decode()
        for it in re.finditer(r"\brcmail\.set_env\((?=\{)", text):
            self.env.update(json.JSONDecoder().raw_decode(text, it.end())[0])
        return self.good(text)

    def call(self, task, action, form=None, body=None, kind=None, **query):
        """What Roundcube answers to a request of its JavaScript: words for that, beside those for `env`."""
        rest = {"_remote": 1, "_unlock": 0}
        query = {"_task": task, "_action": action, **query, **({} if form else rest)}
        body = urllib.parse.urlencode({**form, **rest}).encode() if form else body
        headers = {"X-Roundcube-Request": self.env["request_token"], "X-Requested-With": "XMLHttpRequest", **({"Content-Type": kind} if kind else {})}
        answer = json.loads(self.ask(query, body, **headers))
        self.env.update(answer.get("env") or {})
        return self.good(answer.get("exec", ""))

    @staticmethod
    def good(text):
        """The text, in which no error is shown."""
        if found := re.search(r'display_message\("((?:[^"\\]|\\.)*)","(?:error|warning)"', text):
            raise Bad(f"Roundcube shows: {found[1]}")
        return text


def rows(words):
    """The subjects of the messages that are shown in a list."""
    found = re.finditer(r'add_message_row\("?[^,]*,(?=\{)', words)
    return [html.unescape(json.JSONDecoder().raw_decode(words, it.end())[0]["subject"]) for it in found]


def plain(page):
    """What a page shows, without its tags."""
    return " ".join(html.unescape(re.sub(r"<[^>]*>", "", page)).split())


def play(scene):
    scene.file("config/config.inc.php", SETTINGS.format(room=scene.room, host=scene.host, port=scene.port, smtp=scene.smtp.port))
    for name in ("defaults.inc.php", "mimetypes.php"):
        os.symlink(f"/etc/roundcube/{name}", f"{scene.home}/config/{name}")
    for name in ("logs", "temp"):
        os.makedirs(f"{scene.room}/{name}")
    it = Browser(serve(scene))

    def uid(name, subject):
        return scene.message(name, subject).uid

    def listed(name, **more):
        return rows(it.call("mail", "list", _mbox=utf7(name), **more))

    def found(scope="base", kept="ALL", **more):
        return sorted(rows(it.call("mail", "search", _layout="widescreen", _filter=kept, _scope=scope, _mbox="INBOX", **more)))

    def opened(name, number):
        return it.page("mail", "show", _mbox=utf7(name), _uid=number, _framed=1)

    def fetched(action, name, number, **more):
        """The octets of a part or of a message, as they are saved."""
        return it.ask({"_task": "mail", "_action": action, "_mbox": utf7(name), "_uid": number, "_token": it.env["request_token"], **more})

    def act(action, name, number, **form):
        it.call("mail", action, {"_mbox": utf7(name), "_uid": number, **form})

    with scene.step("login"):
        it.page("login")
        it.page("login", form={"_task": "login", "_action": "login", "_timezone": "Europe/Berlin", "_url": "", "_user": "me", "_pass": "secret"})
        if it.env.get("task") != "mail":
            raise Bad(f"Roundcube shows the task {it.env.get('task')}")
    with scene.step("list"):
        it.page("mail")
        shown = {key for key, of in it.env["mailboxes"].items() if not of.get("virtual")}
        if wrong := shown ^ {utf7(name) for name in scene.plain.names()}:
            raise Bad(f"the list of folders differs in {wrong}")
        if "K\u00f6ln & Umgebung" not in (names := {html.unescape(of["name"]) for of in it.env["mailboxes"].values()}):
            raise Bad(f"the names are shown as {names}")
        for name, messages in {"INBOX": INBOX, **FOLDERS}.items():
            subjects = listed(name)
            if len(subjects) != len(messages) or not all(any(of in subject for subject in subjects) for of in messages):
                raise Bad(f"{name} is shown with {subjects}")
        subjects = [of for of in listed("INBOX", _sort="subject_ASC") if "greetings" not in of]
        if subjects != sorted(set(INBOX) - {"greetings"}):
            raise Bad(f"sorted by subjects, INBOX is shown with {subjects}")
        listed("INBOX", _sort="date_DESC")
    with scene.step("open"):
        for subject, text in SHOWN.items():
            if subject != "minutes":
                scene.unseen("INBOX", subject)
            if text not in plain(opened("INBOX", uid("INBOX", subject))):
                raise Bad(f"{subject!r} is shown without {text!r}")
            scene.has("INBOX", subject, "\\Seen")
        if fetched("get", "INBOX", uid("INBOX", "quarterly report"), _part=2, _download=1) != REPORT:
            raise Bad("the attachment has other octets")
        source = fetched("viewsource", "INBOX", uid("INBOX", "newsletter"))
        if source.strip() != INBOX["newsletter"].replace(b"\r\n", b"\n").strip():
            raise Bad(f"the source is {source}")
    with scene.step("search"):
        for words, headers, scope, expected in (
            ("okapi", "text", "base", ["zebra crossing"]), ("newsletter", "subject,from", "base", ["newsletter"]), ("nothing", "text", "base", []),
            ("Lovelace", "from", "base", ["lunch on friday", "minutes", "newsletter", "quarterly report"]), ("Hello", "body", "all", ["from the south"]),
        ):
            if (shown := found(scope, _q=words, _headers=headers)) != expected:
                raise Bad(f"a search for {words!r} in {headers} shows {shown}")
        # (a server may look into what is encoded, or not)
        if (shown := found(_q="K\u00f6ln", _headers="text")) and "greetings" not in shown[0]:
            raise Bad(f"a search for a word that isn't ASCII shows {shown}")
        if shown := found(kept="UNSEEN"):
            raise Bad(f"a search for what isn't read shows {shown}")
    with scene.step("flag"):
        number = uid("INBOX", "lunch on friday")
        for flag, *expected in (("flagged", "\\Flagged", "\\Seen"), ("unread", "\\Flagged")):
            act("mark", "INBOX", number, _flag=flag)
            scene.has("INBOX", "lunch on friday", *expected, without={"\\Flagged", "\\Seen"} - set(expected))
        for flag in ("unflagged", "read"):
            act("mark", "INBOX", number, _flag=flag)
        scene.has("INBOX", "lunch on friday", "\\Seen", without=("\\Flagged",))
    with scene.step("copy"):
        act("copy", "INBOX", uid("INBOX", "newsletter"), _target_mbox="work")
        scene.copied("work", "newsletter")
    with scene.step("move"):
        act("move", "INBOX", uid("INBOX", "zebra crossing"), _target_mbox="work")
        scene.has("work", "zebra crossing")
        scene.lacks_message("INBOX", "zebra crossing")
        if "zebra crossing" in listed("INBOX") or "zebra crossing" not in listed("work"):
            raise Bad("the moved message is shown where it was")
    with scene.step("delete"):
        for name in (b"Drafts", b"Sent", b"Trash"):
            scene.plain.ask(b"UNSUBSCRIBE " + name)
            scene.plain.ask(b"DELETE " + name)
        for subject in ("minutes", "quarterly report"):
            act("move", "INBOX", uid("INBOX", subject), _target_mbox=it.env["trash_mailbox"])
            scene.has("Trash", subject)
            scene.lacks_message("INBOX", subject)
        act("delete", "Trash", uid("Trash", "minutes"))
        scene.lacks_message("Trash", "minutes")
        scene.has("Trash", "quarterly report")
        it.call("mail", "purge", {"_mbox": "Trash", "_reload": 1})
        scene.lacks_message("Trash", "quarterly report")
    with scene.step("create"):
        folder(it, "plans & \u00dcbungen")
        scene.sees(lambda plain: "plans & \u00dcbungen" in plain.names() & plain.subscribed(), "the folder exists and is subscribed")
    with scene.step("rename"):
        folder(it, "older", old="old")
        scene.renamed("old", "older")
    with scene.step("remove"):
        it.call("settings", "delete-folder", {"_mbox": "useless"})
        scene.has_names(without=("useless",))
    with scene.step("append"):
        it.page("mail", "compose", _mbox="INBOX")
        attach(it, scene.big)
        words = it.page("mail", "send", mail(it, _draft=1), _framed=1)
        scene.saved("Drafts", "the photographs")
        draft = re.search(r"set_draft_id\(\"?(\d+)", words)
        if not draft or int(draft[1]) != uid("Drafts", "the photographs"):
            raise Bad(f"Roundcube doesn't know the draft: {words[-300:]}")
        it.page("mail", "send", mail(it, _draft_saveid=draft[1]), _framed=1)
        scene.saved("Sent", "the photographs")
        scene.lacks_message("Drafts", "the photographs")
        until(lambda: scene.smtp.taken == 1, "the message wasn't sent")
    with scene.step("reopen"):
        number = uid("Sent", "the photographs")
        if "Here they are." not in plain(opened("Sent", number)):
            raise Bad("the sent message is shown without its text")
        octets = fetched("get", "Sent", number, _part=2, _download=1)
        if hashlib.sha256(octets).hexdigest() != scene.file_hash(scene.big):
            raise Bad(f"the attachment has {len(octets)} octets, others than were sent")
    listed("INBOX")
    scene.arrives()
    known = ",".join(str(of.uid) for of in scene.plain.mail("INBOX")[:-1])
    words = it.call("mail", "refresh", {"_mbox": "INBOX", "_folderlist": 1, "_list": 1, "_uids": known, "_last": 0})
    if "just arrived" not in rows(words):
        raise Bad(f"what arrived isn't shown when Roundcube asks for it: {words[:300]}")
    scene.notes.append("shows what arrives when it asks")
    it.page("logout", form={"_task": "logout"})


def serve(scene):
    """Starts PHP's web server with Roundcube's pages; gives its address."""
    with socket.create_server(("127.0.0.1", 0)) as free:
        port = free.getsockname()[1]
    words = ("php", "-d", "upload_max_filesize=20M", "-d", "post_max_size=30M", "-S", f"127.0.0.1:{port}", "-t", "/var/lib/roundcube/public_html")
    with open(f"{scene.room}/php.log", "ab") as log:
        it = subprocess.Popen(words, env={**scene.environment, "ROUNDCUBE_CONFIG_DIR": f"{scene.home}/config"}, cwd=scene.home, stdout=log, stderr=log)
    scene.closing.append(lambda: (it.terminate(), it.wait(10 * SLOWNESS)))

    def answers():
        with socket.socket() as to:
            return to.connect_ex(("127.0.0.1", port)) == 0

    until(answers, "PHP's web server doesn't answer")
    return f"http://127.0.0.1:{port}"


def folder(it, name, old=""):
    """Creates a folder, or renames one, by the form for that."""
    it.page("settings", "edit-folder", _framed=1, _mbox=utf7(old))
    words = it.page("settings", "save-folder", {"_mbox": utf7(old), "_name": name, "_parent": "", "_viewmode": 0}, _framed=1)
    if "confirmation" not in words:
        raise Bad(f"Roundcube doesn't say that it did it: {words[-300:]}")


def attach(it, path):
    """Uploads a file for the message that is composed."""
    with open(path, "rb") as file:
        octets = file.read()
    name = f'Content-Disposition: form-data; name="_attachments[]"; filename="{os.path.basename(path)}"'
    body = b"\r\n".join((b"--cut", name.encode(), b"Content-Type: application/octet-stream", b"", octets, b"--cut--", b""))
    words = it.call("mail", "upload", body=body, kind="multipart/form-data; boundary=cut", _id=it.env["compose_id"], _uploadid="upload1")
    found = re.search(r'add2attachment_list\("rcmfile(\w+)"', words)
    if not found:
        raise Bad(f"the upload was answered {words[:300]}")
    it.env["attached"] = found[1]


def mail(it, **more):
    """The form of a message that is composed."""
    return {
        "_task": "mail", "_action": "send", "_id": it.env["compose_id"], "_attachments": it.env["attached"], "_from": "1", "_to": "bob@example.org", "_cc": "",
        "_bcc": "", "_replyto": "", "_followupto": "", "_subject": "the photographs", "_message": "Here they are.", "_is_html": 0, "_draft": "",
        "_draft_saveid": "", "_store_target": "Sent", "_priority": 0, **more,
    }
