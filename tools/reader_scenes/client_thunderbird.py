"""Thunderbird under Xvfb, driven by Marionette, its own remote control: each step calls what its menus call. Messages are opened in the main window's message
pane, whose text is looked at; attachments are saved by the pane's list; what is sent goes through a compose window. Searching is asked of the server
(onlineMail). Its prefs name the server, where mail is sent, and the folder for what was sent; the password is in its login manager. Deleting moves messages and
folders to the trash."""
import contextlib
import json
import re
import socket

from stage import FOLDERS, INBOX, REPORT, SLOWNESS, Bad, Display, until, wait

PACKAGE, PROGRAMS, LACKS = "thunderbird", ("thunderbird", "Xvfb", "xdotool"), ()
PREFS = {
    "mail.accountmanager.accounts": "account1", "mail.accountmanager.defaultaccount": "account1", "mail.account.account1.server": "server1",
    "mail.account.account1.identities": "id1", "mail.server.server1.type": "imap", "mail.server.server1.userName": "me", "mail.server.server1.name": "me",
    "mail.server.server1.socketType": 0, "mail.server.server1.login_at_startup": False, "mail.server.server1.check_new_mail": False,
    "mail.identity.id1.useremail": "me@example.org", "mail.identity.id1.fullName": "Me", "mail.identity.id1.smtpServer": "smtp1", "mail.identity.id1.valid": True,
    "mail.smtpservers": "smtp1", "mail.smtp.defaultserver": "smtp1", "mail.smtpserver.smtp1.authMethod": 1, "mail.smtpserver.smtp1.try_ssl": 0,
    # (no questions at the first start)
    "mail.shell.checkDefaultClient": False, "mailnews.start_page.enabled": False, "mail.provider.suppress_dialog_on_startup": True, "mail.rights.version": 1,
    "app.donation.eoy.version.viewed": 999, "datareporting.policy.dataSubmissionPolicyBypassNotification": True, "datareporting.policy.dataSubmissionEnabled": False,
    "mail.warn_on_send_accel_key": False, "mail.compose.big_attachments.notify": False, "app.update.enabled": False, "extensions.update.enabled": False,
    "browser.cache.disk.enable": True, "mail.inappnotifications.enabled": False, "app.normandy.enabled": False,
}
HEAD = """
const [args, slowness, done] = [arguments[0], arguments[1], arguments[arguments.length - 1]];
const { MailServices } = ChromeUtils.importESModule("resource:///modules/MailServices.sys.mjs");
const main = Services.wm.getMostRecentWindow("mail:3pane");
const server = MailServices.accounts.accounts.find(it => it.incomingServer.type == "imap")?.incomingServer;
const all = () => server.rootFolder.descendants;
const named = name => all().find(it => it.QueryInterface(Ci.nsIMsgImapMailFolder).onlineName == name);
const messages = folder => [...folder.messages];
const one = (folder, word) => {
  const it = messages(folder).find(it => it.mime2DecodedSubject.includes(word));
  if (!it) throw new Error("no message " + word + " in " + folder.name);
  return it;
};
const sleep = ms => new Promise(go => main.setTimeout(go, ms));
const when = async (condition, what, seconds = 25) => {
  for (let at = 0; at < seconds * slowness * 10; at++) {
    try {
      const it = condition();
      if (it) return it;
    } catch (e) {}
    await sleep(100);
  }
  throw new Error("not: " + what);
};
const copied = {
  QueryInterface: ChromeUtils.generateQI(["nsIMsgCopyServiceListener"]), onStartCopy() {}, onProgress() {}, setMessageKey() {}, getMessageId() {}, onStopCopy() {},
};
const pane = () => main.document.getElementById("tabmail").currentAbout3Pane;
(async () => {
"""
TAIL = "\n})().then(it => done(JSON.stringify({ it: it ?? null })), why => done(JSON.stringify({ why: String(why) })));"


class Marionette:
    """Thunderbird's remote control: scripts that run with its own rights."""

    def __init__(self, port):
        self.socket = socket.create_connection(("127.0.0.1", port), timeout=120 * SLOWNESS)
        self.unread, self.number = b"", 0
        self.packet()
        self.ask("WebDriver:NewSession", {"capabilities": {"alwaysMatch": {"timeouts": {"script": int(110_000 * SLOWNESS)}}}})
        self.ask("Marionette:SetContext", {"value": "chrome"})

    def packet(self):
        while not (head := re.match(rb"(\d+):", self.unread)) or len(self.unread) < head.end() + int(head[1]):
            octets = self.socket.recv(1 << 16)
            if not octets:
                raise Bad("Thunderbird hung up")
            self.unread += octets
        end = head.end() + int(head[1])
        text, self.unread = self.unread[head.end() : end], self.unread[end:]
        return json.loads(text)

    def ask(self, name, parameters):
        self.number += 1
        text = json.dumps([0, self.number, name, parameters]).encode()
        self.socket.sendall(b"%d:" % len(text) + text)
        while (it := self.packet())[1] != self.number:
            pass
        if it[2]:
            raise Bad(f"{name}: {it[2].get('message', it[2])}")
        return it[3]

    def run(self, script, *args):
        answer = self.ask("WebDriver:ExecuteAsyncScript", {"script": HEAD + script + TAIL, "args": [list(args), SLOWNESS], "newSandbox": True})["value"]
        answer = json.loads(answer or '{"why": "nothing"}')
        if "why" in answer:
            raise Bad(f"Thunderbird says {answer['why']}")
        return answer["it"]


def start(scene, control):
    prefs = {
        **PREFS, "mail.server.server1.hostname": scene.host, "mail.server.server1.port": scene.port, "mail.smtpserver.smtp1.hostname": scene.host,
        "mail.smtpserver.smtp1.port": scene.smtp.port, "mail.identity.id1.fcc_folder": f"imap://me@{scene.host}/Sent", "mail.identity.id1.fcc_folder_picker_mode": "1",
        "marionette.port": control,
    }
    scene.file("profile/user.js", "".join(f"user_pref({json.dumps(name)}, {json.dumps(value)});\n" for name, value in prefs.items()))
    it = Display(scene)
    ran = it.start("thunderbird", "--profile", f"{scene.home}/profile", "--no-remote", "--marionette", "--remote-allow-system-access", MOZ_DISABLE_CONTENT_SANDBOX="1")

    def connected():
        if ran.poll() is not None:
            raise Bad(f"Thunderbird ended with {ran.returncode}")
        with contextlib.suppress(OSError):
            return Marionette(control)

    return until(connected, "Thunderbird doesn't start", 120, 1)


def play(scene):
    with socket.create_server(("127.0.0.1", 0)) as free:
        control = free.getsockname()[1]
    with open(f"{scene.home}/report.csv", "wb") as file:
        file.write(REPORT)
    it = start(scene, control)

    def opened(folder, word, text):
        """Opens a message in the main window; the pane must show the text."""
        shown = it.run(
            """const [name, word, text] = args; const folder = named(name);
            await when(() => pane(), "the main window");
            pane().displayFolder(folder.URI); folder.updateFolder(main.msgWindow);
            await when(() => one(folder, word), "the message is listed", 60);
            await when(() => {
              pane().selectMessage(one(folder, word));
              return pane().gDBView.hdrForFirstSelectedMessage.mime2DecodedSubject.includes(word);
            }, "it is selected");
            const body = () => pane().messageBrowser.contentWindow.getMessagePaneBrowser().contentDocument.documentElement.textContent;
            try { await when(() => body().includes(text), "the text is shown", 60); } catch (e) { return body(); }
            return true;""", folder, word, text)
        if shown is not True:
            raise Bad(f"the pane shows {shown!r}")

    def save(path):
        """Saves the attachment of the message that is open."""
        it.run(
            """const at = await when(() => pane().messageBrowser.contentWindow.currentAttachments[0], "it has an attachment", 60);
            await at.saveToFile(args[0]);""", path)

    with scene.step("login"):
        it.run(
            """const login = Cc["@mozilla.org/login-manager/loginInfo;1"].createInstance(Ci.nsILoginInfo);
            login.init("imap://" + args[0], null, "imap://" + args[0], "me", "secret", "", "");
            await when(() => main && server, "the account", 60);
            await Services.logins.addLoginAsync(login);
            server.getNewMessages(server.rootFolder, main.msgWindow, null); server.performExpand(main.msgWindow);
            const inbox = await when(() => named("INBOX"), "INBOX", 60);
            inbox.updateFolder(main.msgWindow);
            await when(() => messages(inbox).length == args[1], "INBOX has its messages", 60);""", scene.host, len(INBOX))
    with scene.step("list"):
        shown = it.run("""await when(() => named("useless"), "useless"); return all().map(it => it.name);""")
        missing = [name for name in FOLDERS if name.rpartition("/")[2] not in shown]
        if missing:
            raise Bad(f"it shows {shown}, not {missing}")
    with scene.step("open"):
        scene.unseen("INBOX", "quarterly report")
        opened("INBOX", "quarterly", "The figures are attached")
        save(f"{scene.room}/saved.csv")
        scene.same_file(f"{scene.room}/saved.csv", f"{scene.home}/report.csv")
        opened("INBOX", "greetings", "Schöne Grüße aus Köln")
        opened("INBOX", "minutes", "What was decided within")
        scene.has("INBOX", "quarterly report", "\\Seen")
        scene.has("INBOX", "greetings", "\\Seen")
    with scene.step("search"):
        shown = it.run(
            """const session = Cc["@mozilla.org/messenger/searchSession;1"].createInstance(Ci.nsIMsgSearchSession);
            session.addScopeTerm(Ci.nsMsgSearchScope.onlineMail, named("INBOX"));
            const term = session.createTerm(), value = term.value;
            value.attrib = Ci.nsMsgSearchAttrib.Body; value.str = "okapi";
            term.value = value; term.attrib = Ci.nsMsgSearchAttrib.Body; term.op = Ci.nsMsgSearchOp.Contains; term.booleanAnd = false;
            session.appendTerm(term);
            const hits = []; let over = false;
            session.registerListener({ onSearchHit(hdr) { hits.push(hdr.mime2DecodedSubject); }, onSearchDone() { over = true; }, onNewSearch() {} });
            session.search(main.msgWindow); await when(() => over, "the search ends"); return hits;""")
        if shown != ["zebra crossing"]:
            raise Bad(f"it found {shown}")
    with scene.step("flag"):
        it.run("""const folder = named("INBOX"); folder.markMessagesFlagged([one(folder, "lunch")], true);""")
        scene.has("INBOX", "lunch on friday", "\\Flagged")
        it.run("""const folder = named("INBOX"); folder.markMessagesFlagged([one(folder, "lunch")], false);""")
        scene.has("INBOX", "lunch on friday", without=("\\Flagged",))
    for step, word, move in (("copy", "newsletter", False), ("move", "zebra", True)):
        with scene.step(step):
            it.run(
                """const folder = named("INBOX");
                MailServices.copy.copyMessages(folder, [one(folder, args[0])], named("work"), args[1], copied, main.msgWindow, false);""", word, move)
            if move:
                scene.has("work", "zebra crossing")
                scene.lacks_message("INBOX", "zebra crossing")
            else:
                scene.copied("work", "newsletter")
    with scene.step("delete"):
        it.run("""const folder = named("INBOX"); folder.deleteMessages([one(folder, "minutes")], main.msgWindow, false, false, copied, false);""")
        scene.has("Trash", "minutes")
        scene.sees(lambda _: not (at := scene.message("INBOX", "minutes")) or "\\deleted" in at.flags, "INBOX lacks 'minutes', or has it with \\Deleted")
    with scene.step("create"):
        it.run("""server.rootFolder.createSubfolder("plans", main.msgWindow); await when(() => named("plans"), "plans is shown");""")
        scene.has_names("plans")
    with scene.step("rename"):
        it.run("""named("old").rename("older", main.msgWindow); await when(() => named("older"), "older is shown");""")
        scene.renamed("old", "older")
    with scene.step("remove"):
        it.run("""main.setTimeout(() => named("useless").deleteSelf(main.msgWindow), 0);""")

        def confirmed():
            with contextlib.suppress(Bad):
                it.ask("WebDriver:AcceptAlert", {})
                return True

        until(confirmed, "it doesn't ask whether the folder is to be deleted")
        scene.has_names(without=("useless",))
    with scene.step("idle"):
        it.run("""pane().displayFolder(named("INBOX").URI); named("INBOX").updateFolder(main.msgWindow);""")
        wait(4)
        scene.arrives()
        it.run("""await when(() => one(named("INBOX"), "just arrived"), "what arrived is shown", 10);""")
    with scene.step("append"):
        it.run(
            """const fields = Cc["@mozilla.org/messengercompose/composefields;1"].createInstance(Ci.nsIMsgCompFields);
            fields.to = "you@example.org"; fields.subject = "the photographs"; fields.body = "Here they are.";
            const at = Cc["@mozilla.org/messengercompose/attachment;1"].createInstance(Ci.nsIMsgAttachment);
            at.url = "file://" + args[0]; at.name = "big.bin"; fields.addAttachment(at);
            const params = Cc["@mozilla.org/messengercompose/composeparams;1"].createInstance(Ci.nsIMsgComposeParams);
            params.composeFields = fields; params.type = Ci.nsIMsgCompType.New; params.format = Ci.nsIMsgCompFormat.PlainText;
            params.identity = MailServices.accounts.defaultAccount.defaultIdentity;
            MailServices.compose.OpenComposeWindowWithParams(null, params);
            const window = await when(() => {
              const it = Services.wm.getMostRecentWindow("msgcompose");
              return it?.gMsgCompose && it.gAttachmentBucket?.itemCount && it.gWindowLocked === false && it;
            }, "the compose window", 60);
            await sleep(2000);
            window.GenericSendMessage(Ci.nsIMsgCompDeliverMode.Now);""", scene.big)
        scene.saved("Sent", "the photographs", 90)
    with scene.step("reopen"):
        opened("Sent", "the photographs", "Here they are")
        save(f"{scene.room}/saved.bin")
        scene.same_file(f"{scene.room}/saved.bin", seconds=60)
