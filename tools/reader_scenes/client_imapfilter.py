"""imapfilter: each step is a script in Lua, its own language. It waits for mail by enter_idle()."""
import os
import subprocess

from stage import INBOX, Bad, message_with, until, wait

PACKAGE, PROGRAMS, LACKS = "imapfilter", ("imapfilter",), ()
HEAD = """
options.create = true
options.expunge = true
me = IMAP {{ server = '{host}', port = {port}, username = 'me', password = 'secret' }}
"""


def play(scene):
    def lua(text, **more):
        path = scene.file(".imapfilter/config.lua", HEAD.format(host=scene.host, port=scene.port) + text)
        return scene.run("imapfilter", "-c", path, seconds=120, **more)

    with scene.step("login", "list"):
        shown = lua("mailboxes, folders = me:list_all('', '*') for _, it in ipairs(mailboxes) do print(it) end")
        for name in scene.plain.names():
            if name not in shown:
                raise Bad(f"the list lacks {name}: {shown!r}")
    with scene.step("open"):
        lua(f"me['INBOX']:check_status() for at, it in ipairs(me.INBOX:select_all()) do local out = io.open('{scene.room}/got.' .. at, 'w') "
            "out:write(it[1][it[2]]:fetch_message()) out:close() end")
        for at, text in enumerate(INBOX.values(), 1):
            with open(f"{scene.room}/got.{at}", "rb") as file:
                if file.read().replace(b"\r\n", b"\n") != text.replace(b"\r\n", b"\n"):
                    raise Bad(f"message {at} has another text")
        shown = lua("for _, it in ipairs(me.INBOX:contain_subject('quarterly')) do for part, of in pairs(it[1][it[2]]:fetch_structure()) do "
            "print(part, of.type, of.name, of.size) end end")
        if "report.csv" not in shown or "text/csv" not in shown.lower():
            raise Bad(f"the parts are {shown!r}")
    with scene.step("search"):
        shown = lua("print(#me.INBOX:contain_body('okapi'), #me.INBOX:contain_subject('nothing'), #me.INBOX:sent_on('04-Nov-2026'), #me.INBOX:is_recent())")
        if shown.split()[-4:-1] != ["1", "0", "1"]:
            raise Bad(f"it found {shown!r}")
    with scene.step("flag"):
        lua("me.INBOX:contain_subject('lunch'):mark_flagged()")
        scene.has("INBOX", "lunch on friday", "\\Flagged")
        lua("me.INBOX:contain_subject('lunch'):unmark_flagged()")
        scene.has("INBOX", "lunch on friday", without=("\\Flagged",))
    with scene.step("copy"):
        lua("me.INBOX:contain_subject('newsletter'):copy_messages(me.work)")
        scene.copied("work", "newsletter")
    with scene.step("move"):
        lua("me.INBOX:contain_body('okapi'):move_messages(me.work)")
        scene.has("work", "zebra crossing")
        scene.lacks_message("INBOX", "zebra crossing")
    with scene.step("delete"):
        lua("me.INBOX:contain_subject('minutes'):delete_messages()")
        scene.lacks_message("INBOX", "minutes")
    with scene.step("create"):
        lua("me:create_mailbox('plans') me:subscribe_mailbox('plans')")
        scene.has_names("plans")
    with scene.step("rename"):
        lua("me:rename_mailbox('old', 'older')")
        scene.renamed("old", "older")
    with scene.step("remove"):
        lua("me:delete_mailbox('useless')")
        scene.has_names(without=("useless",))
    with scene.step("append"):
        with open(f"{scene.home}/mail", "wb") as file:
            file.write(message_with(scene.big))
        lua(f"local it = io.open('{scene.home}/mail') me.Sent:append_message(it:read('*a'))")
        scene.saved("Sent", "the photographs")
    with scene.step("reopen"):
        lua(f"for _, it in ipairs(me.Sent:select_all()) do local out = io.open('{scene.room}/big.got', 'w') out:write(it[1][it[2]]:fetch_message()) out:close() end")
        with open(f"{scene.room}/big.got", "rb") as file:
            if file.read().replace(b"\r\n", b"\n") != message_with(scene.big).replace(b"\r\n", b"\n"):
                raise Bad(f"it has {os.path.getsize(f'{scene.room}/big.got')} octets, others than were sent")
    with scene.step("idle"):
        path = scene.file(".imapfilter/config.lua", HEAD.format(host=scene.host,
            port=scene.port) + f"me.INBOX:enter_idle() local it = io.open('{scene.room}/woken', 'w') it:close()")
        ran = subprocess.Popen(["imapfilter", "-c", path], env=scene.environment, cwd=scene.home, stdout=subprocess.DEVNULL, stderr=subprocess.DEVNULL)
        scene.closing.append(ran.kill)
        wait(4)
        if os.path.exists(f"{scene.room}/woken"):
            raise Bad("it doesn't wait")
        scene.arrives()
        until(lambda: os.path.exists(f"{scene.room}/woken"), "what arrived didn't wake it", 10)
