"""Servers that tools start: the one that is tried, Dovecot beside it, and others."""
import os
import pwd
import socket
import subprocess
import sys
import time

from stage import installed

DOVECOT = """
protocols = imap
listen = 127.0.0.1
base_dir = {room}/run
state_dir = {room}/state
log_path = {room}/log
ssl = no
disable_plaintext_auth = no
mail_location = sdbox:{room}/mail
mail_uid = {user}
mail_gid = {group}
first_valid_uid = 1
first_valid_gid = 1
mail_max_userip_connections = 0
passdb {{
  driver = static
  args = password=secret
}}
userdb {{
  driver = static
  args = uid={user} gid={group} home={room}/mail
}}
service imap-login {{
  inet_listener imap {{
    port = {port}
  }}
  inet_listener imaps {{
    port = 0
  }}
}}
"""


class Running:
    """Servers that were started, with their files in a folder."""

    def __init__(self, room):
        self.room, self.ran, self.tool = room, [], os.path.basename(sys.argv[0])
        os.makedirs(room)

    def start(self, *words, port):
        """Starts a program that listens at a port where nothing else does."""
        if answers(("127.0.0.1", port)):
            sys.exit(f"{self.tool}: something listens at {port} already")
        with open(f"{self.room}/{os.path.basename(words[0])}.log", "ab") as log:
            self.ran.append(subprocess.Popen(words, stdout=log, stderr=log))
        return self.ran[-1]

    def dovecot(self, port):
        """Starts Dovecot for user `me` with the password `secret`, without TLS."""
        user = pwd.getpwnam("mail")
        os.chmod(self.room, 0o755)
        os.makedirs(f"{self.room}/mail")
        os.chown(f"{self.room}/mail", user.pw_uid, user.pw_gid)
        with open(f"{self.room}/conf", "w", encoding="utf-8") as file:
            file.write(DOVECOT.format(room=self.room, user=user.pw_uid, group=user.pw_gid, port=port))
        if not installed("dovecot"):
            sys.exit(f"{self.tool}: Dovecot isn't installed (Debian's dovecot-imapd)")
        self.start(installed("dovecot"), "-F", "-c", f"{self.room}/conf", port=port)
        self.wait_for(("127.0.0.1", port))

    def wait_for(self, address):
        """Waits for an answer at an address; ends this program if there is none, or if a server that was started ends."""
        deadline = time.monotonic() + 60
        while not answers(address):
            if ended := next((it for it in self.ran if it.poll() is not None), None):
                with open(f"{self.room}/{os.path.basename(ended.args[0])}.log", encoding="utf-8", errors="replace") as log:
                    sys.exit(f"{self.tool}: {ended.args[0]} ended with status {ended.returncode}: {log.read()[-300:].strip()}")
            if time.monotonic() > deadline:
                sys.exit(f"{self.tool}: nothing answers at {address[0]}:{address[1]}")
            time.sleep(0.1)

    def end(self):
        for it in reversed(self.ran):
            it.terminate()
        for it in self.ran:
            it.wait(30)


def answers(address):
    try:
        with socket.create_connection(address, timeout=5) as it:
            return it.recv(100).startswith(b"* OK")
    except OSError:
        return False
