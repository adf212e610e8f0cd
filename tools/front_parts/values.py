"""A client of IMAP that reads the values in its answers: lists, strings, numbers, names of items."""
import re
import socket


class Bad(Exception):
    """What went wrong."""


class Client:
    """A connection, and what was read and isn't looked at yet."""

    def __init__(self, address):
        self.socket = socket.create_connection(address, timeout=300)
        self.socket.setsockopt(socket.IPPROTO_TCP, socket.TCP_NODELAY, 1)
        self.unread, self.tags = b"", 0
        self.greeting = self.answer()

    def answer(self):
        """The next answer, its literals included, with its last CRLF."""
        end = 0
        while True:
            while (at := self.unread.find(b"\r\n", end)) < 0:
                self.more()
            literal = re.search(rb"\{(\d+)\}\Z", self.unread[max(end, at - 20) : at])
            if not literal:
                break
            end = at + 2 + int(literal[1])
            while len(self.unread) < end:
                self.more()
        answer, self.unread = self.unread[: at + 2], self.unread[at + 2 :]
        return answer

    def more(self):
        octets = self.socket.recv(1 << 18)
        if not octets:
            raise Bad("the server hung up")
        self.unread += octets

    def send(self, octets):
        self.socket.sendall(octets)

    def ask(self, command, literal=None):
        """The untagged answers to a command that must be answered OK; a literal is waited for and ends it."""
        self.tags += 1
        tag = b"c%d " % self.tags
        self.send(tag + command + (b" {%d}" % len(literal) if literal is not None else b"") + b"\r\n")
        untagged = []
        while not (it := self.answer()).startswith(tag):
            if it.startswith(b"+"):
                self.send(literal + b"\r\n")
            else:
                untagged.append(it)
        if not it.startswith(tag + b"OK"):
            raise Bad(f"{command[:100]!r} was answered {it[:100]!r}")
        return untagged

    def login(self, *commands):
        for it in (b"LOGIN me secret", *commands):
            self.ask(it)
        return self

    def close(self):
        self.socket.close()


def value_at(text, at):
    """The value that begins there, and where it ends: None for NIL, a list, a str for what is bare, octets for a string."""
    if text[at : at + 1] == b"(":
        values, at = [], at + 1
        while text[at : at + 1] != b")":
            if text[at : at + 1] == b" ":
                at += 1
            value, at = value_at(text, at)
            values.append(value)
        return values, at + 1
    if text[at : at + 1] == b'"':
        found = re.compile(rb'"((?:[^"\\\r\n]|\\.)*)"').match(text, at)
        if not found:
            raise Bad(f"no string: {text[at:at + 40]!r}")
        return re.sub(rb"\\(.)", rb"\1", found[1]), found.end()
    if text[at : at + 1] == b"{":
        found = re.compile(rb"\{(\d+)\}\r\n").match(text, at)
        end = found.end() + int(found[1])
        return text[found.end() : end], end
    found = re.compile(rb"[^\s()\"{]+").match(text, at)
    if not found:
        raise Bad(f"no value: {text[at:at + 40]!r}")
    return None if found[0].upper() == b"NIL" else found[0].decode(), found.end()


ITEM = re.compile(rb" ?([A-Za-z0-9.]+(?:\[[^\]]*\])?(?:<\d+>)?) ")


def fetched(answer):
    """The items of a FETCH answer by name, in capitals; an empty dictionary if it is another answer."""
    head = re.match(rb"\* \d+ FETCH \(", answer)
    items, at = {}, head.end() if head else len(answer)
    while at < len(answer) and answer[at : at + 1] != b")":
        name = ITEM.match(answer, at)
        if not name:
            raise Bad(f"no item: {answer[at:at + 60]!r}")
        value, at = value_at(answer, name.end())
        items[re.sub(rb'"', b"", name[1]).decode().upper()] = value
    return items
