"""Random commands of the profile, well and badly spelled, none of which IMAP4rev1 has beside it."""

FLAGS = ("\\Seen", "\\Flagged", "\\Deleted", "\\Answered", "\\Draft", "work", "$Forwarded", "Junk")
WORDS = ("zebra", "one", "Subject", "", "a b", "ä")
DATES = ("1-Nov-2026", "03-Nov-2026", "30-Nov-2026")
MESSAGES = (
    b"Subject: zebra\r\n\r\none\r\n", b"From: a@b\r\nSubject: one\r\nX-Long: a\r\n b\r\n\r\ntext\r\n\r\nmore\r\n", b"", b"no header", b"\r\nonly a body",
    b"Subject: \xc3\xa4\r\n\r\n" + b"x" * 3000,
    b"MIME-Version: 1.0\r\nContent-Type: multipart/mixed; boundary=b\r\n\r\n--b\r\n\r\none\r\n--b--\r\n",
)


class Commands:
    """The commands of one session of several connections, chosen by a random generator; `number` makes its mailboxes' names its own."""

    def __init__(self, it, number):
        self.it = it
        self.names = [f"s{number}", f"s{number}/below", f"s{number} ä&b", "INBOX"]

    def pick(self, *them):
        return self.it.choice(them)

    def name(self):
        name = self.pick(*self.names, *self.names, "missing", "inbox", "a//b", "bad*")
        if self.it.random() < 0.1 and name.isascii():
            return self.literal(name.encode())
        return b'"' + name.encode() + b'"'

    def literal(self, octets):
        return b"{%d%s}\r\n" % (len(octets), b"+" if self.it.random() < 0.5 else b"") + octets

    def set(self):
        number = lambda: self.pick("1", "2", "3", "4", "9", "*", "100000")
        return ",".join(number() + (f":{number()}" if self.it.random() < 0.4 else "") for _ in range(self.pick(1, 1, 1, 2, 3))).encode()

    def flags(self):
        return "({})".format(" ".join(self.it.sample(FLAGS, self.pick(0, 1, 1, 2, 3)))).encode()

    def section(self):
        names = " ".join(self.it.sample(("Subject", "From", "X-Long", "Missing", '"To"'), self.pick(1, 2)))
        return self.pick("", "HEADER", "TEXT", f"HEADER.FIELDS ({names})", f"HEADER.FIELDS.NOT ({names})")

    def item(self):
        partial = self.pick("", "", f"<{self.pick(0, 3, 100)}.{self.pick(1, 20, 5000)}>")
        return self.pick("FLAGS", "UID", "INTERNALDATE", "RFC822.SIZE", "MODSEQ", f"BODY[{self.section()}]{partial}", f"BODY.PEEK[{self.section()}]{partial}")

    def items(self):
        if self.it.random() < 0.1:
            return b"FAST"
        items = [self.item() for _ in range(self.pick(1, 1, 2, 3))]
        return (items[0] if len(items) == 1 and self.it.random() < 0.5 else f"({' '.join(items)})").encode()

    def key(self, depth=0):
        if depth < 3 and self.it.random() < 0.2:
            one = self.key(depth + 1)
            return self.pick(b"NOT " + one, b"OR " + one + b" " + self.key(depth + 1), b"(" + one + b" " + self.key(depth + 1) + b")")
        word = '"' + self.pick(*WORDS) + '"'
        date, flag = self.pick(*DATES), self.pick("work", "$Forwarded", "nothing")
        return self.pick(
            b"ALL", b"ANSWERED", b"DELETED", b"DRAFT", b"FLAGGED", b"SEEN", b"UNANSWERED", b"UNDELETED", b"UNDRAFT", b"UNFLAGGED", b"UNSEEN", self.set(),
            b"UID " + self.set(), b"LARGER 30", b"SMALLER 30", b"MODSEQ 3",
            *(it.encode() for it in (f"BODY {word}", f"TEXT {word}", f"SUBJECT {word}", f"FROM {word}", f"TO {word}", f"CC {word}", f"BCC {word}",
            f"HEADER X-Long {word}", f"BEFORE {date}", f"ON {date}", f"SINCE {date}", f"KEYWORD {flag}", f"UNKEYWORD {flag}")),
        )

    def search(self):
        options = self.pick(b"", b"", b"RETURN () ", b"RETURN (ALL) ", b"RETURN (MIN MAX) ", b"RETURN (COUNT) ", b"RETURN (MIN COUNT ALL MAX) ")
        return options + self.pick(b"", b"", b"CHARSET UTF-8 ") + b" ".join(self.key() for _ in range(self.pick(1, 1, 2, 3)))

    def append(self):
        date = self.pick("01-Nov-2026 10:00:00 +0000", " 3-Nov-2026 23:59:59 -0500")
        return b"APPEND " + self.name() + b" " + self.pick(b"", self.flags() + b" ") + b'"' + date.encode() + b'" ' + self.literal(self.pick(*MESSAGES))

    def store(self):
        since = self.pick(b"", b"", b"(UNCHANGEDSINCE %d) " % self.pick(0, 3, 1000))
        return self.uid() + b"STORE " + self.set() + b" " + since + self.pick(b"", b"+", b"-") + b"FLAGS" + self.pick(b"", b".SILENT") + b" " + self.flags()

    def uid(self):
        return self.pick(b"", b"UID ")

    def bad(self):
        return self.pick(
            b"", b"FROB", b"SELECT", b"NOOP ", b"FETCH 1", b"FETCH 0 FLAGS", b"FETCH 1 (FLAGS", b"STORE 1 FLAGS (\\Odd)", b"SEARCH", b"SEARCH (ALL", b"LIST",
            b"STARTTLS", b"LOGIN me secret", b"UID", b"UID NOOP", b"APPEND INBOX {3}\r\nabc x",
            b'SEARCH SUBJECT "a', b"STATUS INBOX ()", b"DONE", b"SEARCH RETURN (SAVE) ALL", b'LIST "" (a b)', b"FETCH 1 BINARY[1]", b"APPEND INBOX {99999999}",
            b"SELECT INBOX (QRESYNC (1 1))", b"CREATE {300}\r\n" + b"n" * 300,
        )

    def command(self):
        """A command without its tag, CRLF at its end."""
        it = self.it.random()
        if it < 0.22:
            return self.append() + b"\r\n"
        if it < 0.38:
            return self.uid() + b"FETCH " + self.set() + b" " + self.items() + self.pick(b"", b"", b"", b" (CHANGEDSINCE 4)") + b"\r\n"
        if it < 0.5:
            return self.store() + b"\r\n"
        if it < 0.62:
            return self.uid() + b"SEARCH " + self.search() + b"\r\n"
        if it < 0.74:
            return self.pick(b"SELECT ", b"SELECT ", b"EXAMINE ") + self.name() + self.pick(b"", b"", b" (CONDSTORE)") + b"\r\n"
        if it < 0.8:
            return self.pick(b"", b"UID ") + self.pick(b"COPY ", b"MOVE ") + self.set() + b" " + self.name() + b"\r\n"
        if it < 0.85:
            return self.pick(b"CREATE ", b"CREATE ", b"DELETE ", b"SUBSCRIBE ", b"UNSUBSCRIBE ") + self.name() + b"\r\n"
        if it < 0.89:
            reference, pattern = self.pick("", "", self.names[0]), self.pick("*", "%", "s*", "s%/%", "INBOX", "", self.names[0], self.names[2])
            return f'LIST{self.pick("", "", " (SUBSCRIBED)")} "{reference}" "{pattern}"{self.pick("", "", " RETURN (SUBSCRIBED)")}\r\n'.encode()
        if it < 0.92:
            items = self.it.sample("MESSAGES UIDNEXT UIDVALIDITY UNSEEN DELETED SIZE HIGHESTMODSEQ".split(), self.pick(1, 2, 7))
            return b"STATUS " + self.name() + b" (" + " ".join(items).encode() + b")\r\n"
        if it < 0.97:
            return self.pick(b"NOOP", b"NOOP", b"CAPABILITY", b"NAMESPACE", b"EXPUNGE", b"CLOSE", b"UNSELECT", b"IDLE", b"ENABLE CONDSTORE", b"ENABLE IMAP4rev2 X-ODD",
                b"UID EXPUNGE " + self.set()) + b"\r\n"
        return self.bad() + b"\r\n"
