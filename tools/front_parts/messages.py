"""Messages to be looked at: real-looking ones, odd ones written by hand, and random ones. Each is a name and octets with CRLFs."""
import base64
import random

PNG = base64.encodebytes(b"\x89PNG\r\n\x1a\n" + bytes(range(256)) * 4).decode().replace("\n", "\r\n")


def text(*lines):
    return "\r\n".join((*lines, "")).encode("utf-8", "surrogateescape")


def head(*fields, subject="plain", sender="Ada Lovelace <ada@example.org>"):
    return (f"From: {sender}", "To: Me <me@example.org>", f"Subject: {subject}", "Date: Tue, 03 Nov 2026 10:00:00 +0100", "Message-ID: <1@example.org>",
        "MIME-Version: 1.0", *fields)


def multipart(kind, boundary, *parts, quoted=True, preamble=(), epilogue=(), fields=()):
    """Lines of a multipart's fields, an empty line, and its parts."""
    lines = [f"Content-Type: multipart/{kind};", f' boundary="{boundary}"' if quoted else f" boundary={boundary}", *fields, "", *preamble]
    for part in parts:
        lines += [f"--{boundary}", *part]
    return (*lines, f"--{boundary}--", *epilogue)


def leaf(kind, *lines, fields=()):
    return (f"Content-Type: {kind}", *fields, "", *lines)


PLAIN = leaf("text/plain; charset=utf-8", "Hello,", "", "this is the text.", fields=("Content-Transfer-Encoding: 8bit",))
HTML = leaf('text/html; charset="utf-8"', "<p>Hello, <b>this</b> is =", "the text.</p>", fields=("Content-Transfer-Encoding: quoted-printable",))
IMAGE = leaf('image/png; name="=?utf-8?Q?b=C3=A4r.png?="', PNG, fields=("Content-Transfer-Encoding: base64", "Content-ID: <image@example.org>",
    'Content-Disposition: inline; filename="bar.png"; size=1032'))
PDF = leaf("application/pdf;", PNG, fields=(" name*=utf-8''r%C3%A9sum%C3%A9.pdf", "Content-Disposition: attachment;",
    " filename*0=\"a very long name that is in two \";", " filename*1=\"pieces.pdf\"", "Content-Transfer-Encoding: base64", "Content-Description: The curriculum vitae"))


def inner(*lines, kind="message/rfc822", fields=()):
    return (f"Content-Type: {kind}", *fields, "", *lines)


def real():
    """What common programs send."""
    forwarded = (*head(subject="=?utf-8?B?R3LDvMOfZQ==?=", sender='"Lovelace, Ada" <ada@example.org>'), *multipart("alternative", "inner_001", PLAIN, HTML))
    yield "plain", text(*head(), "", "Hello.", "", "-- ", "Ada")
    yield "alternative", text(*head(), *multipart("alternative", "000000000000a1b2c3", PLAIN, HTML))
    related = multipart("related", "Apple-Mail=_1F", HTML, IMAGE, fields=())
    yield "apple", text(*head("X-Mailer: Apple Mail (2.3696)"), *multipart("mixed", "Apple-Mail=_2A", multipart("alternative", "Apple-Mail=_3B", PLAIN, related), PDF))
    yield "outlook", text(*head("Thread-Topic: report", "Content-Language: en-US, de-DE", "X-MS-Has-Attach: yes"),
        *multipart("mixed", "_004_AM0PR04MB6", multipart("related", "_000_AM0", HTML, IMAGE), PDF, preamble=("This is a multi-part message in MIME format.", "")))
    yield "forwarded", text(*head(subject="Fwd: report"), *multipart("mixed", "b1", PLAIN,
        inner(*forwarded, fields=("Content-Disposition: attachment; filename=\"report.eml\"",))))
    yield "only a message", text(*head("Content-Type: message/rfc822"), "", *forwarded)
    yield "digest", text(*head(subject="a list's digest"), *multipart("mixed", "mixed", PLAIN,
        multipart("digest", "digest", ("", *head(subject="one"), "", "First."), ("", *forwarded), ("Content-Type: text/plain", "", "No message.")), PLAIN))
    bounce = ("Content-Type: message/delivery-status", "", "Reporting-MTA: dns; mail.example.org", "", "Final-Recipient: rfc822; you@example.org", "Action: failed")
    yield "bounce", text("Return-Path: <>", *head(subject="Undelivered Mail Returned to Sender", sender="MAILER-DAEMON (Mail Delivery System)"),
        *multipart('report; report-type="delivery-status"', "A1.B2/mail.example.org", PLAIN, bounce, ("Content-Type: text/rfc822-headers", "", *head())))
    yield "signed", text(*head(), *multipart('signed; micalg=pgp-sha512; protocol="application/pgp-signature"', "=-sig-=", multipart("mixed", "=-body-=", PLAIN, PDF),
        leaf('application/pgp-signature; name="signature.asc"', "-----BEGIN PGP SIGNATURE-----", "iQ==", "-----END PGP SIGNATURE-----",
        fields=("Content-Description: This is a digitally signed message part",))))
    yield "calendar", text(*head(), *multipart("alternative", "cal", PLAIN, leaf("text/calendar; charset=UTF-8; method=REQUEST", "BEGIN:VCALENDAR", "END:VCALENDAR")))
    yield "list", text("Received: from a (a [192.0.2.1])", "\tby b (Postfix) with ESMTPS id 1", "\tfor <me@example.org>; Tue, 03 Nov 2026 10:00:00 +0100 (CET)",
        *head("List-Id: A list <list.example.org>", "Reply-To: list@example.org", "Sender: list-bounces@example.org", "In-Reply-To: <0@example.org>",
        "References: <0@example.org>", "\t<00@example.org>"), "", "To the list.")
    yield "partial", text(*head('Content-Type: message/partial; number=1; total=2; id="x@y"'), "", "Subject: whole", "", "First half")
    yield "external", text(*head("Content-Type: message/external-body; access-type=URL; URL=\"http://example.org\""), "", "Content-Type: text/plain", "", "")
    yield "many recipients", text(*head("Cc: Friends: Bob <bob@example.org>, carol@example.org;, dave@example.org", "Bcc: undisclosed-recipients:;"), "", "Hello.")
    for depth in (2, 5, 20):
        lines = (*head(subject="innermost"), "", "Deep.")
        for at in range(depth):
            lines = (*head(f"X-Level: {at}", subject=f"level {at}"), *multipart("mixed", f"level{at}", PLAIN, inner(*lines)))
        yield f"{depth} forwards", text(*lines)


ADDRESSES = (
    "ada@example.org", "<ada@example.org>", "Ada <ada@example.org>", "Ada Lovelace <ada@example.org>", '"Ada Lovelace" <ada@example.org>',
    '"Lovelace, Ada" <ada@example.org>',
    '"A \\"great\\" \\\\ name" <ada@example.org>', "ada@example.org (Ada Lovelace)", "ada@example.org (Ada (Countess) Lovelace)",
    "(comment) Ada <ada@example.org> (another)", "Ada (the) Lovelace <ada@example.org>",
    "<@relay.example.org,@other.example.org:ada@example.org>", "Ada <@relay:ada@example.org>", '"ada lovelace"@example.org', '<"ada@home"@example.org>',
    "ada.of.lovelace@mail.example.org", "ada@[192.0.2.1]",
    "ada@[IPv6:2001:db8::1]", "Friends: ada@example.org, Bob <bob@example.org>;", "Empty:;", "Empty: ;, ada@example.org", "undisclosed-recipients:;", "", " ",
    ",,ada@example.org,,", "=?utf-8?Q?Ad=C3=A1?= <ada@example.org>",
    "=?utf-8?Q?Ad=C3=A1?= =?utf-8?Q?b?= <ada@example.org>", "Adá <ada@example.org>", "Ada\t Lovelace <ada@example.org>", "\"\" <ada@example.org>",
    "ada@example.org,bob@example.org", "Ada\r\n Lovelace\r\n <ada@example.org>",
    "ada@example.org,\r\n\tbob@example.org", "Ada <ada@example.org>, ",
)
# What breaks the grammar of RFC 5322, so that each reader makes of it what it can.
ODD_ADDRESSES = (
    "ada", "Ada Lovelace", "<ada>", "<>", "ada@", "@example.org", "<ada@example.org", "ada@example.org>", "Ada <ada@example.org> <bob@example.org>",
    "ada@example.org bob@example.org", "ada@example.org; bob@example.org", "ada@exämple.org",
    '"unfinished <ada@example.org>', "(unfinished ada@example.org", "Ada.Lovelace <ada@example.org>", "a@b@c", "<a@b@c>", ":;", ":;:;", "A:B:c@d;", "A: b@c, D: e@f;;",
    "ada @ example.org", "ada . lovelace @ example . org", "'ada@example.org' <ada@example.org>",
    "Ada [x] <ada@example.org>", "ada@example..org", ".ada@example.org", "ada.@example.org", "\\", "\"\\", "Ada <ada @example.org>",
)
TYPES = (
    "text/plain", "TEXT/PLAIN", "text/plain; charset=UTF-8", 'text/plain; charset="utf-8"', "text/plain;charset=utf-8;format=flowed", "text/plain; charset = utf-8",
    "text/plain ; charset=utf-8", "text / plain", "text/plain; charset=",
    "text/plain; charset", "text/plain;", "text/plain (comment); a=b", "text/plain; a=b (comment)", "text/plain; a=(comment)b", 'text/plain; a="b\\"c\\\\d"',
    "text/plain; a*=utf-8'en'%41", "text/plain; name=bär.txt", "text/plain; a=b; a=c",
    "x-odd/x-type; x-y=z", "text/html", "image/gif", "application/octet-stream; name=a.b", "message/rfc822", "message/rfc822; a=b", "message/RFC822", "message/global",
    "multipart/mixed; boundary=nowhere", "text/plain;\r\n charset=utf-8",
    "text/plain;\r\n\tcharset=utf-8;\r\n\ta=b", "text/plain; charset=us-ascii (Plain text)",
)
# What breaks the grammar of RFC 2045, or is one of the forms of RFC 2231 that Dovecot joins.
ODD_TYPES = (
    "text/plain; ; a=b", "text/plain; a=b c=d", 'text/plain; a="unfinished', "text/plain; a*0=x; a*1=y", "text/plain; a*0*=utf-8''x; a*1*=y", "text", "text/", "/plain",
    "", "garbage", "multipart/mixed", "multipart/mixed; boundary=", 'multipart/mixed; boundary=""',
    "text/plain; a=b/c", "text/plain; a=<b>", "text/plain; a=b@c", "multipart", "text/plain/x",
)
FIELDS = (
    "Content-Disposition: attachment", "Content-Disposition: attachment; filename=a.txt", 'Content-Disposition: ATTACHMENT; FILENAME="a b.txt"; size=10',
    "Content-Disposition: inline (comment)", "Content-Language: en", "Content-Language: en, de",
    "Content-Language: en,de , fr", "Content-Language: (comment) en", "Content-Language:", "Content-Location: http://example.org/a b",
    "Content-MD5: Q2hlY2sgSW50ZWdyaXR5IQ==", "Content-ID: <a@b>", "Content-Description: a text",
    "Content-Description: =?utf-8?Q?=C3=A4?=", "Content-Description: bär", "Content-Transfer-Encoding: base64", "Content-Transfer-Encoding: BASE64",
    "Content-Transfer-Encoding:", "Content-Transfer-Encoding: 7bit (comment)",
    "Content-Description: folded\r\n over\r\n\tlines",
)
# What has no value that RFC 2045 or 2183 knows, or blanks at its end.
ODD_FIELDS = ("Content-Disposition:", "Content-Disposition: ;", "Content-Disposition: x y", "Content-ID:", "Content-Transfer-Encoding: x y",
    "Content-Description:  many   blanks  ")
SUBJECTS = ("Subject: plain", "Subject:", "Subject: ", "Subject:  two blanks  ", "SUBJECT: capitals", "Subject : a blank before the colon", "Subject: folded\r\n over",
    "Subject: tab\tinside", "Subject:\r\n later", 'Subject: "quoted" \\ back', "Subject: bär", "Subject: \x01 control", "Subject: (1)", "Subject: " + "long " * 300)


def by_hand():
    """One oddity each."""
    for kind, them in (("address", ADDRESSES), ("odd address", ODD_ADDRESSES)):
        for at, it in enumerate(them):
            yield f"{kind} {at}", text(f"From: {it}", "Subject: x", "MIME-Version: 1.0", "", "x")
        for at in range(0, len(them), 4):
            some = ", ".join(them[at : at + 4])
            yield f"{kind}es {at}", text("From: a@b", "To: first@field", "Cc: c@d", f"Reply-To: {them[at]}", f"To: {some}", "MIME-Version: 1.0", "", "x")
    for at, it in enumerate((*TYPES, *ODD_TYPES)):
        yield f"type {at}", text(*head(f"Content-Type: {it}"), "", "Some text.", "--nowhere", "More.")
    for at, it in enumerate((*FIELDS, *ODD_FIELDS)):
        yield f"field {at}", text(*head("Content-Type: text/plain", it), "", "Some text.")
    for at, it in enumerate(SUBJECTS):
        yield f"subject {at}", text("From: a@b", it, "MIME-Version: 1.0", "", "x")
    for name, lines in SHAPES.items():
        yield name, lines
    yield "no date", text("From: a@b", "", "x")
    yield "only a body", text("", "x")
    yield "only CRLF", b"\r\n"
    yield "only a header", text(*head())
    yield "header without its end", text(*head())[:-2]
    yield "no colon", text("From: a@b", "this is no field", "Subject: x", "MIME-Version: 1.0", "", "x")
    yield "begins with a blank", text(" From: a@b", "Subject: x", "MIME-Version: 1.0", "", "x")
    yield "two subjects", text("Subject: one", "Subject: two", "MIME-Version: 1.0", "", "x")
    yield "no version", text("From: a@b", "Content-Type: text/html", "", "x")
    yield "blanks in an empty line", text("From: a@b", "MIME-Version: 1.0", " ", "Subject: x", "", "x")
    yield "LF without CR", b"Subject: x\nTo: a@b\r\nMIME-Version: 1.0\r\n\r\none\ntwo\r\n"
    yield "no CRLF at the end", text(*head(), "", "x")[:-2]
    yield "blank names", text("From : a@b", "To\t: c@d", ": nothing", "MIME-Version: 1.0", "", "x")


def lines(*them, fields=("Content-Type: multipart/mixed; boundary=b",)):
    return text(*head(*fields), "", *them)


SHAPES = {
    "two parts": lines("--b", "", "one", "--b", "", "two", "--b--"),
    "not closed": lines("--b", "", "one", "--b", "", "two"),
    "closed at once": lines("--b--"),
    "nothing in it": lines(),
    "no parts": lines("preamble", "only"),
    "empty part": lines("--b", "--b--"),
    "empty parts": lines("--b", "", "--b", "", "", "--b--"),
    "part without header": lines("--b", "", "--b--"),
    "header without body": lines("--b", "Content-Type: text/html", "--b--"),
    "header that is cut": lines("--b", "Content-Type: text/html", "X: y", "--b", "", "z", "--b--"),
    "blanks after the boundary": lines("--b  ", "", "one", "--b\t", "", "two", "--b--  ", "epilogue"),
    "text after the boundary": lines("--bx", "", "one", "--b y", "", "two", "--b--z"),
    "dashes before": lines("---b", "", "one", "--b", "", "two", "--b--"),
    "blank before": lines(" --b", "", "one", "--b", "", "two", "--b--"),
    "after the end": lines("--b", "", "one", "--b--", "--b", "", "two", "--b--"),
    "no line end at the end": lines("--b", "", "one", "--b--")[:-2],
    "boundary at the very end": lines("--b", "", "one", "--b")[:-2],
    "capitals": lines("--B", "", "one", "--b", "", "two", "--b--"),
    "preamble and epilogue": lines("before", "--b", "", "one", "--b--", "after", "--b", "", "not"),
    "blank in the boundary": text(*head('Content-Type: multipart/mixed; boundary="a b"'), "", "--a b", "", "one", "--a b--"),
    "blank at the boundary's end": text(*head('Content-Type: multipart/mixed; boundary="b "'), "", "--b ", "", "one", "--b--"),
    "long boundary": text(*head(f'Content-Type: multipart/mixed; boundary="{"b" * 70}"'), "", "--" + "b" * 70, "", "one", "--" + "b" * 70 + "--"),
    "longer boundary": text(*head(f'Content-Type: multipart/mixed; boundary="{"b" * 100}"'), "", "--" + "b" * 100, "", "one", "--" + "b" * 100 + "--"),
    "unquoted boundary": text(*head("Content-Type: multipart/mixed; boundary=----=_N"), "", "------=_N", "", "one", "------=_N--"),
    "special octets": text(*head('Content-Type: multipart/mixed; boundary="\'()+_,-./:=?"'), "", "--'()+_,-./:=?", "", "one", "--'()+_,-./:=?--"),
    "one boundary begins another": text(*head("Content-Type: multipart/mixed; boundary=b"), "", "--b", *multipart("mixed", "bb", PLAIN, HTML, quoted=False), "--b", "",
    "two", "--b--"),
    "the outer one is longer": text(*head("Content-Type: multipart/mixed; boundary=bb"), "", "--bb", *multipart("mixed", "b", PLAIN, HTML, quoted=False), "--bb", "",
    "two", "--bb--"),
    "same boundary": text(*head("Content-Type: multipart/mixed; boundary=b"), "", "--b", *multipart("mixed", "b", PLAIN, quoted=False), "--b", "", "two", "--b--"),
    "inner one isn't closed": lines("--b", "Content-Type: multipart/mixed; boundary=c", "", "--c", "", "one", "--b", "", "two", "--b--"),
    "outer one in a header": lines("--b", "Content-Type: multipart/mixed; boundary=c", "", "--c", "X: y", "--b", "", "two", "--b--"),
    "inner one after the outer": lines("--b", "Content-Type: multipart/mixed; boundary=c", "", "--c", "", "one", "--b", "--c", "", "two", "--b--"),
    "message in a part": lines("--b", "Content-Type: message/rfc822", "", "Subject: x", "", "y", "--b--"),
    "empty message": lines("--b", "Content-Type: message/rfc822", "", "--b--"),
    "message without a header": lines("--b", "Content-Type: message/rfc822", "", "", "y", "--b--"),
    "message without a body": lines("--b", "Content-Type: message/rfc822", "", "Subject: x", "--b--"),
    "message with a broken multipart": lines("--b", "Content-Type: message/rfc822", "", "Subject: x", "Content-Type: multipart/mixed", "", "y", "--b--"),
    "encoded message": lines("--b", "Content-Type: message/rfc822", "Content-Transfer-Encoding: base64", "", "U3ViamVjdDogeA==", "--b--"),
    "empty digest": text(*head("Content-Type: multipart/digest; boundary=b"), "", "--b", "", "--b--"),
    "digest of texts": text(*head("Content-Type: multipart/digest; boundary=b"), "", "--b", "Content-Type: text/plain", "", "one", "--b", "X: y", "", "Subject: two",
    "", "z", "--b--"),
    "digest in a digest": text(*head("Content-Type: multipart/digest; boundary=b"), "", "--b", "Content-Type: multipart/digest; boundary=c", "", "--c", "",
    "Subject: one", "", "x", "--c--", "--b--"),
}


def an_address(it):
    return it.choice(ADDRESSES if it.random() < 0.8 else ODD_ADDRESSES)


def random_part(it, depth, boundaries):
    """A part's header and body, at random."""
    kind = it.random()
    fields = it.sample((*FIELDS, *ODD_FIELDS), it.choice((0, 0, 0, 1, 2)))
    if depth < 4 and kind < 0.35:
        boundary = it.choice((f"b{len(boundaries)}", f"=_{it.randrange(10**6)}", (boundaries or ["b"])[-1] + it.choice("-=x_"), "a'b+c_d,e"))
        boundaries.append(boundary)
        parts = [random_part(it, depth + 1, boundaries) for _ in range(it.choice((0, 1, 1, 2, 2, 3)))]
        boundaries.pop()
        return multipart(it.choice(("mixed", "alternative", "related", "digest", "signed; micalg=x", "x-odd")), boundary, *parts, fields=fields,
            preamble=("", "before", "") if it.random() < 0.2 else (), epilogue=("", "after") if it.random() < 0.2 else ())
    if depth < 4 and kind < 0.5:
        message = [it.choice(SUBJECTS), f"From: {an_address(it)}", f"To: {an_address(it)}", "MIME-Version: 1.0", *random_part(it, depth + 1, boundaries)]
        return inner(*message, fields=fields)
    body = [it.choice(("", "x", "Some text.", "--", "-- ", "--no boundary", "a" * 200, "bär", " blank", ".")) for _ in range(it.choice((0, 1, 2, 5)))]
    return leaf(it.choice(TYPES if it.random() < 0.9 else ODD_TYPES), *body, fields=fields)


def random_ones(count, seed=7):
    """Messages of random parts; of each third some lines are dropped, doubled or changed."""
    it = random.Random(seed)
    for at in range(count):
        fields = [f"From: {an_address(it)}", it.choice(SUBJECTS), f"To: {an_address(it)}, {an_address(it)}", "Date: Tue, 03 Nov 2026 10:00:00 +0100", "MIME-Version: 1.0"]
        message = text(*fields, *random_part(it, 0, []))
        if at % 3 == 2:
            rows = message.split(b"\r\n")
            for _ in range(it.randint(1, 3)):
                where = it.randrange(len(rows))
                change = it.randrange(4)
                rows[where : where + 1] = ([], [rows[where]] * 2, [rows[where][: len(rows[where]) // 2]], [rows[where], b""])[change]
            message = b"\r\n".join(rows)
            name = "damaged"
        else:
            name = "random"
        yield f"{name} {at}", message


def all_messages(count, seed=7):
    yield from real()
    yield from by_hand()
    yield from random_ones(count, seed)
