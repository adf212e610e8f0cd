"""Texts that are meant to take long: each a name and about as many octets as are asked for."""


def cycles(unit, octets):
    return (unit * (octets // len(unit) + 1))[:octets]


def nested(octets, header):
    """Multiparts in multiparts, each with a boundary of its own."""
    text, at = header, 0
    while len(text) < octets:
        text += b"Content-Type: multipart/mixed; boundary=b%d\r\n\r\n--b%d\r\n" % (at, at)
        at += 1
    return text


def all_texts(octets):
    head = b"From: a@b\r\nMIME-Version: 1.0\r\n"
    mixed = head + b"Content-Type: multipart/mixed; boundary=b\r\n\r\n"
    yield "groups in From", b"From: " + cycles(b":;", octets) + b"\r\n\r\nx"
    yield "groups in all address fields", b"".join(it + b": " + cycles(b":;", octets // 6) + b"\r\n" for it in (b"From", b"Sender", b"Reply-To", b"To", b"Cc",
        b"Bcc")) + b"\r\nx"
    yield "comments in From", b"From: " + b"(" * octets + b"\r\n\r\nx"
    yield "closed comments in From", b"From: " + b"(" * (octets // 2) + b")" * (octets // 2) + b" a@b\r\n\r\nx"
    yield "a quoted string of backslashes", b'From: "' + b"\\" * octets + b"\r\n\r\nx"
    yield "angles", b"From: " + b"<" * octets + b"\r\n\r\nx"
    yield "routes", b"From: <" + cycles(b"@a,", octets) + b":b@c>\r\n\r\nx"
    yield "addresses", b"To: " + cycles(b"a@b, ", octets) + b"\r\n\r\nx"
    yield "words", b"To: " + cycles(b"a ", octets) + b"<a@b>\r\n\r\nx"
    yield "dots", b"To: a@" + cycles(b"b.", octets) + b"\r\n\r\nx"
    yield "fields", cycles(b"To: a@b\r\n", octets) + b"\r\nx"
    yield "fields without a name", cycles(b"x\r\n", octets)
    yield "a folded field", b"Subject: " + cycles(b"x\r\n ", octets) + b"\r\n\r\nx"
    yield "levels", nested(octets, head)
    yield "levels of messages", head + cycles(b"Content-Type: message/rfc822\r\n\r\n", octets)
    yield "empty parts", mixed + cycles(b"--b\r\n", octets)
    yield "empty messages", head + b"Content-Type: multipart/digest; boundary=b\r\n\r\n" + cycles(b"--b\r\n\r\n", octets)
    yield "beginnings of delimiters", mixed + cycles(b"--\r\n-\r\n", octets)
    long = b"b" * (octets // 3)
    yield "a long boundary", head + b'Content-Type: multipart/mixed; boundary="' + long + b'"\r\n\r\n' + b"--" + long[:-1] + b"\r\n--" + long + b"\r\n"
    names = [b"b" * (at + 1) for at in range(99)]
    levels = b"".join(b"Content-Type: multipart/mixed; boundary=%s\r\n\r\n--%s\r\n" % (it, it) for it in names)
    yield "boundaries that begin with one another", head + levels + b"\r\n" + cycles(b"--" + b"b" * 98 + b"c\r\n", octets)
    yield "equal boundaries", head + (b"Content-Type: multipart/mixed; boundary=b\r\n\r\n--b\r\n") * 99 + cycles(b"\r\n--b\r\n--b--\r\n", octets)
    yield "parameters", head + b"Content-Type: text/plain" + cycles(b"; a=b", octets) + b"\r\n\r\nx"
    yield "boundary parameters", head + b"Content-Type: multipart/mixed" + cycles(b"; boundary=b", octets) + b"\r\n\r\n--b\r\n"
    yield "an open string in Content-Type", head + b'Content-Type: text/plain; a="' + cycles(b'\\"', octets) + b"\r\n\r\nx"
    yield "comments in Content-Type", head + b"Content-Type: text/plain; " + b"(" * octets + b"\r\n\r\nx"
    yield "languages", head + b"Content-Type: text/plain\r\nContent-Language: " + cycles(b"en,", octets) + b"\r\n\r\nx"
    yield "empty lines", head + b"Content-Type: text/plain\r\n\r\n" + cycles(b"\r\n", octets)
    yield "carriage returns", head + b"Content-Type: text/plain\r\n\r\n" + cycles(b"\r", octets)
