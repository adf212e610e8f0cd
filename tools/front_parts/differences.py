"""In what the server's values differ from Dovecot's for a known reason, which docs/rev1.md has too."""
import re

from messages import ODD_ADDRESSES, ODD_FIELDS, ODD_TYPES

NOBODY = [None, None, b"MISSING_MAILBOX", b"MISSING_DOMAIN"]
MISSING = {b"MISSING_DOMAIN": b"", b"MISSING_MAILBOX": b""}
ADDRESSES = re.compile(rb"(?im)^(?:from|sender|reply-to|to|cc|bcc)[ \t]*:([^\r\n]*(?:\r\n[ \t][^\r\n]*)*)")
LONG_ODD = [it.encode() for it in ODD_ADDRESSES if len(it) > 24]
TYPES = re.compile(rb"(?im)^content-type:([^\r\n]*(?:\r\n[ \t][^\r\n]*)*)")
TYPE = re.compile(rb"\s*(?:\([^)]*\))?[^\s/;()]+\s*/\s*[^\s/;()]+\s*(?:[;(]|\Z)")
ONCE = re.compile(rb"(?m)^(content-[a-z-]+|subject)[ \t]*:")
MULTIPARTS = re.compile(rb"(?im)^content-type:[ \t]*multipart/[^\r\n]*(?:\r\n[ \t][^\r\n]*)*")
ODD_LIST = re.compile(rb"(?:\A|,)\s*(?:" + b"|".join(re.escape(it.encode()) for it in ODD_ADDRESSES) + rb")\s*(?:,|\Z)")


def differences(item, ours, theirs, message):
    """The reasons for which the values of an item differ; None if they differ for another."""
    reasons = set()
    if is_same(item, ours, theirs, reasons.add):
        return reasons
    if item == "ENVELOPE" and has_error(theirs):
        return {"addresses that break RFC 5322"}
    return next(({why} for why in oddities(message)), None)


def has_error(value):
    """Whether Dovecot says that an address is none."""
    return any(has_error(it) for it in value) if isinstance(value, list) else value in (b"SYNTAX_ERROR", *MISSING)


def oddities(message):
    """The oddities of a message that Dovecot is known to read in another way."""
    if any(ODD_LIST.search(it) or b"'" in it or any(odd in it for odd in LONG_ODD) for it in ADDRESSES.findall(message)):
        yield "addresses that break RFC 5322"
    types = [it.strip(b"\r") for it in TYPES.findall(message)]
    if any(it.strip().decode("utf-8", "replace") in ODD_TYPES or not TYPE.match(it) for it in types):
        yield "types that break RFC 2045, or are joined by RFC 2231"
    if any(it.encode() + b"\r\n" in message for it in ODD_FIELDS):
        yield "fields without a value"
    if re.search(rb'boundary="?[^"\r\n]{81}', message):
        yield "a boundary of more than 80 octets"
    if re.search(rb"boundary=[^\"\r\n;]*=", message):
        yield "an unquoted boundary with ="
    if re.search(rb'boundary="[^"\r\n]* "', message):
        yield "a blank at a boundary's end"
    if any(not re.search(rb'(?i)boundary *= *"?[^"\s;]', it) for it in MULTIPARTS.findall(message)):
        yield "a multipart without a boundary"
    if re.search(rb"\n--[^\r\n]+\Z", message):
        yield "a delimiter without a line end at the end"
    if any(len(set(names)) < len(names) for names in map(ONCE.findall, message.lower().split(b"\r\n\r\n"))):
        yield "two fields of one name"
    if re.search(rb"(?<!\r)\n", message):
        yield "LF without CR"
    if len(re.findall(rb"(?im)^mime-version:", message)) <= len(re.findall(rb"(?i)message/rfc822|multipart/digest", message)):
        yield "no MIME-Version"


def is_same(item, ours, theirs, because):
    if ours == theirs:
        return True
    if item.startswith(("BODY[", "RFC822")):
        return is_same_section(item, ours, theirs, because)
    return is_same_value(ours, theirs, because)


def is_same_section(item, ours, theirs, because):
    if ours is None and theirs == b"":
        because("what isn't there is NIL")
        return True
    if ours is None and theirs and re.match(r"BODY\[[0-9.]*\.1(\.MIME)?\]\Z", item):
        because("part n.1 of a part n without parts")
        return True
    if ours is None or theirs is None or not theirs.startswith(ours):
        return False
    more = theirs[len(ours) :]
    if "FIELDS" in item:
        because("an empty line is added to HEADER.FIELDS" if more == b"\r\n" else "a header that a delimiter ends goes on in HEADER.FIELDS")
        return True
    if more == b"\r\n" or (more == b"\r" and item.endswith(">")):
        because("the CRLF before a delimiter")
        return True
    return False


def is_same_value(ours, theirs, because):
    if ours == theirs:
        return True
    if isinstance(ours, list) and isinstance(theirs, list):
        if NOBODY in theirs:
            because("nothing between commas")
            return is_same_value(ours, [it for it in theirs if it != NOBODY], because)
        if any(it in ("*0", "*0*") for it in endings(ours)):
            because("parameters in pieces are joined")
            return True
        return len(ours) == len(theirs) and all(is_same_value(*both, because) for both in zip(ours, theirs))
    if isinstance(ours, bytes) and isinstance(theirs, bytes):
        return is_same_string(ours, theirs, because)
    if isinstance(ours, str) and isinstance(theirs, str) and int(theirs) - int(ours) in (1, 2):
        because("the CRLF before a delimiter")
        return True
    return False


def is_same_string(ours, theirs, because):
    if ours == MISSING.get(theirs):
        because("MISSING_DOMAIN, MISSING_MAILBOX")
    elif theirs == ours.replace(b"\t", b" "):
        because("a TAB becomes a blank")
    elif theirs.rstrip(b" ") == ours:
        because("blanks at a value's end")
    elif theirs == ours.lower() and theirs in (b"text", b"plain", b"message", b"rfc822"):
        because("text/plain and message/rfc822 in small letters")
    else:
        return False
    return True


def endings(values):
    """What follows the name of each parameter, if a list is one of parameters."""
    return [found[0].decode() for it in values[::2] if isinstance(it, bytes) and (found := re.search(rb"\*[0-9]*\*?\Z", it))]
