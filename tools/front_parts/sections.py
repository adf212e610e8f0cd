"""Which items of a message are asked for, and what a model of the front makes of them."""
import importlib
import os
import sys

from values import value_at

WORDS = ("", ".MIME", ".HEADER", ".TEXT", ".HEADER.FIELDS (SUBJECT CONTENT-TYPE)", ".HEADER.FIELDS.NOT (SUBJECT FROM)")
MOST = 40


def paths_of(body, path=()):
    """The numbers of the parts in a body structure (RFC 3501, section 6.4.5)."""
    if isinstance(body[0], list):
        for at, part in enumerate(it for it in body if isinstance(it, list) and it and isinstance(it[0], (list, bytes))):
            if is_body(part):
                yield from below((*path, at + 1), part)
    else:
        yield from below((*path, 1), body)


def below(path, part):
    yield path
    if isinstance(part[0], list):
        yield from paths_of(part, path)
    elif is_message(part):
        yield from paths_of(part[8], path)


def is_body(part):
    """Whether a list is a body's structure, and no list of parameters."""
    return isinstance(part[0], list) or len(part) >= 7


def is_message(part):
    return isinstance(part[0], bytes) and part[0].lower() == b"message" and len(part) > 9 and isinstance(part[7], list) and isinstance(part[8], list)


def asked_items(structure):
    """The items that are asked for of a message with this structure: whole ones, and sections of parts that there are and of some that there aren't."""
    items = ["ENVELOPE", "BODY", "BODYSTRUCTURE", "RFC822.HEADER", "RFC822.TEXT", "RFC822", "BODY.PEEK[]", "BODY.PEEK[HEADER]", "BODY.PEEK[TEXT]"]
    items += ["BODY.PEEK[HEADER.FIELDS (SUBJECT FROM X-LEVEL)]", "BODY.PEEK[HEADER.FIELDS.NOT (SUBJECT FROM X-LEVEL)]", "BODY.PEEK[1]<2.5>"]
    paths = list(dict.fromkeys(paths_of(structure)))[:MOST]
    others = {(1,), (1, 1), (2,), (paths[-1][0] + 1,), *((*it, 1) for it in paths[-2:])}
    for path in dict.fromkeys((*paths, *sorted(others))):
        items += [f"BODY.PEEK[{'.'.join(map(str, path))}{word}]" for word in WORDS]
    return [it.encode() for it in items]


def items_of_model(message, items):
    """The values of these items by the model, by their names in answers; None if there is no model."""
    model = model_of_front()
    if model is None:
        return None
    root, values = model.structure(message), {}
    for item in items:
        name = item.decode().replace(".PEEK", "")
        number, _, rest = name.removeprefix("BODY[").partition("]")
        path = [int(it) for it in number.partition(" ")[0].split(".") if it.isdigit()]
        if name == "ENVELOPE":
            values[name] = value_at(model.envelope(root.fields), 0)[0]
        elif name in ("BODY", "BODYSTRUCTURE"):
            values[name] = value_at(model.body(message, root, name != "BODY"), 0)[0]
        elif path and not rest:
            word, _, names = number.lstrip("0123456789.").partition(" (")
            values[name] = model.section(message, root, path, word, names.rstrip(")").lower().encode().split())
    return values


def model_of_front():
    if "FRONT" not in os.environ:
        return None
    folder, name = os.path.split(os.path.abspath(os.environ["FRONT"]))
    if folder not in sys.path:
        sys.path.append(folder)
        sys.setrecursionlimit(5000)
    return importlib.import_module(name.removesuffix(".py"))
