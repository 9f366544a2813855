"""What the plain register answers to an order's line, by docs/SPECIFICATION.md; no code of the program is used."""

import re

from plain import digest_of, is_key
from plain_network import prefix_of

MOST_LINE = 4_096
FIELDS = {
    "tenant-add": ["name"],
    "token-grant": ["tenant", "token"],
    "token-grant RIGHT": ["tenant", "right", "token"],
    "token-end": ["token"],
    "network-add": ["tenant", "name", "pool", "host", "port", "key", "capacity"],
    "network-end": ["tenant", "name"],
}
MOST = {"port": 65_535, "capacity": 4_096}


def host_of(text):
    """A host as it is kept: in small letters, or an IPv6 address in its one text; nothing for another text."""
    if re.fullmatch("[A-Za-z0-9.-]{1,253}", text):
        return text.lower()
    found = prefix_of(text)
    return str(found[1]) if found and "/" not in text and found[1].version == 6 else None


def number_of(text, most):
    return int(text) if re.fullmatch("[0-9]{1,19}", text) and 0 < int(text) <= most else None


def value_of(field, text):
    """What the text of a field says; nothing where it isn't of the field's form."""
    if field in ("tenant", "name"):
        return text if re.fullmatch("[a-z0-9-]{1,32}", text) else None
    if field == "right":
        return text if text in ("full", "read") else None
    if field == "token":
        return digest_of(text.encode()) if re.fullmatch("[!-~]{1,128}", text) else None
    if field == "right":
        return text if text in ("full", "read") else None
    if field == "digest":
        return bytes.fromhex(text) if re.fullmatch("[0-9A-Fa-f]{64}", text) else None
    if field == "key":
        return text if is_key(text) else None
    if field == "pool":
        return text if prefix_of(text) else None
    return host_of(text) if field == "host" else number_of(text, MOST[field])


def order_in(text):
    """The word and its fields, of the bytes that come; nothing where they are no order."""
    line, end, _ = text[:MOST_LINE].partition(b"\n")
    try:
        word, *texts = line.decode().split(" ") if end else [""]
    except UnicodeDecodeError:
        return None
    fields = FIELDS["token-grant RIGHT"] if word == "token-grant" and len(texts) == 3 else FIELDS.get(word, [])
    if word == "token-end" and len(texts) == 2 and texts[0] == "--digest":
        fields, texts = ["digest"], texts[1:]
    if word == "token-grant" and len(texts) == 3:
        fields = ["tenant", "right", "token"]
    if not fields or len(texts) != len(fields):
        return None
    return word, list(zip(fields, texts))


def answer_line(register, text):
    """The answer to these bytes, as which the service takes no more than a line."""
    order = order_in(text)
    if order is None:
        return b"2 bad_order\n"
    word, values = order[0], {}
    for field, given in order[1]:
        value = value_of(field, given)
        if value is None:
            return f"2 bad_field {field}\n".encode()
        values["digest" if field == "token" else field] = value
    why = getattr(register, word.replace("-", "_"))(**values)
    return f"2 {why}\n".encode() if why else b"0 done\n"
