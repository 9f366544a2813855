"""Whether a request and its reply are as docs/openapi.yaml describes them, by Debian's jsonschema, where it is there."""

import functools
import json
import re
from pathlib import Path

try:
    from jsonschema import Draft202012Validator
except ImportError:
    Draft202012Validator = None

# The file is JSON, which YAML contains, so that no other library has to read it.
PAGE = json.loads((Path(__file__).resolve().parent.parent / "docs" / "openapi.yaml").read_text())

# What is answered where the page has no such path or method.
GENERAL = {
    "400": "BadMessage",
    "404": "NoSuchPath",
    "405": "WrongMethod",
    "408": "TooSlow",
    "411": "LengthRequired",
    "413": "TooLarge",
    "503": "Unavailable",
}


def closed(value):
    """The page as it would be if no object could have other members than those it names; in replies it may have more."""
    if isinstance(value, list):
        return [closed(inner) for inner in value]
    if not isinstance(value, dict):
        return value
    own = {"additionalProperties": False} if value.get("type") == "object" and "properties" in value else {}
    return {name: closed(inner) for name, inner in value.items()} | own


CLOSED = closed(PAGE)


def follow(value):
    """What a reference refers to."""
    while "$ref" in value:
        found = PAGE
        for step in value["$ref"].removeprefix("#/").split("/"):
            found = found[step]
        value = found
    return value


@functools.cache
def validator(schema):
    # With the page's components in it, references lead to them.
    return Draft202012Validator({**json.loads(schema), "components": CLOSED["components"]})


def fits(schema, value):
    """Whether a value is of the schema, with no member that it doesn't name; without jsonschema, each is."""
    return Draft202012Validator is None or validator(json.dumps(closed(schema))).is_valid(value)


def examples(content):
    """The values of the examples of a reply or a body."""
    return [content["example"]] if "example" in content else [follow(example)["value"] for example in content["examples"].values()]


def operation(method, path):
    """What the page says of the method at the path; nothing where the path or the method isn't there."""
    for form, item in PAGE["paths"].items():
        if re.fullmatch(re.sub(r"\{[a-z]+\}", "[^/]+", form), path):
            # Methods are in capitals, so `get` is another one.
            return item.get(method.lower()) if method.isupper() else None
    return None


def described(method, path, status):
    """What the page says of such a reply."""
    found = operation(method, path)
    return follow(found["responses"][status]) if found else PAGE["components"]["responses"][GENERAL[status]]


def no_number(name):
    raise ValueError(f"{name} is no JSON")


def is_described(method, path, body):
    """Whether the page describes such a body for the method at the path. It is bytes, or is sent as JSON."""
    found = operation(method, path)
    if not found or "requestBody" not in found:
        return True
    ((kind, form),) = found["requestBody"]["content"].items()
    if kind != "application/json":
        return True
    try:
        value = json.loads(body, parse_constant=no_number) if isinstance(body, bytes) else body
    except ValueError:
        return False
    return fits(form["schema"], value)


def check(method, path, body, reply):
    """Raises where the page doesn't describe such a reply, or has another word on the request's body than the reply."""
    head, _, text = reply.partition(b"\r\n\r\n")
    first, *lines = head.decode().split("\r\n")
    status = first.split(" ")[1]
    fields = dict(line.split(": ", 1) for line in lines)
    form = described(method, path, status)
    content = form["content"][fields["Content-Type"]]
    value = json.loads(text) if fields["Content-Type"] == "application/json" else text.decode()
    assert fits(content["schema"], value), (method, path, reply)
    if status != "200":
        # A refusal has the members of its example.
        assert any(value["error"] == other["error"] and value.keys() == other.keys() for other in examples(content)), (method, path, reply)
    for name, header in form.get("headers", {}).items():
        assert name in fields or not header.get("required"), (method, path, reply)
        assert name not in fields or fits(header["schema"], fields[name]), (method, path, reply)
    if Draft202012Validator is not None:
        is_of_page = is_described(method, path, body)
        # The form of the body is checked behind the message and that there is a token, and before all else.
        assert is_of_page or status in ["400", "401", "411", "413", "503"], (method, path, body, reply)
        assert not is_of_page or value != {"error": "bad_field", "field": "body"}, (method, path, body, reply)
