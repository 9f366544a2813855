"""Texts of public keys."""

import base64


def key_text(key):
    return base64.b64encode(key).decode()


# 32 bytes 0, 1, 2 or 3.
K0, K1, K2, K3 = (key_text(bytes([byte]) * 32) for byte in range(4))


def numbered_keys(count):
    """Keys that begin with a number of 4 bytes, from 1 on, and then zeros."""
    return [key_text(number.to_bytes(4, "big") + bytes(28)) for number in range(1, count + 1)]
