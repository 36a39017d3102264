"""Keys and certifications that are made packet by packet (RFC 9580), also as gpg doesn't make them: a certification may name any fingerprint as its
issuer's, a trust signature may have any regular expression, and a certification that can't be revoked may have a revocation.

It needs Python's `cryptography`.
"""
import hashlib
import struct

try:
    from cryptography.hazmat.primitives.asymmetric.ed25519 import Ed25519PrivateKey
    from cryptography.hazmat.primitives.serialization import Encoding, PublicFormat
except ImportError:
    Ed25519PrivateKey = None

MADE = 1600000000
ED25519 = bytes.fromhex("092b06010401da470f01")


def packet(tag, body):
    return bytes([0xC0 | tag, 255]) + struct.pack(">I", len(body)) + body


def number(value):
    """A number as packets hold it."""
    value = value.lstrip(b"\0")
    return struct.pack(">H", 8 * len(value) - (8 - value[0].bit_length())) + value


def subpacket(kind, body):
    size = len(body) + 1
    return (bytes([size]) if size < 192 else bytes([192 + (size - 192 >> 8), size - 192 & 255])) + bytes([kind]) + body


def trust_signature(depth, amount, expression):
    """What makes a certification a trust signature with a scope."""
    return subpacket(5, bytes([depth, amount])) + subpacket(6, expression.encode() + b"\0")


def expiring(seconds):
    """What makes a certification expire so long after its date."""
    return subpacket(3, struct.pack(">I", seconds))


def image(size):
    """An attribute with one image of so many bytes, all zero."""
    return subpacket(1, struct.pack("<HBB", 16, 1, 1) + bytes(12 + size))


NON_REVOCABLE = subpacket(7, b"\0")


class Key:
    """A key with one user ID, made of a seed. The user ID is a text, or the bytes of an attribute."""

    def __init__(self, seed, user):
        self.secret = Ed25519PrivateKey.from_private_bytes(hashlib.sha256(seed).digest())
        point = b"\x40" + self.secret.public_key().public_bytes(Encoding.Raw, PublicFormat.Raw)
        self.body = struct.pack(">BIB", 4, MADE, 22) + ED25519 + number(point)
        self.hashed = b"\x99" + struct.pack(">H", len(self.body)) + self.body
        self.fingerprint = hashlib.sha1(self.hashed).digest()
        self.tag, self.mark, self.user = (13, b"\xb4", user.encode()) if isinstance(user, str) else (17, b"\xd1", user)

    def signature(self, by, kind=0x10, made=MADE, named=None, more=b""):
        """The signature on the user ID by a key, which names its own fingerprint or another's."""
        parts = subpacket(2, struct.pack(">I", made)) + subpacket(33, b"\4" + (named or by.fingerprint)) + more
        if by is self:
            parts += subpacket(27, b"\3")
        head = struct.pack(">BBBBH", 4, kind, 22, 8, len(parts)) + parts
        trailer = self.mark + struct.pack(">I", len(self.user)) + self.user + head + b"\4\xff" + struct.pack(">I", len(head))
        digest = hashlib.sha256(self.hashed + trailer).digest()
        issuer = subpacket(16, by.fingerprint[-8:])
        signed = by.secret.sign(digest)
        return packet(2, head + struct.pack(">H", len(issuer)) + issuer + digest[:2] + number(signed[:32]) + number(signed[32:]))

    def block(self, *signatures):
        """The key, its user ID, the signature by itself and others."""
        return packet(6, self.body) + packet(self.tag, self.user) + self.signature(self, 0x13) + b"".join(signatures)
