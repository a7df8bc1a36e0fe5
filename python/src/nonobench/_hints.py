"""What an editor did to a certificate that is refused."""

from __future__ import annotations

from typing import Union

from ._answers import NonobenchError

# What a certificate that begins with these two bytes is.
_ODD_STARTS = {
    **dict.fromkeys((b"\xff\xfe", b"\xfe\xff", b"n\0", b"\0n"), "it is UTF-16, and must be ASCII"),
    b"\xef\xbb": "it begins with a byte order mark, and must begin with its first word",
}
_CR_LF = "its lines end with CR LF, and must end with LF only"


def hint_of(error: NonobenchError, certificate: Union[bytes, bytearray, memoryview]) -> str:
    """What an editor seems to have done to a certificate that was refused as NotCert, in a few
    words.

    Empty where there is no sign of that, and for another error.
    """
    if error.text != "certificate NotCert at line 1":
        return ""
    front = bytes(certificate[:64])
    return _ODD_STARTS.get(front[:2]) or (
        _CR_LF if front.split(b"\n", 1)[0].endswith(b"\r") else ""
    )
