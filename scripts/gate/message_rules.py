"""Of the rules of messages those that scripts of scripts/gate/memory_schedules.py break, by the standards, each with the name that the program has for it.

`broken` says which rule the next part of a message breaks, where a side asks for strict messages; `counted` is what such a side then has left of the
content that the header section announced. A part is a list of fields (`head`, `trailer`), the `content` of one DATA frame by its length, or the `end`. The model of an endpoint
(scripts/gate/independent_model.py) has no rules of messages, and all of them are asked by scripts/gate/strict_messages.py.
"""
from independent_model import HEADERS
from independent_qpack import Reader, Short

CONNECTION_FIELDS = {b"connection", b"keep-alive", b"proxy-connection", b"transfer-encoding", b"upgrade"}


def of_list(fields):
    names = {name for name, _ in fields}
    if names & CONNECTION_FIELDS:  # RFC 9114, 4.2
        return "ConnectionField"
    return "MissingPseudo" if b":method" in names and b":path" not in names else None  # RFC 9114, 4.3.1


def broken(left, kind, what):
    """the rule that this part breaks, or None; `left` is None where the header section says no length (RFC 9114, 4.1.2)"""
    if left is not None and (what > left if kind == "content" else kind != "head" and left > 0):
        return "ContentLength"
    return of_list(what) if kind in ("head", "trailer") else None


def counted(left, kind, what):
    """what is left of the announced content behind this part"""
    if kind == "head":
        said = dict(what).get(b"content-length")
        return None if said is None else int(said)
    return left - what if kind == "content" and left is not None else left


def is_too_long(stream, limit):
    """whether the frame that comes next on a stream is a HEADERS frame above the limit on what is unfinished (RFC 9114, 10.5): its type and its length tell it"""
    if stream is None or stream.payload or stream.section is not None:
        return False
    reader = Reader(stream.unread())
    try:
        return reader.varint() == HEADERS and reader.varint() > limit
    except Short:
        return False
