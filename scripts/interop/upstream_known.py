"""The differences between h3 0.0.6 and ours that the cases of scripts/interop/upstream.py show. Each has a row in docs/DIFFERENCES.md: the
name here, and a test of a case, our answer and theirs, that asks what the bytes hold too, so that no other difference passes for it."""
from upstream_cases import Connection, Section, frames_of, how_read, is_reserved, is_varint, type_of

FRAME_ERROR, UNEXPECTED, CREATION, ID = "close H3_FRAME_ERROR", "close H3_FRAME_UNEXPECTED", "close H3_STREAM_CREATION_ERROR", "close H3_ID_ERROR"
MISSING, CRITICAL, MALFORMED = "close H3_MISSING_SETTINGS", "close H3_CLOSED_CRITICAL_STREAM", "stream H3_MESSAGE_ERROR"
FAILED, DECODER = "close QPACK_DECOMPRESSION_FAILED", "close QPACK_DECODER_STREAM_ERROR"


def of_line(*words):
    return lambda case: case.line.split(" ")[0] in words


is_settings, is_frame, is_stream = of_line("settings"), of_line("frame", "two_frames"), of_line("stream", "cuts")


def bytes_of(case):
    """the frames of a case: those of a stream of frames, or of its control stream and of its request stream"""
    if isinstance(case, Connection):
        return b"".join(data[1:] for id, data, _ in case.streams if data[:1] == b"\0" and id % 4 >= 2), case.request
    if isinstance(case, Section):
        return (b"",)
    word = case.line.split(" ")[-1]
    return (b"" if word == "-" else bytes.fromhex(word),)


def kinds(case):
    return [kind for data in bytes_of(case) for kind, _, _ in frames_of(data)]


def is_odd(kind, payload):
    """a payload that is not as long as what stands in it"""
    if kind == 4:
        while payload:
            id = is_varint(payload)
            value = is_varint(payload[id:]) if id else 0
            if not value:
                return True
            payload = payload[id + value:]
        return False
    length = is_varint(payload)
    return length == 0 if kind == 5 else kind in (3, 7, 0xD) and (length == 0 or length != len(payload))


def has_odd(case):
    return any(is_odd(kind, payload) for data in bytes_of(case) for kind, payload, is_whole in frames_of(data) if is_whole)


def ends_in_data(case):
    return any(kind == 0 and not is_whole for data in bytes_of(case) for kind, _, is_whole in frames_of(data))


def of_parts(test):
    """a test for cases of parts"""
    return lambda case, mine, theirs: not isinstance(case, (Section, Connection)) and test(case, mine, theirs)


def of_sections(test):
    return lambda case, mine, theirs: isinstance(case, Section) and test(case, mine, theirs)


def of_control(test):
    """a test for connections of which the streams beside that of the request are wild"""
    return lambda case, mine, theirs: isinstance(case, Connection) and not case.is_message and test(case, mine, theirs)


def of_messages(test):
    return lambda case, mine, theirs: isinstance(case, Connection) and case.is_message and test(case, mine, theirs)


# ---- parts

def other_length(case, mine, theirs):
    return has_odd(case) and ("frame is malformed" in mine if is_frame(case) else is_stream(case) and "refused payload" in mine)


def wanted(case, mine, theirs):
    return is_frame(case) and "frame incomplete" in mine and "frame incomplete" in theirs


def unused_places(case, mine, theirs):
    ids = case.line.split(" ")[2:]
    return is_settings(case) and "0" in ids and mine.split(" ") == ["None" if id == "0" else word for id, word in zip(ids + ["-"], theirs.split(" "))]


def known_end(case, mine, theirs):
    if not is_stream(case):
        return False
    return ends_in_data(case) and "unexpected end" in mine or 0x41 in kinds(case) and "payload over" in mine and "unexpected end" in theirs


# ---- sections

def padding(case, mine, theirs):
    return "HuffmanDecoding" in case.told[0] and how_read(case.data)[0] == "bad"


def long_integer(case, mine, theirs):
    return "Overflow" in case.told[0] and how_read(case.data)[0] == "bad"


def cut_line(case, mine, theirs):
    return "UnexpectedEnd" in mine and "HuffmanDecoding" in theirs and how_read(case.data)[0] == "short"


def path(case, mine, theirs):
    odd = [value for name, value in how_read(case.data)[1] if name == b":path" and value[:1] != b"/"]
    return mine.startswith('head invalid header value: ":path"') and len(odd) > 0


def quote(case, mine, theirs):
    return mine.startswith("head invalid header name") and any(b'"' in name for name in names(case.data))


def names(section):
    return [name for name, _ in how_read(section)[1]]


# ---- messages

def front(text):
    return text.rpartition("close ")[0]


def sections(case):
    return [payload for kind, payload, is_whole in frames_of(case.request) if kind == 1 and is_whole]


def code_of_sections(case, mine, theirs):
    return mine.endswith(FAILED) and theirs.endswith(DECODER) and front(mine) == front(theirs)


def strings_of_messages(case, mine, theirs):
    return mine.endswith(FAILED) and any(how_read(section)[0] == "bad" for section in sections(case))


def whole_size(case, mine, theirs):
    if mine.endswith(FAILED) and "too large " in theirs:
        return any(how_read(section)[0] != "whole" for section in sections(case))
    (first, _, size), (second, _, part) = mine.rpartition("too large "), theirs.rpartition("too large ")
    return first == second and size.isdigit() and part.isdigit() and 0 < int(part) < int(size)


def is_front(theirs, mine):
    """the same head, and a body of which the other has more, or as much"""
    (head, _, rest), (own, _, more) = theirs.partition(" | body "), mine.partition(" | body ")
    return head == own and more.startswith(rest.split(" | ")[0].replace("-", ""))


def empty_data(case, mine, theirs):
    return is_front(theirs, mine) and any(kind == 0 and is_whole and not payload for kind, payload, is_whole in frames_of(case.request))


def cut_payload(case, mine, theirs):
    same = theirs == "panic" or theirs.endswith(FRAME_ERROR) and theirs.split(" | ")[0] == mine.split(" | ")[0]
    return same and ends_in_data(case) and mine.endswith((FRAME_ERROR, "reset"))


def before_a_reset(case, mine, theirs):
    return case.last == "reset" and theirs.endswith("reset") and (theirs == "reset" or is_front(theirs, mine))


def pseudo_in_trailer(case, mine, theirs):
    trailers = sections(case)[1:]
    return mine.endswith("| " + MALFORMED) and "| trailer" in theirs and any(name[:1] == b":" for trailer in trailers for name in names(trailer))


def behind_a_trailer(case, mine, theirs):
    return len(sections(case)) > 1 and mine.endswith((MALFORMED, FAILED)) and theirs.endswith((UNEXPECTED, "pending"))


def quote_in_message(case, mine, theirs):
    return mine.endswith(MALFORMED) and any(b'"' in name for section in sections(case) for name in names(section))


def path_in_message(case, mine, theirs):
    fields = [field for section in sections(case)[:1] for field in how_read(section)[1]]
    return mine == MALFORMED and any(name == b":path" and value[:1] != b"/" for name, value in fields)


def no_head(case, mine, theirs):
    return mine == MALFORMED and theirs in ("close H3_REQUEST_INCOMPLETE", "close H3_GENERAL_PROTOCOL_ERROR") and 1 not in kinds(case)


def interim(case, mine, theirs):
    return mine.startswith("interim :status=1") and theirs.startswith(("response 1", "panic"))


def promise(case, mine, theirs):
    return mine.endswith(ID) and theirs.endswith(UNEXPECTED) and 5 in kinds(case)


def session(case, mine, theirs):
    return 0x41 in kinds(case) and theirs.endswith((UNEXPECTED, "panic"))


def other_side(case, mine, theirs):
    heads = sections(case)[:1]
    return mine == MALFORMED and any(name[:1] == b":" and (name == b":status") != (case.side == "client") for head in heads for name in names(head))


def lengths_in_messages(case, mine, theirs):
    return mine.endswith(FRAME_ERROR) and has_odd(case)


# ---- control streams and the like

def others(case):
    return [(data, last) for id, data, last in case.streams if id % 4 >= 2 and data[:1] != b"\0"]


def unknown_type(case, mine, theirs):
    known = (0, 1, 2, 3, 0x54)
    return theirs == CREATION and any(type_of(data) not in known + (None,) and (type_of(data) == 0x21 or not is_reserved(type_of(data))) for data, _ in others(case))


def no_type(case, mine, theirs):
    return theirs == CREATION and any(type_of(data) in (None, 1, 0x54) and last == "end" for data, last in others(case))


def order(case, mine, theirs):
    return theirs == CREATION and sum(data[:1] == b"\0" for id, data, _ in case.streams if id % 4 >= 2) > 1


def first_frame(case, mine, theirs):
    return mine == MISSING and kinds(case)[:1] != [4]


def cut_off(case, mine, theirs):
    return theirs == "reset" and any(last == "reset" for id, _, last in case.streams if id % 4 >= 2)


def unread(case, mine, theirs):
    own = any(data[:1] in (b"\2", b"\3") for data, _ in others(case))
    return own and mine in (CRITICAL, "close QPACK_ENCODER_STREAM_ERROR", "close QPACK_DECODER_STREAM_ERROR")


def pushes(case, mine, theirs):
    return mine in (ID, CREATION) and any(data[:1] == b"\1" for data, _ in others(case))


def push_ids(case, mine, theirs):
    return mine == ID and (3 in kinds(case) or case.side == "server" and 0xD in kinds(case))


def cut_frame(case, mine, theirs):
    return mine == CRITICAL and theirs == FRAME_ERROR


def lengths_in_control(case, mine, theirs):
    return mine == FRAME_ERROR and has_odd(case)


KNOWN = [
    ("settings: the places that are not used are seen", of_parts(unused_places)),
    ("frames: how many bytes are needed", of_parts(wanted)),
    ("frames: a payload of another length than its frame", of_parts(other_length)),
    ("streams of frames: a payload at the end of its stream", of_parts(known_end)),
    ("sections: a Huffman string with other padding", of_sections(padding)),
    ("sections: an integer of 2^63 or more", of_sections(long_integer)),
    ("sections: a line that is cut short after a bad string", of_sections(cut_line)),
    ("header sections: a path that does not begin with /", of_sections(path)),
    ("header sections: a name with a quote", of_sections(quote)),
    ("messages: the code for a section that can not be read", of_messages(code_of_sections)),
    ("messages: a string or an integer that is refused here", of_messages(strings_of_messages)),
    ("messages: the size of a section that is too large", of_messages(whole_size)),
    ("messages: a DATA frame without bytes ends the body", of_messages(empty_data)),
    ("messages: a payload that is cut short by the end", of_messages(cut_payload)),
    ("messages: what came before a reset", of_messages(before_a_reset)),
    ("messages: pseudo-header fields in a trailer", of_messages(pseudo_in_trailer)),
    ("messages: the frame after a trailer is read before the trailer", of_messages(behind_a_trailer)),
    ("messages: a path that does not begin with /", of_messages(path_in_message)),
    ("messages: a name with a quote", of_messages(quote_in_message)),
    ("messages: a pseudo-header field of the other side", of_messages(other_side)),
    ("messages: an end before the header section", of_messages(no_head)),
    ("messages: interim responses", of_messages(interim)),
    ("messages: a push that was not allowed", of_messages(promise)),
    ("messages: sessions of WebTransport", of_messages(session)),
    ("messages: a payload of another length than its frame", of_messages(lengths_in_messages)),
    ("streams: a type that is not known", of_control(unknown_type)),
    ("streams: an end before the type", of_control(no_type)),
    ("streams: a second control stream after another fault", of_control(order)),
    ("control: frames before SETTINGS", of_control(first_frame)),
    ("control: a control stream that is reset", of_control(cut_off)),
    ("control: a frame that is cut short by the end", of_control(cut_frame)),
    ("control: a payload of another length than its frame", of_control(lengths_in_control)),
    ("control: ids of pushes", of_control(push_ids)),
    ("streams: streams of pushes", of_control(pushes)),
    ("streams: what stands on an encoder and a decoder stream", of_control(unread)),
]
