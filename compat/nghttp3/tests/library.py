"""nghttp3's C interface by ctypes: Debian's library and the drop-in, side by side in one process. The environment says which: HEADER is
the path of nghttp3.h, NATIVE of Debian's library, OURS of the drop-in."""
import ctypes
import os
import re
from ctypes import POINTER, c_char_p, c_int, c_int32, c_int64, c_size_t, c_ssize_t, c_uint8, c_uint32, c_uint64, c_void_p

with open(os.environ["HEADER"], encoding="utf-8") as header:
    NUMBERS = {name: int(number, 0) for name, number in re.findall(r"^#define NGHTTP3_(\w+) (-?(?:0x)?[0-9a-f]+)$", header.read(), re.M)}
ERRORS = {number: name[4:] for name, number in NUMBERS.items() if name.startswith("ERR_")}
IS_VERSION_1 = "PRI_V1" in NUMBERS
IS_VERSION_1_17 = "CALLBACKS_V3" in NUMBERS
VERSION = "1.17" if IS_VERSION_1_17 else "1.8" if IS_VERSION_1 else "0.8"
SETTINGS_VERSION, CALLBACKS_VERSION = (4, 3) if IS_VERSION_1_17 else (1, 1)
WOULDBLOCK, END, NO_END_STREAM = NUMBERS["ERR_WOULDBLOCK"], 1, 2
NEVER_INDEX = 1  # NGHTTP3_NV_FLAG_NEVER_INDEX
NOT_FOUND, INVALID_ARGUMENT = NUMBERS["ERR_STREAM_NOT_FOUND"], NUMBERS["ERR_INVALID_ARGUMENT"]


class Vector(ctypes.Structure):
    _fields_ = [("base", c_void_p), ("length", c_size_t)]


class Field(ctypes.Structure):
    _fields_ = [("name", c_char_p), ("value", c_char_p), ("name_length", c_size_t), ("value_length", c_size_t), ("flags", c_uint8)]


class Settings(ctypes.Structure):
    _fields_ = [("section", c_uint64), ("table", c_size_t), ("encoder_table", c_size_t), ("blocked", c_size_t),
                *([("connect", c_uint8), ("datagram", c_uint8)] if IS_VERSION_1 else [("connect", c_int)]),
                *([("origins", POINTER(Vector)), ("burst", c_uint64), ("rate", c_uint64), ("strategy", c_int)] if IS_VERSION_1_17 else [])]


class ProtocolSettings(ctypes.Structure):
    _fields_ = [("section", c_uint64), ("table", c_size_t), ("blocked", c_size_t), ("connect", c_uint8), ("datagram", c_uint8)]


class Priority(ctypes.Structure):
    _fields_ = [("urgency", c_uint32), ("incremental", c_uint8 if IS_VERSION_1 else c_int)]


class Info(ctypes.Structure):
    _fields_ = [("age", c_int), ("number", c_int), ("text", c_char_p)]


def callback(*arguments):
    return ctypes.CFUNCTYPE(c_int, c_void_p, *arguments)


ONE = callback(c_int64, c_void_p, c_void_p)
WITH_CODE = callback(c_int64, c_uint64, c_void_p, c_void_p)
WITH_SIZE = callback(c_int64, c_size_t, c_void_p, c_void_p)
WITH_END = callback(c_int64, c_int, c_void_p, c_void_p)
DATA = callback(c_int64, c_void_p, c_size_t, c_void_p, c_void_p)
FIELD = callback(c_int64, c_int32, c_void_p, c_void_p, c_uint8, c_void_p, c_void_p)
SHUTDOWN = callback(c_int64, c_void_p)
SETTINGS = callback(POINTER(Settings), c_void_p)
SETTINGS_2 = callback(POINTER(ProtocolSettings), c_void_p)
READ = ctypes.CFUNCTYPE(c_ssize_t, c_void_p, c_int64, POINTER(Vector), c_size_t, POINTER(c_uint32), c_void_p, c_void_p)


class Callbacks(ctypes.Structure):
    _fields_ = [("acked", WITH_CODE), ("close", WITH_CODE), ("data", DATA), ("consume", WITH_SIZE), ("begin_headers", ONE),
                ("header", FIELD), ("end_headers", WITH_END), ("begin_trailers", ONE), ("trailer", FIELD), ("end_trailers", WITH_END),
                ("stop", WITH_CODE), ("end_stream", ONE), ("reset", WITH_CODE), ("shutdown", SHUTDOWN),
                *([("settings", SETTINGS)] if IS_VERSION_1 else []),
                *([("origin", c_void_p), ("end_origin", c_void_p), ("rand", c_void_p)] if IS_VERSION_1_17 else []),
                *([("settings_2", SETTINGS_2)] if IS_VERSION_1_17 else [])]


class Reader(ctypes.Structure):
    _fields_ = [("read", READ)]


NEW = [POINTER(c_void_p), c_int, POINTER(Callbacks), c_int, POINTER(Settings), c_void_p, c_void_p]
STREAM = [c_void_p, c_int64]
FIELDS = [*STREAM, POINTER(Field), c_size_t]
CALLS = {
    "version": (POINTER(Info), [c_int]),
    "conn_client_new_versioned": (c_int, NEW), "conn_server_new_versioned": (c_int, NEW), "conn_del": (None, [c_void_p]),
    "settings_default_versioned": (None, [c_int, POINTER(Settings)]),
    "conn_bind_control_stream": (c_int, STREAM), "conn_bind_qpack_streams": (c_int, [*STREAM, c_int64]),
    "conn_read_stream": (c_ssize_t, [*STREAM, c_char_p, c_size_t, c_int]),
    "conn_writev_stream": (c_ssize_t, [c_void_p, POINTER(c_int64), POINTER(c_int), POINTER(Vector), c_size_t]),
    "conn_add_write_offset": (c_int, [*STREAM, c_size_t]), "conn_add_ack_offset": (c_int, [*STREAM, c_uint64]),
    "conn_update_ack_offset": (c_int, [*STREAM, c_uint64]), "conn_block_stream": (None, STREAM), "conn_unblock_stream": (c_int, STREAM),
    "conn_is_stream_writable": (c_int, STREAM), "conn_resume_stream": (c_int, STREAM), "conn_close_stream": (c_int, [*STREAM, c_uint64]),
    "conn_shutdown_stream_write": (None, STREAM), "conn_shutdown_stream_read": (c_int, STREAM),
    "conn_submit_request": (c_int, [*FIELDS, POINTER(Reader), c_void_p]), "conn_submit_response": (c_int, [*FIELDS, POINTER(Reader)]),
    "conn_submit_info": (c_int, FIELDS), "conn_submit_trailers": (c_int, FIELDS), "conn_set_stream_user_data": (c_int, [*STREAM, c_void_p]),
    "conn_get_frame_payload_left": (c_uint64, STREAM), "conn_get_frame_payload_left2": (c_uint64, STREAM),
    "conn_submit_shutdown_notice": (c_int, [c_void_p]), "conn_shutdown": (c_int, [c_void_p]), "conn_is_drained": (c_int, [c_void_p]),
    "conn_set_max_client_streams_bidi": (None, [c_void_p, c_uint64]), "conn_set_max_concurrent_streams": (None, [c_void_p, c_size_t]),
    "conn_get_stream_priority_versioned": (c_int, [c_void_p, c_int, POINTER(Priority), c_int64]),
    "conn_set_server_stream_priority_versioned": (c_int, [*STREAM, c_int, POINTER(Priority)]),
    "conn_set_client_stream_priority": (c_int, [*STREAM, c_char_p, c_size_t]),
    "pri_parse_priority_versioned": (c_int, [c_int, POINTER(Priority), c_char_p, c_size_t]),
    "conn_get_stream_priority": (c_int, [c_void_p, POINTER(Priority), c_int64]),
    "conn_set_stream_priority": (c_int, [*STREAM, POINTER(Priority)]), "conn_is_remote_qpack_encoder_stream": (c_int, STREAM),
    "http_parse_priority": (c_int, [POINTER(Priority), c_char_p, c_size_t]),
    "strerror": (c_char_p, [c_int]), "err_infer_quic_app_error_code": (c_uint64, [c_int]), "err_is_fatal": (c_int, [c_int]),
    "check_header_name": (c_int, [c_char_p, c_size_t]), "check_header_value": (c_int, [c_char_p, c_size_t]),
    "vec_len": (c_uint64, [POINTER(Vector), c_size_t]),
    "conn_read_stream2": (c_ssize_t, [*STREAM, c_char_p, c_size_t, c_int, c_uint64]), "conn_is_stream_flushed": (c_int, STREAM),
    "conn_is_stream_writable2": (c_int, STREAM), "conn_get_stream_user_data": (c_void_p, STREAM), "conn_is_drained2": (c_int, [c_void_p]),
    "conn_get_stream_priority2_versioned": (c_int, [c_void_p, c_int, POINTER(Priority), c_int64]),
    "get_uvarint": (c_void_p, [POINTER(c_uint64), c_char_p]), "get_varint": (c_void_p, [POINTER(c_int64), c_char_p]),
    "get_uvarintlen": (c_size_t, [c_char_p]), "put_uvarint": (c_void_p, [c_char_p, c_uint64]), "put_uvarintlen": (c_size_t, [c_uint64]),
    "rcbuf_get_buf": (Vector, [c_void_p]), "rcbuf_incref": (None, [c_void_p]), "rcbuf_decref": (None, [c_void_p]),
}
OF_0_8 = {"conn_get_stream_priority", "conn_set_stream_priority", "http_parse_priority", "conn_is_remote_qpack_encoder_stream"}
OF_1_8 = {"conn_update_ack_offset", "conn_is_drained", "conn_get_stream_priority_versioned", "conn_set_server_stream_priority_versioned",
          "conn_set_client_stream_priority", "pri_parse_priority_versioned"}
OF_1_17 = {"conn_read_stream2", "conn_is_stream_flushed", "conn_is_stream_writable2", "conn_get_stream_user_data", "conn_is_drained2",
           "conn_get_stream_priority2_versioned", "conn_get_frame_payload_left2", "get_uvarint", "get_varint", "get_uvarintlen", "put_uvarint", "put_uvarintlen"}
NOT_THERE = (OF_0_8 if IS_VERSION_1 else OF_1_8) | (set() if IS_VERSION_1_17 else OF_1_17)


def error_name(number):
    return ERRORS.get(number, str(number))


class Library:
    """The calls of one shared library, without the prefix nghttp3_ (and conn_)."""

    def __init__(self, name, path):
        self.name = name
        self.shared = ctypes.CDLL(path)
        for call, (result, arguments) in CALLS.items():
            if call not in NOT_THERE:
                function = getattr(self.shared, f"nghttp3_{call}")
                function.restype, function.argtypes = result, arguments
                setattr(self, call.removeprefix("conn_").removesuffix("_versioned"), function)

    def bytes_of(self, buffer):
        vector = self.rcbuf_get_buf(buffer)
        found = ctypes.string_at(vector.base, vector.length + 1)
        assert found[-1] == 0, "no NUL after the buffer"
        return found[:-1]

    def get_priority(self, connection, stream):
        priority = Priority()
        arguments = [connection, 1, priority, stream] if IS_VERSION_1 else [connection, priority, stream]
        error = self.get_stream_priority(*arguments)
        return error_name(error) if error else (priority.urgency, priority.incremental)

    def set_priority(self, connection, stream, urgency, incremental):
        priority = Priority(urgency, incremental)
        if IS_VERSION_1:
            return error_name(self.set_server_stream_priority(connection, stream, 1, priority))
        return error_name(self.set_stream_priority(connection, stream, priority))

    def parse_priority(self, value, start):
        priority = Priority(*start)
        arguments = [priority, value, len(value)]
        error = self.pri_parse_priority(1, *arguments) if IS_VERSION_1 else self.http_parse_priority(*arguments)
        return error_name(error) if error else (priority.urgency, priority.incremental)


def libraries():
    found = Library("nghttp3", os.environ["NATIVE"]), Library("ours", os.environ["OURS"])
    assert b"beanwhile" not in found[0].version(0)[0].text and b"beanwhile" in found[1].version(0)[0].text
    return found


def pairs(found):
    return [(client, server) for client in found for server in found]


def field_array(fields):
    array = (Field * max(1, len(fields)))()
    for index, (name, value, *flags) in enumerate(fields):
        array[index] = Field(name, value, len(name), len(value), *flags or [0])
    return array


class Connection:
    """One connection. Each callback is told by say(kind, stream, ..), and then by on[kind](connection, stream), where `on` has its kind"""

    def __init__(self, library, is_server, say, on=None, versions=(CALLBACKS_VERSION, SETTINGS_VERSION), **settings):
        self.library, self.is_server, self.say, self.on = library, is_server, say, on or {}
        self.readers, self.kept = [], []
        self.callbacks = self.make_callbacks()
        limits = Settings()
        library.settings_default(versions[1], limits)
        for name, value in settings.items():
            setattr(limits, name, value)
        if IS_VERSION_1_17 and versions == (1, 1):  # what follows the structs of 1.8 is nothing that may be read
            for struct, end in ((self.callbacks, Callbacks.origin.offset), (limits, Settings.origins.offset)):
                ctypes.memset(ctypes.addressof(struct) + end, 0xAA, ctypes.sizeof(struct) - end)
        place = c_void_p()
        new = library.server_new if is_server else library.client_new
        error = new(ctypes.byref(place), versions[0], self.callbacks, versions[1], limits, None, None)
        assert error == 0, error_name(error)
        self.at = place
        control, encoder, decoder = (3, 7, 11) if is_server else (2, 6, 10)
        assert library.bind_control_stream(self.at, control) == 0
        assert library.bind_qpack_streams(self.at, encoder, decoder) == 0

    def tell(self, kind, *what):
        self.say(kind, *what)
        if kind in self.on:
            self.on[kind](self, what[0])
        return 0

    def make_callbacks(self):
        tell, of = self.tell, self.library.bytes_of

        def two(kind):
            return lambda _, stream, number, *data: tell(kind, stream, number)

        def one(kind):
            return lambda _, stream, *data: tell(kind, stream)

        def field(kind):
            return lambda _, stream, token, name, value, flags, *data: tell(kind, stream, token, of(name), of(value), flags)

        def body(_, stream, at, length, *data):
            return tell("data", stream, ctypes.string_at(at, length))

        def settings(_, at, *data):
            it = at[0]
            return tell("settings", (it.section, it.table, it.blocked, it.connect, it.datagram))

        def settings_2(_, at, *data):
            it = at[0]
            self.on["settings_2"](self, (it.section, it.table, it.blocked, it.connect, it.datagram))
            return 0

        calls = [WITH_CODE(two("acked")), WITH_CODE(two("close")), DATA(body), WITH_SIZE(two("consume")), ONE(one("begin_headers")),
                 FIELD(field("header")), WITH_END(two("end_headers")), ONE(one("begin_trailers")), FIELD(field("trailer")),
                 WITH_END(two("end_trailers")), WITH_CODE(two("stop")), ONE(one("end_stream")), WITH_CODE(two("reset")),
                 SHUTDOWN(lambda _, id_, *data: tell("shutdown", id_))]
        calls.extend([SETTINGS(settings)] if IS_VERSION_1 else [])
        return Callbacks(*calls, *([None, None, None, SETTINGS_2(settings_2 if "settings_2" in self.on else 0)] if IS_VERSION_1_17 else []))

    def read(self, stream, data, is_end=False):
        return self.library.read_stream(self.at, stream, data, len(data), is_end)

    def write(self, room=16):
        """what is to be sent: a number of vectors or an error, the stream, whether its end is among them, the bytes"""
        stream, is_end, vectors = c_int64(), c_int(), (Vector * room)()
        count = self.library.writev_stream(self.at, stream, is_end, vectors, room)
        if count < 0:
            return count, -1, 0, b""
        return count, stream.value, is_end.value, b"".join(ctypes.string_at(it.base, it.length) for it in vectors[:count])

    def reader(self, source):
        """source(stream) answers a list of pieces and flags, or a negative number"""

        def read(_, stream, vectors, room, flags, *data):
            answer = source(stream)
            if isinstance(answer, int):
                return answer
            pieces, flags[0] = answer
            for index, piece in enumerate(pieces):
                buffer = ctypes.create_string_buffer(piece, len(piece))
                self.kept.append(buffer)
                vectors[index] = Vector(ctypes.cast(buffer, c_void_p), len(piece))
            return len(pieces)

        self.readers.append(Reader(READ(read)))
        return self.readers[-1]

    def request(self, stream, fields, reader=None):
        return self.library.submit_request(self.at, stream, field_array(fields), len(fields), reader, None)

    def respond(self, stream, fields, reader=None):
        return self.library.submit_response(self.at, stream, field_array(fields), len(fields), reader)

    def inform(self, stream, fields):
        return self.library.submit_info(self.at, stream, field_array(fields), len(fields))

    def trail(self, stream, fields):
        return self.library.submit_trailers(self.at, stream, field_array(fields), len(fields))

    def free(self):
        getattr(self.library, "del")(self.at)


def check(error, what=""):
    """refuses an error of a call that has to succeed"""
    assert error >= 0, f"{what} {error_name(error)}"
    return error
