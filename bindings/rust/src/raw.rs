//! The exports of the library, as `beanwhile/h3.h` declares them. `scripts/gate/c_header.py` of the repository compares the structs.

/// The handle: one pointer that only the library reads.
#[repr(C)]
#[derive(Clone, Copy)]
pub(crate) struct Handle {
    pub(crate) at: *mut u8,
}

#[repr(C)]
#[derive(Default, Clone, Copy)]
pub(crate) struct FieldSize {
    pub(crate) name: u32,
    pub(crate) value: u32,
}

#[repr(C)]
#[derive(Debug, Default, Clone, Copy)]
pub(crate) struct RawItem {
    pub(crate) kind: u32,
    pub(crate) status: u32,
    pub(crate) number: u64,
    pub(crate) fields: usize,
    pub(crate) len: usize,
}

#[repr(C)]
#[derive(Default)]
pub(crate) struct RawStream {
    pub(crate) waiting: u64,
    pub(crate) unread: u64,
    pub(crate) has_outgoing: u32,
    pub(crate) is_finished: u32,
    pub(crate) is_reset: u32,
    pub(crate) tries: u32,
}

#[repr(C)]
#[derive(Default)]
pub(crate) struct RawConnection {
    pub(crate) sending_table: u64,
    pub(crate) receiving_table: u64,
    pub(crate) waiting_heads: u64,
    pub(crate) sent: u64,
    pub(crate) goaway: u64,
    pub(crate) peer_table: u64,
    pub(crate) peer_blocked: u64,
    pub(crate) peer_section: u64,
    pub(crate) has_goaway: u32,
    pub(crate) has_settings: u32,
}

#[repr(C)]
#[derive(Debug, Default, Clone, Copy)]
pub(crate) struct RawReader {
    pub(crate) head_low: u64,
    pub(crate) head_high: u64,
    pub(crate) head_len: u64,
    pub(crate) left: u64,
    pub(crate) is_at_end: u64,
}

#[repr(C)]
#[derive(Default)]
pub(crate) struct RawCapsule {
    pub(crate) part: u64,
    pub(crate) capsule_type: u64,
    pub(crate) length: u64,
}

#[rustfmt::skip]
extern "C" {
    pub(crate) fn h3_raw_version() -> u32;
    pub(crate) fn h3_raw_priority_read(value: *const u8, len: usize, urgency: *mut u32, incremental: *mut u32) -> u32;
    pub(crate) fn h3_raw_read_capsule(reader: *mut RawReader, bytes: *const u8, len: usize, used: *mut usize, capsule: *mut RawCapsule) -> u32;
    pub(crate) fn h3_raw_capsule_ends(reader: *const RawReader, ends: *mut u32) -> u32;
    pub(crate) fn h3_raw_capsule_head(capsule_type: u64, length: u64, buffer: *mut u8, room: usize, n: *mut usize) -> u32;
    pub(crate) fn h3_raw_config_default(numbers: *mut u64, count: usize);
    pub(crate) fn h3_raw_new(numbers: *const u64, count: usize, detail: *mut u64, out: *mut Handle) -> u32;
    pub(crate) fn h3_raw_new_resumed(numbers: *const u64, count: usize, further: *const u64, further_count: usize, remembered: *const u8, len: usize, detail: *mut u64, out: *mut Handle) -> u32;
    pub(crate) fn h3_raw_remember_settings(endpoint: Handle, buffer: *mut u8, room: usize, n: *mut usize, out: *mut Handle) -> u32;
    pub(crate) fn h3_raw_settings_kept(endpoint: Handle, remembered: *const u8, len: usize, kept: *mut u32, out: *mut Handle) -> u32;
    pub(crate) fn h3_raw_new_with(numbers: *const u64, count: usize, further: *const u64, further_count: usize, detail: *mut u64, out: *mut Handle) -> u32;
    pub(crate) fn h3_raw_free(endpoint: Handle);
    pub(crate) fn h3_raw_open_request(endpoint: Handle, id: *mut u64, detail: *mut u64, out: *mut Handle) -> u32;
    pub(crate) fn h3_raw_next_request_id(endpoint: Handle, id: *mut u64, detail: *mut u64, out: *mut Handle) -> u32;
    pub(crate) fn h3_raw_open_request_at(endpoint: Handle, id: u64, detail: *mut u64, out: *mut Handle) -> u32;
    pub(crate) fn h3_raw_send_head(endpoint: Handle, id: u64, sizes: *const FieldSize, count: usize, flags: *const u8, flags_count: usize, bytes: *const u8, len: usize, detail: *mut u64, out: *mut Handle) -> u32;
    pub(crate) fn h3_raw_send_trailer(endpoint: Handle, id: u64, sizes: *const FieldSize, count: usize, flags: *const u8, flags_count: usize, bytes: *const u8, len: usize, detail: *mut u64, out: *mut Handle) -> u32;
    pub(crate) fn h3_raw_send_body(endpoint: Handle, id: u64, bytes: *const u8, len: usize, detail: *mut u64, out: *mut Handle) -> u32;
    pub(crate) fn h3_raw_send_body_of(endpoint: Handle, id: u64, len: usize, detail: *mut u64, out: *mut Handle) -> u32;
    pub(crate) fn h3_raw_finish(endpoint: Handle, id: u64, detail: *mut u64, out: *mut Handle) -> u32;
    pub(crate) fn h3_raw_reset(endpoint: Handle, id: u64, detail: *mut u64, out: *mut Handle) -> u32;
    pub(crate) fn h3_raw_cancel(endpoint: Handle, id: u64, detail: *mut u64, out: *mut Handle) -> u32;
    pub(crate) fn h3_raw_close_stream(endpoint: Handle, id: u64, stop_sending: *mut u32, reset_stream: *mut u32, detail: *mut u64, out: *mut Handle) -> u32;
    pub(crate) fn h3_raw_open_session_stream(endpoint: Handle, session: u64, both_ways: u32, id: *mut u64, detail: *mut u64, out: *mut Handle) -> u32;
    pub(crate) fn h3_raw_send_raw(endpoint: Handle, id: u64, bytes: *const u8, len: usize, detail: *mut u64, out: *mut Handle) -> u32;
    pub(crate) fn h3_raw_next_of_session(endpoint: Handle, session: u64, from: u64, id: *mut u64, out: *mut Handle) -> u32;
    pub(crate) fn h3_raw_webtransport_code(number: u32) -> u64;
    pub(crate) fn h3_raw_webtransport_number(code: u64, number: *mut u32) -> u32;
    pub(crate) fn h3_raw_goaway(endpoint: Handle, id: u64, detail: *mut u64, out: *mut Handle) -> u32;
    pub(crate) fn h3_raw_shutdown_notice(endpoint: Handle, detail: *mut u64, out: *mut Handle) -> u32;
    pub(crate) fn h3_raw_shutdown(endpoint: Handle, detail: *mut u64, out: *mut Handle) -> u32;
    pub(crate) fn h3_raw_first_unseen(endpoint: Handle, id: *mut u64, out: *mut Handle) -> u32;
    pub(crate) fn h3_raw_is_drained(endpoint: Handle, drained: *mut u32, out: *mut Handle) -> u32;
    pub(crate) fn h3_raw_next_to_send(endpoint: Handle, from: u64, id: *mut u64, out: *mut Handle) -> u32;
    pub(crate) fn h3_raw_next_by_priority(endpoint: Handle, id: *mut u64, out: *mut Handle) -> u32;
    pub(crate) fn h3_raw_set_initial_priority(endpoint: Handle, id: u64, urgency: u32, incremental: u32, detail: *mut u64, out: *mut Handle) -> u32;
    pub(crate) fn h3_raw_send_priority(endpoint: Handle, id: u64, urgency: u32, incremental: u32, detail: *mut u64, out: *mut Handle) -> u32;
    pub(crate) fn h3_raw_priority(endpoint: Handle, id: u64, urgency: *mut u32, incremental: *mut u32, out: *mut Handle) -> u32;
    pub(crate) fn h3_raw_set_priority(endpoint: Handle, id: u64, urgency: u32, incremental: u32, detail: *mut u64, out: *mut Handle) -> u32;
    pub(crate) fn h3_raw_hold(endpoint: Handle, id: u64, held: u32, detail: *mut u64, out: *mut Handle) -> u32;
    pub(crate) fn h3_raw_outgoing(endpoint: Handle, id: u64, buffer: *mut u8, room: usize, n: *mut usize, past: *mut usize, fin: *mut u32, out: *mut Handle) -> u32;
    pub(crate) fn h3_raw_advance(endpoint: Handle, id: u64, n: usize, out: *mut Handle) -> u32;
    pub(crate) fn h3_raw_end_taken(endpoint: Handle, id: u64, out: *mut Handle) -> u32;
    pub(crate) fn h3_raw_deliver(endpoint: Handle, id: u64, bytes: *const u8, len: usize, detail: *mut u64, out: *mut Handle) -> u32;
    pub(crate) fn h3_raw_deliver_end(endpoint: Handle, id: u64, detail: *mut u64, out: *mut Handle) -> u32;
    pub(crate) fn h3_raw_deliver_reset(endpoint: Handle, id: u64, code: u64, detail: *mut u64, out: *mut Handle) -> u32;
    pub(crate) fn h3_raw_pull(endpoint: Handle, id: u64, item: *mut RawItem, out: *mut Handle) -> u32;
    pub(crate) fn h3_raw_read(endpoint: Handle, id: u64, bytes: *const u8, len: usize, fin: u32, used: *mut usize, item: *mut RawItem, detail: *mut u64, out: *mut Handle) -> u32;
    pub(crate) fn h3_raw_next_unblocked(endpoint: Handle, from: u64, id: *mut u64, out: *mut Handle) -> u32;
    pub(crate) fn h3_raw_item_fields(endpoint: Handle, sizes: *mut FieldSize, most: usize, flags: *mut u8, flags_most: usize, bytes: *mut u8, room: usize, out: *mut Handle) -> u32;
    pub(crate) fn h3_raw_item_bytes(endpoint: Handle, from: usize, buffer: *mut u8, room: usize, n: *mut usize, out: *mut Handle) -> u32;
    pub(crate) fn h3_raw_datagram_head(endpoint: Handle, id: u64, buffer: *mut u8, room: usize, n: *mut usize, detail: *mut u64, out: *mut Handle) -> u32;
    pub(crate) fn h3_raw_read_datagram(endpoint: Handle, bytes: *const u8, len: usize, id: *mut u64, from: *mut usize, detail: *mut u64, out: *mut Handle) -> u32;
    pub(crate) fn h3_raw_stream(endpoint: Handle, id: u64, state: *mut RawStream, out: *mut Handle) -> u32;
    pub(crate) fn h3_raw_frame_left(endpoint: Handle, id: u64, left: *mut u64, out: *mut Handle) -> u32;
    pub(crate) fn h3_raw_stream_kind(endpoint: Handle, id: u64, kind: *mut u32, out: *mut Handle) -> u32;
    pub(crate) fn h3_raw_other_type(endpoint: Handle, id: u64, number: *mut u64, out: *mut Handle) -> u32;
    pub(crate) fn h3_raw_connection(endpoint: Handle, state: *mut RawConnection, out: *mut Handle) -> u32;
    pub(crate) fn h3_raw_next_event(endpoint: Handle, kind: *mut u32, number: *mut u64, out: *mut Handle) -> u32;
    pub(crate) fn h3_raw_peer_setting(endpoint: Handle, setting: u64, value: *mut u64, out: *mut Handle) -> u32;
}
