use crate::raw;

/// How many numbers `h3_config` has: its size, and those of [`Config`].
pub(crate) const NUMBERS: usize = 26;

/// What an endpoint is and announces, as `h3_config`.
///
/// Later versions may add fields, so it is begun with [`Config::client`] or [`Config::server`], and its fields are set then:
///
/// ```
/// let mut config = beanwhile_h3::Config::server();
/// config.max_field_section_size = 16_384;
/// ```
#[derive(Debug, Clone, Copy, PartialEq, Eq)]
#[non_exhaustive]
pub struct Config {
    /// This side accepted the connection.
    pub server: bool,
    /// The greatest header or trailer section that is taken, in bytes (RFC 9114, section 4.2.2).
    pub max_field_section_size: u64,
    /// Capacity of the local decoder's dynamic table in bytes; 0: none.
    pub table: u64,
    /// How many streams may wait for its insertions.
    pub blocked: u64,
    /// The most bytes that the dynamic table of the local encoder has (RFC 9204, section 3.2.3); 0: it uses none.
    pub encoder_table: u64,
    /// The local encoder's table does not freeze and keeps out what never comes again; it serves also if the peer lets no stream wait.
    pub economical_table: bool,
    /// Messages are judged by all of RFC 9114, sections 4.1.2 and 4.2 to 4.5.
    pub strict: bool,
    /// An acknowledgment tells the encoder of insertions (RFC 9204, section 2.1.4).
    pub count_acknowledgments: bool,
    /// A reserved setting is sent (RFC 9114, section 7.2.4.1): the one that `grease` says, a random number below 0x210842108421083.
    pub send_grease: bool,
    /// Which one, with `send_grease`.
    pub grease: u64,
    /// Extended CONNECT (RFC 9220) is announced.
    pub extended_connect: bool,
    /// HTTP datagrams (RFC 9297) are announced.
    pub datagram: bool,
    /// WebTransport is announced.
    pub webtransport: bool,
    /// How many sessions of it may be open.
    pub max_webtransport_sessions: u64,
    /// The greatest length of a frame, other than DATA, that is kept until it is whole. A longer HEADERS frame makes its message malformed
    /// (`Malformation::TooLong`). Any other longer frame closes the connection with H3_EXCESSIVE_LOAD, and so does a longer instruction of the
    /// encoder or decoder stream. 0 is the default, and the lowest limit: 256, or four times the greater of `max_field_section_size` and
    /// `table` if that is more. A lower one is refused. With 2^62 - 1 or more there is no limit.
    pub unfinished_limit: u64,
    /// How many ids of streams that the peer canceled the local encoder keeps (RFC 9204, section 4.4.2). If there is one too many, it drops
    /// the lowest, and sections on streams up to it use no table from then on. Of the peer's GOAWAY ids the last one alone is kept. With
    /// 2^62 - 1 or more all are kept.
    pub kept_ids: u64,
    /// A server refuses requests from its last GOAWAY id on.
    pub reject_requests: bool,
    /// `:protocol` may be any token of at most 31 bytes, as `websocket` (RFC 9220), both ways: else `connect-udp` and `webtransport` alone.
    pub any_protocol: bool,
    /// The local encoder sends secrets as never indexed (RFC 9204, section 7.1.3). These are `authorization` and `proxy-authorization`, and
    /// `cookie` and `set-cookie` with a value below 20 bytes.
    pub guard_secrets: bool,
    /// The local encoder writes a name or value as it stands if its Huffman code is not shorter.
    pub shortest_strings: bool,
    /// Closes the connection for invalid settings, another frame before them, an invalid session id, and a field section that names an
    /// entry above its required insert count. Without `webtransport` its frames and streams are ignored. After the peer's GOAWAY a client
    /// begins no request.
    pub strict_connection: bool,
    /// For how many streams a server stores PRIORITY_UPDATE frames that did not take effect yet (RFC 9218, section 7.2): at most 128.
    /// With 0 it ignores these frames.
    pub priority_updates: u64,
    /// How many of the peer's settings are kept whose ids are not known here, for `peer_setting`: the first ones, at most 64. With 0 all of
    /// them are ignored (RFC 9114, section 7.2.4).
    pub other_settings: u64,
    /// Unidirectional streams of the peer whose types are not known here are delivered, as `StreamType::Other`. Without it what comes on them
    /// is dropped.
    pub other_streams: bool,
    /// Streams of WebTransport sessions can be opened and answered. It needs `webtransport`, `extended_connect` and `datagram`.
    pub sessions: bool,
}

impl Config {
    /// A client with the limits of `h3_config_default`, which are fit for a peer that is not trusted. Header and trailer sections may have
    /// at most 65,536 bytes. There is a dynamic table of 4,096 bytes, for which 16 streams may wait, and one of 4,096 bytes for the local
    /// encoder. Messages are judged.
    pub fn client() -> Config {
        Config::of(defaults())
    }

    /// A server with the same limits.
    pub fn server() -> Config {
        Config { server: true, ..Config::client() }
    }

    fn of(numbers: [u64; NUMBERS]) -> Config {
        Config {
            max_field_section_size: numbers[1],
            max_webtransport_sessions: numbers[2],
            table: numbers[3],
            blocked: numbers[4],
            grease: numbers[5],
            server: numbers[6] != 0,
            send_grease: numbers[7] != 0,
            webtransport: numbers[8] != 0,
            extended_connect: numbers[9] != 0,
            datagram: numbers[10] != 0,
            strict: numbers[11] != 0,
            count_acknowledgments: numbers[12] != 0,
            encoder_table: numbers[13],
            economical_table: numbers[14] != 0,
            unfinished_limit: numbers[15],
            kept_ids: numbers[16],
            reject_requests: numbers[17] != 0,
            any_protocol: numbers[18] != 0,
            guard_secrets: numbers[19] != 0,
            shortest_strings: numbers[20] != 0,
            strict_connection: numbers[21] != 0,
            priority_updates: numbers[22],
            other_settings: numbers[23],
            other_streams: numbers[24] != 0,
            sessions: numbers[25] != 0,
        }
    }

    /// The numbers of `h3_config`.
    pub(crate) fn numbers(&self) -> [u64; NUMBERS] {
        [
            8 * NUMBERS as u64,
            self.max_field_section_size,
            self.max_webtransport_sessions,
            self.table,
            self.blocked,
            self.grease,
            self.server.into(),
            self.send_grease.into(),
            self.webtransport.into(),
            self.extended_connect.into(),
            self.datagram.into(),
            self.strict.into(),
            self.count_acknowledgments.into(),
            self.encoder_table,
            self.economical_table.into(),
            self.unfinished_limit,
            self.kept_ids,
            self.reject_requests.into(),
            self.any_protocol.into(),
            self.guard_secrets.into(),
            self.shortest_strings.into(),
            self.strict_connection.into(),
            self.priority_updates,
            self.other_settings,
            self.other_streams.into(),
            self.sessions.into(),
        ]
    }
}

fn defaults() -> [u64; NUMBERS] {
    let mut numbers = [0; NUMBERS];
    // SAFETY: it writes so many numbers at most.
    unsafe { raw::h3_raw_config_default(numbers.as_mut_ptr(), numbers.len()) };
    numbers
}
