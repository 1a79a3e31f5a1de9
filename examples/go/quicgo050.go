//go:build !quic029

package main

// What of quic-go is different between its versions, for 0.50 (Debian 13). quicgo029.go has the same for 0.29.

import (
	"context"
	"crypto/tls"

	"github.com/quic-go/quic-go"
	"github.com/quic-go/quic-go/logging"
)

type (
	quicConnection = quic.Connection
	quicListener   = *quic.Listener
	quicStream     = quic.Stream
	receiveStream  = quic.ReceiveStream
	sendStream     = quic.SendStream
	quicConfig     = quic.Config
	streamCode     = quic.StreamErrorCode
	streamError    = quic.StreamError
	closeCode      = quic.ApplicationErrorCode
	streamID       = logging.StreamID
	frame          = logging.Frame
	streamFrame    = logging.StreamFrame
	resetFrame     = logging.ResetStreamFrame
	pingFrame      = logging.PingFrame
	ackFrame       = logging.AckFrame
)

var (
	tracingKey any = quic.ConnectionTracingKey
	dial           = quic.DialAddr
	listen         = quic.ListenAddr
)

// isOfPeer says whether the peer reset a stream, and not this side.
func isOfPeer(reset *streamError) bool { return reset.Remote }

// tlsOf is what TLS says of a connection.
func tlsOf(connection quicConnection) tls.ConnectionState { return connection.ConnectionState().TLS }

// into has quic-go tell the tracer of each connection, and its trace of the packets.
func (t *tracer) into(config *quicConfig) {
	config.Tracer = func(context context.Context, _ logging.Perspective, _ quic.ConnectionID) *logging.ConnectionTracer {
		made := t.begin(context)
		return &logging.ConnectionTracer{
			SentLongHeaderPacket: func(_ *logging.ExtendedHeader, _ logging.ByteCount, _ logging.ECN, _ *logging.AckFrame, frames []logging.Frame) {
				made.sent(frames)
			},
			SentShortHeaderPacket: func(_ *logging.ShortHeader, _ logging.ByteCount, _ logging.ECN, _ *logging.AckFrame, frames []logging.Frame) {
				made.sent(frames)
			},
			ReceivedLongHeaderPacket: func(_ *logging.ExtendedHeader, _ logging.ByteCount, _ logging.ECN, frames []logging.Frame) {
				made.received(frames)
			},
			ReceivedShortHeaderPacket: func(_ *logging.ShortHeader, _ logging.ByteCount, _ logging.ECN, frames []logging.Frame) {
				made.received(frames)
			},
			UpdatedMetrics: func(_ *logging.RTTStats, _, _ logging.ByteCount, count int) { made.fly(count) },
			Close:          made.forget,
		}
	}
}
