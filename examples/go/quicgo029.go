//go:build quic029

package main

// What of quic-go is different between its versions, for 0.29 (Debian 12). quicgo050.go has the same for 0.50.

import (
	"context"
	"crypto/tls"

	"github.com/lucas-clemente/quic-go"
	"github.com/lucas-clemente/quic-go/logging"
)

type (
	quicConnection = quic.Connection
	quicListener   = quic.Listener
	quicStream     = quic.Stream
	receiveStream  = quic.ReceiveStream
	sendStream     = quic.SendStream
	quicConfig     = quic.Config
	streamCode     = quic.StreamErrorCode
	streamError    = quic.StreamError
	closeCode      = quic.ApplicationErrorCode
	streamID       = logging.StreamID
	frame          = logging.Frame
	streamFrame    = logging.StreamFrame
	resetFrame     = logging.ResetStreamFrame
	pingFrame      = logging.PingFrame
	ackFrame       = logging.AckFrame
)

var (
	tracingKey any = quic.ConnectionTracingKey
	dial           = quic.DialAddrContext
	listen         = quic.ListenAddr
)

// isOfPeer says whether the peer reset a stream, and not this side.
func isOfPeer(_ *streamError) bool { return true }

// tlsOf is what TLS says of a connection.
func tlsOf(connection quicConnection) tls.ConnectionState {
	return connection.ConnectionState().TLS.ConnectionState
}

// packets tells a trace of the packets of its connection.
type packets struct {
	logging.NullConnectionTracer
	*trace
}

// SentPacket sees the ends of streams go out.
func (p packets) SentPacket(_ *logging.ExtendedHeader, _ logging.ByteCount, _ *logging.AckFrame, frames []logging.Frame) {
	p.sent(frames)
}

// ReceivedPacket sees what the peer does.
func (p packets) ReceivedPacket(_ *logging.ExtendedHeader, _ logging.ByteCount, frames []logging.Frame) {
	p.received(frames)
}

// UpdatedMetrics sees what is acknowledged.
func (p packets) UpdatedMetrics(_ *logging.RTTStats, _, _ logging.ByteCount, count int) { p.fly(count) }

// Close sees the connection end.
func (p packets) Close() { p.forget() }

// quicTracer has a tracer make the trace of each connection.
type quicTracer struct {
	logging.NullTracer
	*tracer
}

// TracerForConnection makes the trace of a connection.
func (t quicTracer) TracerForConnection(context context.Context, _ logging.Perspective, _ logging.ConnectionID) logging.ConnectionTracer {
	return packets{trace: t.begin(context)}
}

func (t *tracer) into(config *quicConfig) { config.Tracer = quicTracer{tracer: t} }
