package main

// What is the same in all versions of quic-go, by the names that quicgo029.go and quicgo050.go give.

import "errors"

// resetCode is the code with which the peer reset a stream.
func resetCode(err error) (code uint64, isReset bool) {
	var reset *streamError
	if !errors.As(err, &reset) || !isOfPeer(reset) {
		return 0, false
	}
	return uint64(reset.ErrorCode), true
}
