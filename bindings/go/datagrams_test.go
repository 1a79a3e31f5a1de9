package h3

import (
	"errors"
	"testing"
)

// datagramPair is a client and a server that announces datagrams, and so does the client if it is to.
func datagramPair(t *testing.T, clientToo bool) (client, server *Endpoint) {
	t.Helper()
	ofClient, ofServer := DefaultConfig(false), DefaultConfig(true)
	ofClient.Datagram, ofServer.Datagram = clientToo, true
	client, server = made(t, ofClient), made(t, ofServer)
	carry(t, client, server, 1000)
	carry(t, server, client, 1000)
	return client, server
}

func ask(t *testing.T, client, server *Endpoint) uint64 {
	t.Helper()
	id, err := client.OpenRequest()
	is(t, err, nil)
	is(t, client.SendHead(id, get), nil)
	carry(t, client, server, 1000)
	return id
}

func datagram(t *testing.T, at *Endpoint, bytes []byte) Datagram {
	t.Helper()
	read, err := at.ReadDatagram(bytes)
	is(t, err, nil)
	return read
}

func TestDatagrams(t *testing.T) {
	client, server := datagramPair(t, true)
	for ask(t, client, server) < 256 {
	}
	for id, wanted := range map[uint64]string{0: "\x00", 252: "\x3f", 256: "\x40\x40"} {
		head, err := client.AppendDatagramHead(nil, id)
		is(t, err, nil)
		is(t, string(head), wanted)
		is(t, datagram(t, server, append(head, "hi"...)), Datagram{DatagramFor, id, []byte("hi")})
	}
	is(t, datagram(t, server, []byte{0x40, 0x41}), Datagram{Kind: DatagramEarly, ID: 260})
	for id, wanted := range map[uint64]Answer{260: NotOpen, 2: NotRequestID, 1 << 62: Argument} {
		_, err := client.AppendDatagramHead(nil, id)
		is(t, errors.Is(err, wanted), true)
	}
	is(t, client.Finish(0), nil)
	carry(t, client, server, 1000)
	is(t, datagram(t, server, []byte{0}), Datagram{Kind: DatagramLate})
	_, err := client.AppendDatagramHead(nil, 0)
	is(t, errors.Is(err, Ended), true)
	_, err = server.ReadDatagram(nil)
	is(t, err, Error{ConnectionFault, DatagramError})

	client, server = datagramPair(t, false)
	ask(t, client, server)
	is(t, datagram(t, server, []byte{0}), Datagram{Kind: DatagramOff})
	_, err = server.AppendDatagramHead(nil, 0)
	is(t, errors.Is(err, NoDatagrams), true)
}

func TestCapsules(t *testing.T) {
	all, err := AppendCapsuleHead(nil, 0x2843, 6)
	is(t, err, nil)
	all, err = AppendCapsuleHead(append(all, "\x00\x00\x00\x07by"...), 0x17, 0)
	is(t, err, nil)
	is(t, string(all), "\x68\x43\x06\x00\x00\x00\x07by\x17\x00")
	for cut := 0; cut <= len(all); cut++ {
		var reader CapsuleReader
		var value []byte
		var heads []uint64
		ends := 0
		for _, rest := range [][]byte{all[:cut], all[cut:]} {
			var told Capsule
			for told, rest = reader.Read(rest); told.Part != CapsulePending; told, rest = reader.Read(rest) {
				value = append(value, told.Value...)
				if told.Part == CapsuleHead {
					heads = append(heads, told.Type, told.Length)
				}
				if told.Part == CapsuleEnd {
					ends++
				}
			}
			is(t, len(rest), 0)
		}
		is(t, string(value), "\x00\x00\x00\x07by")
		is(t, heads, []uint64{0x2843, 6, 0x17, 0})
		is(t, ends, 2)
		is(t, reader.MayEnd(), true)
	}
	var reader CapsuleReader
	reader.Read([]byte{0x40})
	is(t, reader.MayEnd(), false)
	_, err = AppendCapsuleHead(nil, 1<<62, 0)
	is(t, errors.Is(err, Argument), true)
}
