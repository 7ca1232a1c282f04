package macaroond

import "strings"

// Version 1 packets.
//
//	packet = length key " " value LF      length: 4 digits of 0-9 a-f, these four included
//	token  = location identifier *(cid [vid] [cl]) signature

type packet struct{ key, value string }

// readPackets reads the token that these packets spell.
func readPackets(content string) (parts, error) {
	packets, err := split(content)
	if err != nil {
		return parts{}, err
	}
	last := len(packets) - 1
	if last < 2 || packets[0].key != "location" || packets[1].key != "identifier" || packets[last].key != "signature" {
		return parts{}, errNoToken
	}
	read := parts{location: packets[0].value, identifier: packets[1].value, signature: packets[last].value}
	if !isUTF8(read.location) || len(read.signature) != signatureSize {
		return parts{}, errNoToken
	}
	read.caveats, err = packetCaveats(packets[2:last])
	return read, err
}

// split gives the packets, to the end of the input.
func split(content string) ([]packet, error) {
	var packets []packet
	for len(content) > 0 {
		size, isSize := packetSize(content)
		if !isSize || size < 5 || size > len(content) || content[size-1] != '\n' {
			return nil, errNoToken
		}
		key, value, hasSpace := strings.Cut(content[4:size-1], " ")
		if !hasSpace {
			return nil, errNoToken
		}
		packets = append(packets, packet{key, value})
		content = content[size:]
	}
	return packets, nil
}

// packetSize gives the number that four lower-case digits tell.
func packetSize(content string) (size int, isSize bool) {
	if len(content) < 4 {
		return 0, false
	}
	for _, digit := range []byte(content[:4]) {
		value := strings.IndexByte("0123456789abcdef", digit)
		if value < 0 {
			return 0, false
		}
		size = size<<4 | value
	}
	return size, true
}

// packetCaveats reads the caveats between identifier and signature.
func packetCaveats(packets []packet) ([]caveat, error) {
	var caveats []caveat
	for len(packets) > 0 {
		if packets[0].key != "cid" {
			return nil, errNoToken
		}
		one := caveat{identifier: packets[0].value}
		packets = packets[1:]
		if len(packets) > 0 && packets[0].key == "vid" {
			one.hasVid, packets = true, packets[1:]
		}
		if len(packets) > 0 && packets[0].key == "cl" {
			one.location, packets = packets[0].value, packets[1:]
		}
		if !isUTF8(one.location) {
			return nil, errNoToken
		}
		caveats = append(caveats, one)
	}
	return caveats, nil
}
