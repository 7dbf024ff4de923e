package sipua

// #include <sip_ua.h>
import "C"

import (
	"net/netip"
	"strings"
	"unsafe"
)

// Received is a datagram with its source.
type Received struct {
	From netip.AddrPort
	Data []byte
}

// DatagramAt is the datagram with this place in the last round, if there is one: the cause of the
// outputs with this place. It is kept until the next round runs, even if it was dropped.
func (a *Agent) DatagramAt(place uint32) (Received, bool, error) {
	a.mutex.Lock()
	defer a.mutex.Unlock()
	var told C.sip_ua_arrival
	texts, err := a.room.filled(func(to span) C.uint32_t {
		return C.sip_ua_raw_datagram_at(&a.agent, C.uint32_t(place), &told, to.at, to.size)
	}, &told.len)
	if err != nil || !told.is_there {
		return Received{}, false, err
	}
	return Received{addrPortOf(told.from), texts[0]}, true, nil
}

// StartLine is a start line: Method and URI of a request, or Status and Reason of a response.
type StartLine struct {
	Method, URI string
	Status      int
	Reason      string
}

// StartLine is that of the datagram with a place in the last round, if it has one.
func (a *Agent) StartLine(place uint32) (StartLine, bool, error) {
	a.mutex.Lock()
	defer a.mutex.Unlock()
	var told C.sip_ua_start
	texts, err := a.room.filled(func(to span) C.uint32_t {
		return C.sip_ua_raw_start_line(&a.agent, C.uint32_t(place), &told, to.at, to.size)
	}, &told.method_len, &told.len)
	if err != nil {
		return StartLine{}, false, err
	}
	switch told.kind {
	case C.SIP_UA_REQUEST:
		return StartLine{Method: string(texts[0]), URI: string(texts[1])}, true, nil
	case C.SIP_UA_RESPONSE:
		return StartLine{Status: int(told.status), Reason: string(texts[1])}, true, nil
	}
	return StartLine{}, false, nil
}

// RequestTraits are what a request says of itself: whether it is in a dialog, since its To has a
// tag (an INVITE is then a re-INVITE), and whether it supports or requires reliable provisional
// responses.
type RequestTraits struct {
	IsInDialog, Supports100rel, Requires100rel bool
}

// RequestTraits are those of the request with a place in the last round, if it is one.
func (a *Agent) RequestTraits(place uint32) (RequestTraits, bool, error) {
	a.mutex.Lock()
	defer a.mutex.Unlock()
	var told C.sip_ua_request_traits
	err := done(C.sip_ua_raw_request_traits(&a.agent, C.uint32_t(place), &told))
	traits := RequestTraits{bool(told.is_in_dialog), bool(told.supports_100rel),
		bool(told.requires_100rel)}
	return traits, bool(told.is_there), err
}

// HeaderValue is the value of the header line with this number, from 0, among those with this name
// of the datagram with a place in the last round. Each call reads the datagram from its beginning:
// HeaderValues gives all.
func (a *Agent) HeaderValue(place uint32, name string, number uint64) (string, bool, error) {
	a.mutex.Lock()
	defer a.mutex.Unlock()
	var told C.sip_ua_text
	key := spanOf(name)
	texts, err := a.room.filled(func(to span) C.uint32_t {
		return C.sip_ua_raw_header_value(&a.agent, C.uint32_t(place), key.at, key.size,
			C.size_t(number), &told, to.at, to.size)
	}, &told.len)
	if err != nil {
		return "", false, err
	}
	return string(texts[0]), bool(told.is_there), nil
}

// HeaderLine is the header line with this number, from 0, of the datagram with a place in the last
// round: its name as it came, and its value. Each call reads the datagram from its beginning:
// HeaderLines gives all.
func (a *Agent) HeaderLine(place uint32, number uint64) (Header, bool, error) {
	a.mutex.Lock()
	defer a.mutex.Unlock()
	var told C.sip_ua_header_lengths
	texts, err := a.room.filled(func(to span) C.uint32_t {
		return C.sip_ua_raw_header_line(&a.agent, C.uint32_t(place), C.size_t(number), &told,
			to.at, to.size)
	}, &told.name_len, &told.len)
	if err != nil {
		return Header{}, false, err
	}
	return Header{string(texts[0]), string(texts[1])}, bool(told.is_there), nil
}

// HeaderValues are all values of a header, by its long or its compact name, in any case, of the
// datagram with a place in the last round. They are unfolded, without white space around them.
func (a *Agent) HeaderValues(place uint32, name string) ([]string, error) {
	key := spanOf(name)
	return a.lines(func(length *C.size_t, to span) C.uint32_t {
		return C.sip_ua_raw_header_values(&a.agent, C.uint32_t(place), key.at, key.size, length,
			to.at, to.size)
	})
}

// HeaderLines are all header lines of the datagram with a place in the last round, in order. The
// names are as they came.
func (a *Agent) HeaderLines(place uint32) ([]Header, error) {
	lines, err := a.lines(func(length *C.size_t, to span) C.uint32_t {
		return C.sip_ua_raw_header_lines(&a.agent, C.uint32_t(place), length, to.at, to.size)
	})
	headers := make([]Header, 0, len(lines))
	for _, line := range lines {
		name, value, _ := strings.Cut(line, ":")
		headers = append(headers, Header{name, value})
	}
	return headers, err
}

// The lines that a call writes, each without the line feed that ends it.
func (a *Agent) lines(call func(*C.size_t, span) C.uint32_t) ([]string, error) {
	text, err := a.text(call)
	if err != nil {
		return nil, err
	}
	lines := strings.Split(string(text), "\n")
	return lines[:len(lines)-1], nil
}

// HeaderAddress is an address in the value of a header: its display text without quotes, its URI,
// and the parameter that was asked for, without quotes, if HasParameter.
type HeaderAddress struct {
	Display, URI, Parameter string
	HasParameter            bool
}

// AddressIn is the address with this number, from 0, in the value of a Contact, a Route, a
// Record-Route or a header of their form, such as Refer-To, if there is one. It comes with its
// parameter of this name, in any case.
func AddressIn(value string, number uint64, parameter string) (HeaderAddress, bool, error) {
	text, name := spanOf(value), spanOf(parameter)
	return headerAddress(value, func(told *C.sip_ua_address_lengths, to span) C.uint32_t {
		return C.sip_ua_raw_address(text.at, text.size, C.size_t(number), name.at, name.size, told,
			to.at, to.size)
	})
}

// PartyIn is the same of the value of a From or a To, which is one address.
func PartyIn(value, parameter string) (HeaderAddress, bool, error) {
	text, name := spanOf(value), spanOf(parameter)
	return headerAddress(value, func(told *C.sip_ua_address_lengths, to span) C.uint32_t {
		return C.sip_ua_raw_party(text.at, text.size, name.at, name.size, told, to.at, to.size)
	})
}

// The texts of an address are parts of the value, so they have room where that has.
func headerAddress(value string, call func(*C.sip_ua_address_lengths, span) C.uint32_t) (
	HeaderAddress, bool, error) {
	var told C.sip_ua_address_lengths
	own := make(room, len(value))
	texts, err := own.filled(func(to span) C.uint32_t { return call(&told, to) },
		&told.display_len, &told.uri_len, &told.value_len)
	if err != nil || !told.is_there {
		return HeaderAddress{}, false, err
	}
	return HeaderAddress{unquoted(texts[0]), string(texts[1]), unquoted(texts[2]),
		bool(told.has_parameter)}, true, nil
}

// A text without the quotes of a quoted string, and its backslashes (RFC 3261, section 25.1).
func unquoted(text []byte) string {
	if len(text) == 0 {
		return ""
	}
	size := C.sip_ua_unquote((*C.uint8_t)(unsafe.Pointer(&text[0])), C.size_t(len(text)))
	return string(text[:size])
}
