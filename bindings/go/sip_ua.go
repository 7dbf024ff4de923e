// Package sipua is a SIP user agent core (RFC 3261, with reliable provisional responses) over
// libsip_ua. Listen opens an agent on a UDP socket:
//
//	endpoint, err := sipua.Listen(ctx, own, sipua.Options{
//		Told: func(endpoint *sipua.Endpoint, told sipua.Output) {
//			if told.Kind == sipua.NoticeRequest {
//				endpoint.Do(sipua.Response{CallID: told.CallID, ID: told.ID, Status: 200})
//			}
//		},
//	})
//	id, err := endpoint.Do(sipua.Invite{CallID: "c1", Address: peer, RequestURI: uri,
//		From: me, To: uri, Body: offer})
//
// A program with a socket of its own gives an Agent datagrams, commands and moments in ms. A round
// returns datagrams to send, and notices:
//
//	agent, err := sipua.New(sipua.Configuration{Local: own, Seed: seed})
//	err = agent.Datagram(peer, data)
//	outputs, err := agent.Run(moment)
//
// docs/EMBEDDING.md says what a host has to do. All methods may be called by several goroutines at
// once. A method that says something of the last round says it of the one that ran last, whoever
// ran it.
package sipua

/*
#cgo pkg-config: sip_ua
#include <sip_ua.h>
*/
import "C"

import (
	"fmt"
	"net/netip"
	"sync"
	"unsafe"
)

// ID names a command or a request: the number of its round, and its place there, from 1.
type ID struct {
	Round uint64
	Place uint32
}

// String is the ID as lines have it.
func (id ID) String() string { return fmt.Sprintf("%d.%d", id.Round, id.Place) }

func idOf(told C.sip_ua_id) ID { return ID{uint64(told.round), uint32(told.place)} }

// Configuration is how an agent is set up.
type Configuration struct {
	// Local is the address that Via and Contact say: usually that of the socket, behind a NAT the
	// one at which peers reach it.
	Local netip.AddrPort
	// Seed is a secret of random bytes, different for each agent. Tags and branches are made from
	// it.
	Seed [32]byte
	// First is the number of the first round, at most 2^62, usually 0.
	First uint64
	// Shards is 0, which is 1, to 256. It changes no output.
	Shards uint
}

// Agent is one user agent. Close frees it.
type Agent struct {
	mutex sync.Mutex
	agent C.sip_ua
	room  room
}

// Version is that of the library.
const Version = C.SIP_UA_VERSION

// New creates an agent.
func New(configuration Configuration) (*Agent, error) {
	own, err := addressOf(configuration.Local)
	if err != nil {
		return nil, err
	}
	start := C.sip_ua_configuration{local: own, first: C.uint64_t(configuration.First)}
	for i, b := range configuration.Seed {
		start.seed[i] = C.uint8_t(b)
	}
	shards := configuration.Shards
	if shards == 0 {
		shards = 1
	}
	agent := &Agent{room: make(room, datagramRoom)}
	if err := done(C.sip_ua_raw_new(&agent.agent, &start, C.size_t(shards))); err != nil {
		return nil, err
	}
	return agent, nil
}

// Datagram adds a datagram that was received from an address to the events of the next round. One
// from an IPv6 address is refused by ErrAddress: pass over it, since a socket of both kinds gives
// such.
func (a *Agent) Datagram(from netip.AddrPort, data []byte) error {
	source, err := addressOf(from)
	if err != nil {
		return err
	}
	a.mutex.Lock()
	defer a.mutex.Unlock()
	datagram := spanOf(data)
	return done(C.sip_ua_raw_datagram(&a.agent, &source, datagram.at, datagram.size))
}

// Command gives a command as the line of an event file (docs/FORMATS.md), with any header lines
// before it. The notices about it have the ID that it returns.
func (a *Agent) Command(lines string) (ID, error) {
	a.mutex.Lock()
	defer a.mutex.Unlock()
	event := spanOf(lines)
	status := C.sip_ua_raw_event_lines(&a.agent, event.at, event.size)
	if status != C.SIP_UA_OK {
		return ID{}, Error(status)
	}
	var id C.sip_ua_id
	err := done(C.sip_ua_raw_last_id(&a.agent, &id))
	return idOf(id), err
}

// NextDue is the first moment at which something is due, if there is one: run a round then.
func (a *Agent) NextDue() (uint64, bool, error) {
	a.mutex.Lock()
	defer a.mutex.Unlock()
	var due C.sip_ua_due
	err := done(C.sip_ua_raw_next_due(&a.agent, &due))
	return uint64(due.moment), bool(due.is_due), err
}

// OpeningTag is the local tag of the dialogs that an INVITE with this id opens, or the From tag of
// a request with this id outside of dialogs. Dialogs are held by it. The local tag of a notice is
// what the peer's response has in its place, which a wrong peer changes.
func (a *Agent) OpeningTag(id ID) (string, error) {
	tag, err := a.text(func(length *C.size_t, to span) C.uint32_t {
		return C.sip_ua_raw_opening_tag(&a.agent, C.uint64_t(id.Round), C.uint32_t(id.Place),
			length, to.at, to.size)
	})
	return string(tag), err
}

// WouldBegin says whether a datagram would begin a transaction if it came in the next round: it is
// a request other than ACK, and no transaction with its key is held. An agent that holds too much
// can be spared such datagrams.
func (a *Agent) WouldBegin(data []byte) (bool, error) {
	a.mutex.Lock()
	defer a.mutex.Unlock()
	var begins C.bool
	datagram := spanOf(data)
	err := done(C.sip_ua_raw_would_begin(&a.agent, datagram.at, datagram.size, &begins))
	return bool(begins), err
}

// Stats are counts of an agent: the transactions and calls that are held, the number of the next
// round, the events that wait for it, and the outputs of the last round that weren't taken.
type Stats struct {
	Transactions, Calls, NextRound, Events, Outputs uint64
}

// Stats counts what is held, and what waits.
func (a *Agent) Stats() (Stats, error) {
	a.mutex.Lock()
	defer a.mutex.Unlock()
	var told C.sip_ua_counts
	err := done(C.sip_ua_raw_stats(&a.agent, &told))
	return Stats{uint64(told.transactions), uint64(told.calls), uint64(told.next_round),
		uint64(told.events), uint64(told.outputs)}, err
}

// RoundText are the lines of the last round, as a session file has them. Appended to a journal
// before the outputs of the round go out, they let an agent go on in another process: see Resume.
func (a *Agent) RoundText() ([]byte, error) {
	return a.text(func(length *C.size_t, to span) C.uint32_t {
		return C.sip_ua_raw_round_text(&a.agent, length, to.at, to.size)
	})
}

// Resume runs the first round of a text again, as RoundText gave it, without outputs, and returns
// how many bytes it took. Call it again behind these, until none is left. The agent is a new one.
// Cut a journal behind its last line feed first.
func (a *Agent) Resume(rounds []byte) (int, error) {
	a.mutex.Lock()
	defer a.mutex.Unlock()
	var told C.sip_ua_resumed
	text := spanOf(rounds)
	err := done(C.sip_ua_raw_resume(&a.agent, text.at, text.size, &told))
	if err == ErrBadLine {
		return 0, fmt.Errorf("line %d: %w", uint64(told.bad_line), err)
	} else if err != nil {
		return 0, err
	}
	return int(told.len), nil
}

// Close frees the agent. A second Close, and any later call, gives ErrNoAgent.
func (a *Agent) Close() error {
	a.mutex.Lock()
	defer a.mutex.Unlock()
	return done(C.sip_ua_raw_free(&a.agent))
}

// A text for the library, or room for one. It takes no NULL.
type span struct {
	at   *C.uint8_t
	size C.size_t
}

func spanOf[T ~string | ~[]byte](data T) span {
	text := []byte(data)
	if len(text) == 0 {
		return span{(*C.uint8_t)(unsafe.Pointer(&[1]byte{})), 0}
	}
	return span{(*C.uint8_t)(unsafe.Pointer(&text[0])), C.size_t(len(text))}
}

// Room for what calls write.
type room []byte

// The texts that a call writes one after another, with the lengths that it tells. The room grows
// for them.
func (r *room) filled(call func(span) C.uint32_t, lengths ...*C.size_t) ([][]byte, error) {
	status := call(spanOf(*r))
	if status == C.SIP_UA_NO_ROOM {
		*r = make(room, sum(lengths))
		status = call(spanOf(*r))
	}
	if status != C.SIP_UA_OK {
		return nil, Error(status)
	}
	rest := append(make([]byte, 0, sum(lengths)), (*r)[:sum(lengths)]...)
	texts := make([][]byte, 0, len(lengths))
	for _, length := range lengths {
		texts = append(texts, rest[:*length:*length])
		rest = rest[*length:]
	}
	return texts, nil
}

func sum(lengths []*C.size_t) C.size_t {
	var all C.size_t
	for _, length := range lengths {
		all += *length
	}
	return all
}

// The one text that a call writes, with its length.
func (a *Agent) text(call func(*C.size_t, span) C.uint32_t) ([]byte, error) {
	a.mutex.Lock()
	defer a.mutex.Unlock()
	var length C.size_t
	texts, err := a.room.filled(func(to span) C.uint32_t { return call(&length, to) }, &length)
	if err != nil {
		return nil, err
	}
	return texts[0], nil
}

func addressOf(of netip.AddrPort) (C.sip_ua_address, error) {
	var told C.sip_ua_address
	ip := of.Addr().Unmap()
	if !ip.Is4() {
		return told, ErrAddress
	}
	for i, b := range ip.As4() {
		told.ip[i] = C.uint8_t(b)
	}
	told.port = C.uint16_t(of.Port())
	return told, nil
}

func addrPortOf(told C.sip_ua_address) netip.AddrPort {
	ip := *(*[4]byte)(unsafe.Pointer(&told.ip))
	return netip.AddrPortFrom(netip.AddrFrom4(ip), uint16(told.port))
}
