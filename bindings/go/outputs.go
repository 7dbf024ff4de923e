package sipua

// #include <sip_ua.h>
import "C"

import (
	"bytes"
	"fmt"
	"net/netip"
)

// Kind is the kind of an output. Each notice means what its line means in docs/FORMATS.md.
type Kind uint32

// The kinds of output, and which fields they have besides Kind, Place and, from NoticeRequest on,
// CallID.
const (
	// Send is a datagram to send: To, Index, Body. If that fails, call Failed.
	Send Kind = C.SIP_UA_SEND
	// Line is a notice or a drop as a line of an output file, with its line feed: Body. RunLines
	// gives it.
	Line Kind = C.SIP_UA_LINE
	// Drop says that the datagram of Place was dropped: Reason, Header.
	Drop Kind = C.SIP_UA_DROP
	// NoticeRequest is a request to answer: ID, Method, LocalTag, RemoteTag, Body. Your responses
	// carry LocalTag.
	NoticeRequest Kind = C.SIP_UA_NOTICE_REQUEST
	// NoticeResponse is a response to the request of the command ID: Status (also 100), LocalTag,
	// RemoteTag, Body. The local tag is that of From, the remote tag that of To.
	NoticeResponse Kind = C.SIP_UA_NOTICE_RESPONSE
	// NoticeAck says that the ACK of a 2xx to the INVITE of this ID came: Body.
	NoticeAck Kind = C.SIP_UA_NOTICE_ACK
	// NoticePrack says that the PRACK of a provisional response to the INVITE of this ID came, and
	// got its 200: RSeq, Body.
	NoticePrack Kind = C.SIP_UA_NOTICE_PRACK
	// NoticeTimeout says that nothing came in time for the request of this ID: no response to an
	// INVITE, no final response to another request, or no ACK of a 300 to 699.
	NoticeTimeout Kind = C.SIP_UA_NOTICE_TIMEOUT
	// NoticeFailed says that a send of the request of this ID, or of its response, failed.
	NoticeFailed Kind = C.SIP_UA_NOTICE_FAILED
	// NoticeNoAck says that no ACK of a 2xx to the INVITE of this ID came in 32 s.
	NoticeNoAck Kind = C.SIP_UA_NOTICE_NO_ACK
	// NoticeNoPrack says that no PRACK of a provisional response to the INVITE of this ID came in
	// 32 s.
	NoticeNoPrack Kind = C.SIP_UA_NOTICE_NO_PRACK
	// NoticeCancel says that the peer cancelled the INVITE of this ID; the agent sent 487.
	NoticeCancel Kind = C.SIP_UA_NOTICE_CANCEL
	// NoticeEnded says that a dialog ended: LocalTag, RemoteTag.
	NoticeEnded Kind = C.SIP_UA_NOTICE_ENDED
	// NoticeRefused says that the command of this ID was refused, or the ACK or PRACK that the
	// agent would have sent by itself because of the event with this ID: Refusal.
	NoticeRefused Kind = C.SIP_UA_NOTICE_REFUSED
)

var kindNames = [...]string{
	Send: "send", Line: "line", Drop: "drop", NoticeRequest: "request",
	NoticeResponse: "response", NoticeAck: "ack", NoticePrack: "prack", NoticeTimeout: "timeout",
	NoticeFailed: "failed", NoticeNoAck: "noack", NoticeNoPrack: "noprack",
	NoticeCancel: "cancel", NoticeEnded: "ended", NoticeRefused: "refused",
}

// String is the word that the line of the kind has.
func (k Kind) String() string {
	if int(k) < len(kindNames) && kindNames[k] != "" {
		return kindNames[k]
	}
	return fmt.Sprintf("kind %d", uint32(k))
}

// DropReason is why a datagram was dropped.
type DropReason uint32

// Why a datagram was dropped.
const (
	DropNotOurs        DropReason = C.SIP_UA_DROP_NOT_OURS
	DropNoTransaction  DropReason = C.SIP_UA_DROP_NO_TRANSACTION
	DropTooLong        DropReason = C.SIP_UA_DROP_TOO_LONG
	DropNoEmptyLine    DropReason = C.SIP_UA_DROP_NO_EMPTY_LINE
	DropBadStartLine   DropReason = C.SIP_UA_DROP_BAD_START_LINE
	DropBadHeader      DropReason = C.SIP_UA_DROP_BAD_HEADER
	DropMissing        DropReason = C.SIP_UA_DROP_MISSING
	DropRepeated       DropReason = C.SIP_UA_DROP_REPEATED
	DropBadNumber      DropReason = C.SIP_UA_DROP_BAD_NUMBER
	DropOldBranch      DropReason = C.SIP_UA_DROP_OLD_BRANCH
	DropMethodMismatch DropReason = C.SIP_UA_DROP_METHOD_MISMATCH
	DropTruncated      DropReason = C.SIP_UA_DROP_TRUNCATED
	DropNoMemory       DropReason = C.SIP_UA_DROP_NO_MEMORY
)

// String says why, in English.
func (r DropReason) String() string { return C.GoString(C.sip_ua_drop_text(C.uint32_t(r))) }

// Output is what a round gives: a datagram to send, a drop or a notice. Its Kind says which fields
// it has; the others are zero.
type Output struct {
	Kind Kind
	// Place is that of the event that caused it, from 1. It is 0 if a timer caused it; also for a
	// Send of a new request (not ACK) or response (not 100).
	Place     uint32
	Index     uint64         // of a Send, for Failed
	To        netip.AddrPort // of a Send
	ID        ID             // of a notice: the request or the command that it is about
	Status    int            // of a response
	RSeq      uint32         // of a PRACK: that of the response that it acknowledges
	Refusal   Refusal
	Reason    DropReason
	Header    string // of a drop: the header that is missing or repeated
	CallID    string
	LocalTag  string
	RemoteTag string
	Method    string
	Body      []byte // of a Send: the datagram; of a Line: the line
}

// LargestDatagram is the most bytes that a UDP datagram carries over IPv4.
const LargestDatagram = C.SIP_UA_LARGEST_DATAGRAM

// Failed says that the Send with this index, of the last round, couldn't be sent: the socket
// refused it, or it is longer than LargestDatagram.
func (a *Agent) Failed(index uint64) error {
	a.mutex.Lock()
	defer a.mutex.Unlock()
	return done(C.sip_ua_raw_failed(&a.agent, C.size_t(index)))
}

// Run runs a round: it handles all events since the last one, at a moment in ms, and returns its
// outputs. If it returns outputs and an error, memory ran out, and the others can't be taken any
// more: close the agent.
func (a *Agent) Run(moment uint64) ([]Output, error) { return a.run(moment, a.next) }

// RunLines is Run with notices and drops as lines of an output file (docs/FORMATS.md).
func (a *Agent) RunLines(moment uint64) ([]Output, error) { return a.run(moment, a.nextLine) }

func (a *Agent) run(moment uint64, next func() (Output, error)) ([]Output, error) {
	a.mutex.Lock()
	defer a.mutex.Unlock()
	if status := C.sip_ua_raw_run(&a.agent, C.uint64_t(moment)); status != C.SIP_UA_OK {
		return nil, Error(status)
	}
	var outputs []Output
	for {
		output, err := next()
		if err != nil || output.Kind == C.SIP_UA_NOTHING {
			return outputs, err
		}
		outputs = append(outputs, output)
	}
}

func (a *Agent) next() (Output, error) {
	var told C.sip_ua_typed_output
	texts, err := a.room.filled(func(to span) C.uint32_t {
		return C.sip_ua_raw_next(&a.agent, &told, to.at, to.size)
	}, &told.call_id_len, &told.local_tag_len, &told.remote_tag_len, &told.method_len,
		&told.body_len)
	if err != nil || told.kind == C.SIP_UA_NOTHING {
		return Output{}, err
	}
	output := Output{Kind: Kind(told.kind), Place: uint32(told.place), Index: uint64(told.index),
		ID: idOf(told.id), Status: int(told.status), RSeq: uint32(told.rseq),
		Refusal: Refusal(told.refusal), Reason: DropReason(told.reason), CallID: string(texts[0]),
		LocalTag: string(texts[1]), RemoteTag: string(texts[2]), Method: string(texts[3]),
		Body: texts[4]}
	switch output.Kind {
	case Send:
		output.To = addrPortOf(told.to)
	case Drop:
		output.Header = C.GoString(C.sip_ua_header_text(told.header))
	case NoticeRefused: // of a command of this round
		var counts C.sip_ua_counts
		err = done(C.sip_ua_raw_stats(&a.agent, &counts))
		output.ID = ID{uint64(counts.next_round) - 1, uint32(told.command)}
	}
	return output, err
}

func (a *Agent) nextLine() (Output, error) {
	var told C.sip_ua_output
	texts, err := a.room.filled(func(to span) C.uint32_t {
		return C.sip_ua_raw_next_output(&a.agent, &told, to.at, to.size)
	}, &told.len)
	if err != nil || told.kind == C.SIP_UA_NOTHING {
		return Output{}, err
	}
	output := Output{Kind: Kind(told.kind), Place: uint32(told.place), Index: uint64(told.index),
		Body: texts[0]}
	if output.Kind == Send {
		output.To = addrPortOf(told.to)
	}
	return output, nil
}

// IsReflected says whether an output of the last round is a Send that would go to another IP
// address than the datagram that caused it came from: a response that is sent again since its
// request came again, from elsewhere. Leave it out. Otherwise whoever forged the source of a large
// request has each small repeat send a large response to a victim.
func (a *Agent) IsReflected(output Output) bool {
	isResponse := bytes.HasPrefix(output.Body, []byte("SIP/2.0 "))
	if output.Kind != Send || output.Place == 0 || !isResponse {
		return false
	}
	a.mutex.Lock()
	defer a.mutex.Unlock()
	var cause C.sip_ua_arrival
	C.sip_ua_raw_datagram_at(&a.agent, C.uint32_t(output.Place), &cause, spanOf("").at, 0)
	return bool(cause.is_there) && addrPortOf(cause.from).Addr() != output.To.Addr()
}
