package sipua

// #include <sip_ua.h>
import "C"

import "net/netip"

// Header is a header line: its name, long or compact, in any case, and its value.
type Header struct {
	Name, Value string
}

// Do gives a command, an event of the next round. The notices about it have the ID that it returns.
// A bad field is a Field, an address that isn't of IPv4 ErrAddress, and then there is no command.
// If the agent refuses it later, such as for a dialog that isn't held, a NoticeRefused says so.
func (a *Agent) Do(command Command) (ID, error) {
	if command == nil {
		return ID{}, ErrNull
	}
	a.mutex.Lock()
	defer a.mutex.Unlock()
	var asked C.sip_ua_asked
	if err := command.ask(a, &asked); err == ErrBadField {
		return ID{}, Field(asked.bad_field)
	} else if err != nil {
		return ID{}, err
	}
	return idOf(asked.id), nil
}

// Gives the library the headers of the next command. After a fault it has none.
func (a *Agent) keep(headers []Header) error {
	for _, header := range headers {
		name, value := spanOf(header.Name), spanOf(header.Value)
		status := C.sip_ua_raw_header(&a.agent, name.at, name.size, value.at, value.size)
		if status == C.SIP_UA_BAD_FIELD {
			return FieldHeaders
		}
		if status != C.SIP_UA_OK {
			return Error(status)
		}
	}
	return nil
}

// A status as the library takes it: 0, which is bad, for what is too large.
func statusOf(status int) C.uint16_t {
	if status < 0 || status > 0xffff {
		return 0
	}
	return C.uint16_t(status)
}

// generated from bindings/commands.tsv: begin commands

// Command is what Agent.Do takes: Invite, Plain, Request, Response, Ack, Prack, Cancel,
// AbandonRequest or AbandonDialog. The URIs have no tags and display names. The tags are those of
// the notices; an absent tag is empty. The status is 101 to 699. Requires100rel overrides
// Supports100rel. A body may be empty. It is application/sdp, unless a header Content-Type says
// otherwise. Headers are pairs of a name and a value.
type Command interface {
	ask(a *Agent, asked *C.sip_ua_asked) error
}

// Invite starts a call: sends an initial INVITE to an address. See RFC 3261, section 13.2.1.
// Refusals: RefusalCallInUse.
type Invite struct {
	CallID         string
	Address        netip.AddrPort
	RequestURI     string
	From           string
	To             string
	Supports100rel bool
	Requires100rel bool
	Body           []byte
	Headers        []Header
}

func (c Invite) ask(a *Agent, asked *C.sip_ua_asked) error {
	callID := spanOf(c.CallID)
	address, err := addressOf(c.Address)
	if err != nil {
		return err
	}
	requestURI := spanOf(c.RequestURI)
	from := spanOf(c.From)
	to := spanOf(c.To)
	body := spanOf(c.Body)
	if err := a.keep(c.Headers); err != nil {
		return err
	}
	return done(C.sip_ua_raw_invite(&a.agent, callID.at, callID.size, &address, requestURI.at,
		requestURI.size, from.at, from.size, to.at, to.size, C.bool(c.Supports100rel),
		C.bool(c.Requires100rel), body.at, body.size, asked))
}

// Plain sends a request outside of any dialog to an address. REGISTER and OPTIONS are such. See RFC
// 3261, section 8.1.1. Refusals: RefusalCallInUse, RefusalBadMethod.
type Plain struct {
	CallID     string
	Address    netip.AddrPort
	Method     string
	RequestURI string
	From       string
	To         string
	Body       []byte
	Headers    []Header
}

func (c Plain) ask(a *Agent, asked *C.sip_ua_asked) error {
	callID := spanOf(c.CallID)
	address, err := addressOf(c.Address)
	if err != nil {
		return err
	}
	method := spanOf(c.Method)
	requestURI := spanOf(c.RequestURI)
	from := spanOf(c.From)
	to := spanOf(c.To)
	body := spanOf(c.Body)
	if err := a.keep(c.Headers); err != nil {
		return err
	}
	return done(C.sip_ua_raw_plain(&a.agent, callID.at, callID.size, &address, method.at,
		method.size, requestURI.at, requestURI.size, from.at, from.size, to.at, to.size, body.at,
		body.size, asked))
}

// Request sends a request in a dialog, such as BYE or a re-INVITE. To offer 100rel in a re-INVITE,
// give the header Supported or Require with 100rel: its reliable provisional responses get their
// PRACKs as those of a first INVITE. See RFC 3261, section 12.2.1.1. Refusals: RefusalNoSuchCall,
// RefusalNoSuchDialog, RefusalBadMethod, RefusalStrictRoute, RefusalSequenceUsedUp.
type Request struct {
	CallID    string
	LocalTag  string
	RemoteTag string
	Method    string
	Body      []byte
	Headers   []Header
}

func (c Request) ask(a *Agent, asked *C.sip_ua_asked) error {
	callID := spanOf(c.CallID)
	localTag := spanOf(c.LocalTag)
	remoteTag := spanOf(c.RemoteTag)
	method := spanOf(c.Method)
	body := spanOf(c.Body)
	if err := a.keep(c.Headers); err != nil {
		return err
	}
	return done(C.sip_ua_raw_request(&a.agent, callID.at, callID.size, localTag.at, localTag.size,
		remoteTag.at, remoteTag.size, method.at, method.size, body.at, body.size, asked))
}

// Response answers the request with this id, that of its notice; if an INVITE requires 100rel, each
// response of 101 to 199 is reliable. What is refused as RefusalReliablePending can be given again
// after the notice PRACK or NO_PRACK. A response of 300 to 699 is taken at any time. See RFC 3261,
// section 8.2.6; RFC 3262, section 3. Refusals: RefusalNoSuchCall, RefusalNoSuchRequest,
// RefusalAlreadyFinal, RefusalNotSupported, RefusalDialogEnded, RefusalReliablePending,
// RefusalSequenceUsedUp.
type Response struct {
	CallID     string
	ID         ID
	Status     int
	Reason     string
	IsReliable bool
	Body       []byte
	Headers    []Header
}

func (c Response) ask(a *Agent, asked *C.sip_ua_asked) error {
	callID := spanOf(c.CallID)
	reason := spanOf(c.Reason)
	body := spanOf(c.Body)
	if err := a.keep(c.Headers); err != nil {
		return err
	}
	return done(C.sip_ua_raw_respond(&a.agent, callID.at, callID.size, C.uint64_t(c.ID.Round),
		C.uint32_t(c.ID.Place), statusOf(c.Status), C.bool(c.IsReliable), reason.at, reason.size,
		body.at, body.size, asked))
}

// Ack sends the ACK of the dialog's oldest 2xx that needs one; most go out by themselves
// (docs/EMBEDDING.md). See RFC 3261, section 13.2.2.4. Refusals: RefusalNoSuchCall,
// RefusalNoSuchDialog, RefusalNothingToAck, RefusalStrictRoute.
type Ack struct {
	CallID    string
	LocalTag  string
	RemoteTag string
	Body      []byte
	Headers   []Header
}

func (c Ack) ask(a *Agent, asked *C.sip_ua_asked) error {
	callID := spanOf(c.CallID)
	localTag := spanOf(c.LocalTag)
	remoteTag := spanOf(c.RemoteTag)
	body := spanOf(c.Body)
	if err := a.keep(c.Headers); err != nil {
		return err
	}
	return done(C.sip_ua_raw_ack(&a.agent, callID.at, callID.size, localTag.at, localTag.size,
		remoteTag.at, remoteTag.size, body.at, body.size, asked))
}

// Prack sends the PRACK of the dialog's oldest reliable provisional response that needs one; most
// go out by themselves (docs/EMBEDDING.md). See RFC 3262, section 4. Refusals: RefusalNoSuchCall,
// RefusalNoSuchDialog, RefusalNothingToPrack, RefusalStrictRoute, RefusalSequenceUsedUp.
type Prack struct {
	CallID    string
	LocalTag  string
	RemoteTag string
	Body      []byte
	Headers   []Header
}

func (c Prack) ask(a *Agent, asked *C.sip_ua_asked) error {
	callID := spanOf(c.CallID)
	localTag := spanOf(c.LocalTag)
	remoteTag := spanOf(c.RemoteTag)
	body := spanOf(c.Body)
	if err := a.keep(c.Headers); err != nil {
		return err
	}
	return done(C.sip_ua_raw_prack(&a.agent, callID.at, callID.size, localTag.at, localTag.size,
		remoteTag.at, remoteTag.size, body.at, body.size, asked))
}

// Cancel cancels the INVITE with this id, that of its command. The dialog of a re-INVITE stays. See
// RFC 3261, section 9.1. Refusals: RefusalNoSuchCall, RefusalNoSuchRequest, RefusalAlreadyFinal.
type Cancel struct {
	CallID string
	ID     ID
}

func (c Cancel) ask(a *Agent, asked *C.sip_ua_asked) error {
	callID := spanOf(c.CallID)
	return done(C.sip_ua_raw_cancel(&a.agent, callID.at, callID.size, C.uint64_t(c.ID.Round),
		C.uint32_t(c.ID.Place), asked))
}

// AbandonRequest gives up the request with this id, that of its command: it is no longer held, its
// early dialogs end, and nothing more is sent or told of it. An INVITE whose peer is dead needs
// that. For each early dialog the notice ENDED follows. Refusals: RefusalNoSuchCall,
// RefusalNoSuchRequest.
type AbandonRequest struct {
	CallID string
	ID     ID
}

func (c AbandonRequest) ask(a *Agent, asked *C.sip_ua_asked) error {
	callID := spanOf(c.CallID)
	return done(C.sip_ua_raw_abandon_request(&a.agent, callID.at, callID.size,
		C.uint64_t(c.ID.Round), C.uint32_t(c.ID.Place), asked))
}

// AbandonDialog gives up the dialog with these tags: it ends, and nothing is sent. The notice ENDED
// follows. Refusals: RefusalNoSuchCall, RefusalNoSuchDialog.
type AbandonDialog struct {
	CallID    string
	LocalTag  string
	RemoteTag string
}

func (c AbandonDialog) ask(a *Agent, asked *C.sip_ua_asked) error {
	callID := spanOf(c.CallID)
	localTag := spanOf(c.LocalTag)
	remoteTag := spanOf(c.RemoteTag)
	return done(C.sip_ua_raw_abandon_dialog(&a.agent, callID.at, callID.size, localTag.at,
		localTag.size, remoteTag.at, remoteTag.size, asked))
}

// generated from bindings/commands.tsv: end
