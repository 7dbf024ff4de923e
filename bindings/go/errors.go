package sipua

// #include <sip_ua.h>
import "C"

import "errors"

// Error is a fault of a call. Only ErrBroken changes the agent.
type Error uint32

// The faults.
const (
	// ErrNoAgent says that the agent was closed.
	ErrNoAgent Error = C.SIP_UA_NO_AGENT
	// ErrAgentExists is a fault that no call of this package gives.
	ErrAgentExists Error = C.SIP_UA_AGENT_EXISTS
	// ErrBadLine says that a text isn't the line of an event.
	ErrBadLine Error = C.SIP_UA_BAD_LINE
	// ErrTooManyEvents says that 65,536 events wait for the next round: run it first.
	ErrTooManyEvents Error = C.SIP_UA_TOO_MANY_EVENTS
	// ErrNoSend says that this output of the last round isn't a Send.
	ErrNoSend Error = C.SIP_UA_NO_SEND
	// ErrOutputsLeft says that an error kept Run from taking all outputs of the last round.
	ErrOutputsLeft Error = C.SIP_UA_OUTPUTS_LEFT
	// ErrBackwards says that the moment is earlier than that of the last round.
	ErrBackwards Error = C.SIP_UA_BACKWARDS
	// ErrMomentTooLarge says that the moment is above 2^62.
	ErrMomentTooLarge Error = C.SIP_UA_MOMENT_TOO_LARGE
	// ErrUsedUp says that the number of the round would be above 2^62.
	ErrUsedUp Error = C.SIP_UA_USED_UP
	// ErrNoMemory says that malloc returned NULL. The call can be made again.
	ErrNoMemory Error = C.SIP_UA_NO_MEMORY
	// ErrBroken says that malloc returned NULL within a round: the agent holds nothing any more.
	ErrBroken Error = C.SIP_UA_BROKEN
	// ErrBadConfiguration says that there are over 256 shards, or a first round above 2^62.
	ErrBadConfiguration Error = C.SIP_UA_BAD_CONFIGURATION
	// ErrNull says that a command is nil.
	ErrNull Error = C.SIP_UA_NULL
	// ErrBadField says that a field of a command is bad: the error is the Field.
	ErrBadField Error = C.SIP_UA_BAD_FIELD
	// ErrNoRoom is a fault that no call of this package gives: the buffer grows.
	ErrNoRoom Error = C.SIP_UA_NO_ROOM
	// ErrBusy says that events wait, or outputs are left, so no journal can be resumed.
	ErrBusy Error = C.SIP_UA_BUSY
)

// Error says what the fault is, in English.
func (e Error) Error() string { return C.GoString(C.sip_ua_status_text(C.uint32_t(e))) }

// ErrAddress says that an address isn't of IPv4, or that of no host. Nothing has changed.
var ErrAddress = errors.New("not the IPv4 address of a host")

// Field is the error of a command with a bad field, and says which. errors.Is also takes it for
// ErrBadField.
type Field uint32

// The fields that can be bad, and when they are.
const (
	// generated from bindings/commands.tsv: begin fields

	// empty, or with a space, a tab or a line end
	FieldCallID Field = C.SIP_UA_FIELD_CALL_ID
	// not a token
	FieldMethod Field = C.SIP_UA_FIELD_METHOD
	// empty, without a scheme, or with a space, a tab, a line end, `<`, `>` or `"`
	FieldRequestURI Field = C.SIP_UA_FIELD_REQUEST_URI
	// the same
	FieldFrom Field = C.SIP_UA_FIELD_FROM
	// the same
	FieldTo Field = C.SIP_UA_FIELD_TO
	// neither empty nor a token
	FieldLocalTag Field = C.SIP_UA_FIELD_LOCAL_TAG
	// the same
	FieldRemoteTag Field = C.SIP_UA_FIELD_REMOTE_TAG
	// not 101 to 699
	FieldStatus Field = C.SIP_UA_FIELD_STATUS
	// with a line end
	FieldReason Field = C.SIP_UA_FIELD_REASON
	// a header that a user can't give, a value that doesn't have its header's form, a Route for a
	// command that takes none, or any header of a cancel
	FieldHeaders Field = C.SIP_UA_FIELD_HEADERS

	// generated from bindings/commands.tsv: end
)

var fieldNames = [...]string{
	// generated from bindings/commands.tsv: begin names
	FieldCallID: "CallID", FieldMethod: "Method", FieldRequestURI: "RequestURI", FieldFrom: "From",
	FieldTo: "To", FieldLocalTag: "LocalTag", FieldRemoteTag: "RemoteTag", FieldStatus: "Status",
	FieldReason: "Reason", FieldHeaders: "Headers",
	// generated from bindings/commands.tsv: end
}

// Error says which field is bad.
func (f Field) Error() string {
	if int(f) < len(fieldNames) {
		return ErrBadField.Error() + ": " + fieldNames[f]
	}
	return ErrBadField.Error()
}

// Unwrap is ErrBadField.
func (f Field) Unwrap() error { return ErrBadField }

// Refusal is why a command was refused, as a NoticeRefused says. It is an error, too.
type Refusal uint32

// Why a command was refused.
const (
	// generated from bindings/commands.tsv: begin refusals

	// the Call-ID is in use
	RefusalCallInUse Refusal = C.SIP_UA_REFUSAL_CALL_IN_USE
	// no such call
	RefusalNoSuchCall Refusal = C.SIP_UA_REFUSAL_NO_SUCH_CALL
	// no such dialog
	RefusalNoSuchDialog Refusal = C.SIP_UA_REFUSAL_NO_SUCH_DIALOG
	// no such request
	RefusalNoSuchRequest Refusal = C.SIP_UA_REFUSAL_NO_SUCH_REQUEST
	// the request already has a final response
	RefusalAlreadyFinal Refusal = C.SIP_UA_REFUSAL_ALREADY_FINAL
	// the status isn't 101 to 699
	RefusalBadStatus Refusal = C.SIP_UA_REFUSAL_BAD_STATUS
	// a reliable response while the first one waits for its PRACK, while eight wait, or, once one
	// was given up, until none waits; a 2xx while one with a body waits
	RefusalReliablePending Refusal = C.SIP_UA_REFUSAL_RELIABLE_PENDING
	// a reliable response that isn't 101 to 199, isn't to an INVITE, or whose INVITE doesn't have
	// 100rel
	RefusalNotSupported Refusal = C.SIP_UA_REFUSAL_NOT_SUPPORTED
	// no 2xx needs an ACK
	RefusalNothingToAck Refusal = C.SIP_UA_REFUSAL_NOTHING_TO_ACK
	// no response needs a PRACK
	RefusalNothingToPrack Refusal = C.SIP_UA_REFUSAL_NOTHING_TO_PRACK
	// the CSeq or RSeq numbers are used up
	RefusalSequenceUsedUp Refusal = C.SIP_UA_REFUSAL_SEQUENCE_USED_UP
	// the first route is a strict router
	RefusalStrictRoute Refusal = C.SIP_UA_REFUSAL_STRICT_ROUTE
	// the dialog has ended
	RefusalDialogEnded Refusal = C.SIP_UA_REFUSAL_DIALOG_ENDED
	// Request and Plain send no ACK, PRACK and CANCEL, Plain no INVITE and BYE, Request in an early
	// dialog no INVITE and, as callee, no BYE
	RefusalBadMethod Refusal = C.SIP_UA_REFUSAL_BAD_METHOD

	// generated from bindings/commands.tsv: end
)

// Error says why the command was refused, in English.
func (r Refusal) Error() string { return C.GoString(C.sip_ua_refusal_text(C.uint32_t(r))) }

func done(status C.uint32_t) error {
	if status != C.SIP_UA_OK {
		return Error(status)
	}
	return nil
}
