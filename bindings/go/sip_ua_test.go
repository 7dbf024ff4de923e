package sipua

import (
	"errors"
	"net/netip"
	"reflect"
	"strings"
	"sync"
	"testing"
)

var (
	own   = netip.MustParseAddrPort("192.0.2.1:5060")
	other = netip.MustParseAddrPort("192.0.2.9:5060")
)

func begin(t *testing.T) *Agent {
	t.Helper()
	agent, err := New(Configuration{Local: own, Seed: [32]byte{7}})
	must(t, err)
	t.Cleanup(func() { agent.Close() })
	return agent
}

func must(t *testing.T, err error) {
	t.Helper()
	if err != nil {
		t.Fatal(err)
	}
}

// same compares values that a call gave with those that are wanted.
func same(t *testing.T, err error, told, wanted any) {
	t.Helper()
	if err != nil || !reflect.DeepEqual(told, wanted) {
		t.Fatalf("%v, %v instead of %v", err, told, wanted)
	}
}

// run runs a round, which gives so many outputs.
func run(t *testing.T, agent *Agent, moment uint64, count int) []Output {
	t.Helper()
	outputs, err := agent.Run(moment)
	if err != nil || len(outputs) != count {
		t.Fatal(err, outputs)
	}
	return outputs
}

// request is one from outside of dialogs, or to a dialog with the tag.
func request(method, branch, tag, headers string) string {
	return method + " sip:192.0.2.1 SIP/2.0\r\nVia: SIP/2.0/UDP 192.0.2.9;rport;branch=z9hG4bK" +
		branch + "\r\nMax-Forwards: 70\r\nFrom: <sip:a@192.0.2.9>;tag=f1\r\n" +
		"To: <sip:192.0.2.1>" + tag + "\r\nCall-ID: c1\r\nCSeq: 7 " + method + "\r\n" + headers +
		"\r\n"
}

// An OPTIONS comes, is told, and is answered with a header.
func TestAnOptionsIsAnswered(t *testing.T) {
	agent := begin(t)
	options := request("OPTIONS", "a1", "", "")
	must(t, agent.Datagram(other, []byte(options)))
	told := run(t, agent, 0, 1)[0]
	if len(told.LocalTag) != 41 {
		t.Fatal(told)
	}
	same(t, nil, told, Output{Kind: NoticeRequest, Place: 1, ID: ID{0, 1}, CallID: "c1",
		Method: "OPTIONS", LocalTag: told.LocalTag, RemoteTag: "f1", Body: []byte{}})
	id, err := agent.Do(Response{CallID: "c1", ID: told.ID, Status: 200, Reason: "OK",
		Headers: []Header{{"Server", "example"}}, Body: []byte("v=0")})
	same(t, err, id, ID{1, 1})
	answer := run(t, agent, 10, 1)[0]
	if answer.Kind != Send || answer.To != other ||
		!strings.Contains(string(answer.Body), "\r\nServer: example\r\n") ||
		!strings.HasSuffix(string(answer.Body), "\r\n\r\nv=0") {
		t.Fatal(answer)
	}
	due, is, err := agent.NextDue()
	same(t, err, []any{due, is}, []any{uint64(32010), true})
	stats, err := agent.Stats()
	same(t, err, stats, Stats{Transactions: 1, Calls: 1, NextRound: 2})
	// A repeat has the response sent again: from another address, it goes to whoever asked first.
	sources := map[string]bool{"192.0.2.9:5061": false, "192.0.2.66:5060": true}
	for source, isReflected := range sources {
		must(t, agent.Datagram(netip.MustParseAddrPort(source), []byte(options)))
		same(t, nil, agent.IsReflected(run(t, agent, 20, 1)[0]), isReflected)
	}
	begins, err := agent.WouldBegin([]byte(options))
	same(t, err, begins, false)
	begins, err = agent.WouldBegin([]byte(request("OPTIONS", "a2", "", "")))
	same(t, err, begins, true)
}

// A command and notices as lines.
func TestLines(t *testing.T) {
	agent := begin(t)
	must(t, agent.Datagram(other, []byte(request("OPTIONS", "a1", "", ""))))
	outputs, err := agent.RunLines(0)
	if err != nil || len(outputs) != 1 || outputs[0].Kind != Line || outputs[0].Place != 1 ||
		!strings.HasPrefix(string(outputs[0].Body), "notice c1 request 0.1 OPTIONS ") {
		t.Fatal(err, outputs)
	}
	_, err = agent.Command("respond c1 0.1 200 plain -")
	same(t, nil, err, ErrBadLine)
	id, err := agent.Command(" Server: example\nrespond c1 0.1 200 plain - OK")
	same(t, err, id, ID{1, 1})
	outputs, err = agent.RunLines(10)
	if err != nil || len(outputs) != 1 || outputs[0].Kind != Send || outputs[0].To != other {
		t.Fatal(err, outputs)
	}
}

// What datagrams say that were answered, and dropped.
func TestDatagramsAreRead(t *testing.T) {
	agent := begin(t)
	info := request("INFO", "a1", ";tag=t1", "Supported: 100rel\r\nSubject: one\r\n two \xff\r\n")
	status := "SIP/2.0 404 Not here\r\nf: <sip:c@d>\r\n\r\n"
	must(t, agent.Datagram(other, []byte(info)))
	must(t, agent.Datagram(other, []byte(status)))
	drop := run(t, agent, 0, 2)[0] // before the 481 to the INFO
	same(t, nil, drop, Output{Kind: Drop, Place: 2, Reason: DropMissing, Header: "Via",
		Body: []byte{}})
	same(t, nil, drop.Reason.String(), "a header is missing")
	datagram, is, err := agent.DatagramAt(1)
	same(t, err, []any{datagram, is}, []any{Received{other, []byte(info)}, true})
	start, is, err := agent.StartLine(1)
	same(t, err, []any{start, is}, []any{StartLine{Method: "INFO", URI: "sip:192.0.2.1"}, true})
	start, is, err = agent.StartLine(2)
	same(t, err, []any{start, is}, []any{StartLine{Status: 404, Reason: "Not here"}, true})
	value, is, err := agent.HeaderValue(1, "f", 0)
	same(t, err, []any{value, is}, []any{"<sip:a@192.0.2.9>;tag=f1", true})
	values, err := agent.HeaderValues(1, "SUBJECT")
	same(t, err, values, []string{"one two \xff"})
	header, is, err := agent.HeaderLine(1, 4)
	same(t, err, []any{header, is}, []any{Header{"Call-ID", "c1"}, true})
	headers, err := agent.HeaderLines(2)
	same(t, err, headers, []Header{{"f", "<sip:c@d>"}})
	traits, is, err := agent.RequestTraits(1)
	same(t, err, []any{traits, is},
		[]any{RequestTraits{IsInDialog: true, Supports100rel: true}, true})
	// No datagram has the place 3.
	_, is, err = agent.DatagramAt(3)
	same(t, err, is, false)
	_, is, err = agent.StartLine(3)
	same(t, err, is, false)
	_, is, err = agent.RequestTraits(3)
	same(t, err, is, false)
	headers, err = agent.HeaderLines(3)
	same(t, err, headers, []Header{})
}

func TestAddressesAreRead(t *testing.T) {
	contact := `"A \"b\"" <sip:c@d;x=1>;Expires="6\\0", <sip:e@f>`
	found, is, err := AddressIn(contact, 0, "expires")
	same(t, err, []any{found, is}, []any{HeaderAddress{`A "b"`, "sip:c@d;x=1", `6\0`, true}, true})
	found, is, err = AddressIn(contact, 1, "expires")
	same(t, err, []any{found, is}, []any{HeaderAddress{URI: "sip:e@f"}, true})
	_, is, err = AddressIn(contact, 2, "")
	same(t, err, is, false)
	_, is, err = AddressIn("", 0, "")
	same(t, err, is, false)
	found, is, err = PartyIn("B <sip:g@h>;tag=t", "TAG")
	same(t, err, []any{found, is}, []any{HeaderAddress{"B", "sip:g@h", "t", true}, true})
}

const uri = "sip:b@192.0.2.9"

// Commands with a bad field: which it is, and nothing is asked for.
func TestBadFields(t *testing.T) {
	agent := begin(t)
	bad := map[Command]error{}
	invite := func(callID, uri, from, to string) Command {
		return &Invite{CallID: callID, Address: other, RequestURI: uri, From: from, To: to}
	}
	via, route := []Header{{"Via", "x"}}, []Header{{"Route", "<sip:r>"}}
	bad[invite("", uri, uri, uri)] = FieldCallID
	bad[&Plain{CallID: "c", Address: other, Method: "A B", RequestURI: uri, From: uri, To: uri}] =
		FieldMethod
	bad[invite("c", "sip:b b", uri, uri)] = FieldRequestURI
	bad[invite("c", uri, "<sip:b>", uri)] = FieldFrom
	bad[invite("c", uri, uri, "")] = FieldTo
	bad[&Request{CallID: "c", LocalTag: "a;b", Method: "BYE"}] = FieldLocalTag
	bad[&Ack{CallID: "c", LocalTag: "a", RemoteTag: "b c"}] = FieldRemoteTag
	for _, status := range []int{-1, 0, 99, 700, 1 << 16, 1<<16 + 200} {
		bad[&Response{CallID: "c", ID: ID{0, 1}, Status: status}] = FieldStatus
	}
	bad[&Response{CallID: "c", ID: ID{0, 1}, Status: 200, Reason: "a\r\nb"}] = FieldReason
	bad[&Prack{CallID: "c", LocalTag: "a", RemoteTag: "b", Headers: via}] = FieldHeaders
	bad[&Request{CallID: "c", LocalTag: "a", RemoteTag: "b", Method: "BYE", Headers: route}] =
		FieldHeaders
	for command, field := range bad {
		_, err := agent.Do(command)
		if err != field || !errors.Is(err, ErrBadField) || errors.Is(err, ErrBadLine) {
			t.Fatal(command, err, field)
		}
	}
	same(t, nil, FieldRequestURI.Error(), "a field of the command is bad: RequestURI")
	_, err := agent.Do(nil)
	same(t, nil, err, ErrNull)
	same(t, nil, agent.Datagram(netip.AddrPort{}, nil), ErrAddress)
	stats, err := agent.Stats()
	same(t, err, stats, Stats{})
}

// A command that is refused, after two that lost their headers.
func TestARefusal(t *testing.T) {
	agent := begin(t)
	headers := []Header{{"Subject", "lost"}, {"Via", "x"}}
	_, err := agent.Do(Prack{CallID: "c", LocalTag: "a", RemoteTag: "b", Headers: headers})
	same(t, nil, err, FieldHeaders)
	_, err = agent.Do(Plain{CallID: "c", Method: "OPTIONS", Headers: headers[:1],
		Address: netip.MustParseAddrPort("[2001:db8::1]:5060")})
	same(t, nil, err, ErrAddress)
	_, err = agent.Do(Invite{CallID: "c", Address: other, RequestURI: uri, From: uri, To: uri})
	must(t, err)
	id, err := agent.Do(Request{CallID: "c", LocalTag: "a", RemoteTag: "b", Method: "BYE"})
	same(t, err, id.String(), "0.2")
	outputs := run(t, agent, 0, 2)
	for _, output := range outputs {
		if output.Kind == Send && strings.Contains(string(output.Body), "lost") {
			t.Fatal("the headers of a bad command went with another one")
		}
		if output.Kind != Send {
			same(t, nil, output, Output{Kind: NoticeRefused, Place: 2, ID: id, CallID: "c",
				Refusal: RefusalNoSuchDialog, Body: []byte{}})
			same(t, nil, output.Refusal.Error(), "no such dialog")
		}
	}
}

// The tag of an INVITE, and the faults of calls.
func TestFaults(t *testing.T) {
	agent := begin(t)
	id, err := agent.Do(Invite{CallID: "c", Address: other, RequestURI: uri, From: uri, To: uri})
	must(t, err)
	tag, err := agent.OpeningTag(id)
	must(t, err)
	sent := run(t, agent, 5, 1)[0]
	if len(tag) != 41 || !strings.Contains(string(sent.Body), ";tag="+tag+"\r\n") {
		t.Fatal(tag, sent)
	}
	_, err = agent.Run(4)
	same(t, nil, err, ErrBackwards)
	_, err = agent.Run(1 << 63)
	same(t, nil, err, ErrMomentTooLarge)
	same(t, nil, agent.Failed(1), ErrNoSend)
	must(t, agent.Failed(sent.Index))
	_, err = agent.Resume([]byte("round 9\n"))
	same(t, nil, err, ErrBusy)
	same(t, nil, run(t, agent, 6, 1)[0].Kind, NoticeFailed)
	_, err = agent.Resume([]byte("round 5\n"))
	same(t, nil, err, ErrBackwards)
	_, err = agent.Resume([]byte("round 7\nx\n"))
	same(t, nil, []any{errors.Is(err, ErrBadLine), err.Error()},
		[]any{true, "line 2: not the line of an event"})
	must(t, agent.Close())
	same(t, nil, agent.Close(), ErrNoAgent)
	_, err = agent.Stats()
	same(t, nil, err, ErrNoAgent)
	same(t, nil, ErrNoAgent.Error(), "there is no agent")
	_, err = New(Configuration{Local: own, Shards: 257})
	same(t, nil, err, ErrBadConfiguration)
	_, err = New(Configuration{})
	same(t, nil, err, ErrAddress)
}

// An agent dies after its first round; another goes on from its journal and answers the request.
func TestAnAgentGoesOn(t *testing.T) {
	first, second := begin(t), begin(t)
	must(t, first.Datagram(other, []byte(request("OPTIONS", "a1", "", ""))))
	run(t, first, 5, 1)
	journal, err := first.RoundText()
	must(t, err)
	took, err := second.Resume(journal)
	same(t, err, took, len(journal))
	for _, agent := range []*Agent{first, second} {
		_, err = agent.Do(Response{CallID: "c1", ID: ID{0, 1}, Status: 200})
		must(t, err)
	}
	same(t, nil, run(t, first, 9, 1), run(t, second, 9, 1))
}

// A request whose responses are too long for UDP, since each Via gets a line of its own.
var longInvite = request("INVITE", "x"+strings.Repeat(",SIP/2.0/UDP a", 4500), "",
	"Contact: <sip:a@192.0.2.9>\r\n")

// The 100 of such a request comes whole and fails; the agent goes on.
func TestALongSendFails(t *testing.T) {
	agent := begin(t)
	must(t, agent.Datagram(other, []byte(longInvite)))
	for _, output := range run(t, agent, 0, 2) {
		if output.Kind == Send {
			same(t, nil, len(output.Body) > LargestDatagram, true)
			must(t, agent.Failed(output.Index))
		}
	}
	via, is, err := agent.HeaderValue(1, "v", 0)
	same(t, err, is && strings.HasPrefix(via, "SIP/2.0/UDP 192.0.2.9;"), true)
	same(t, nil, run(t, agent, 1, 1)[0], Output{Kind: NoticeFailed, CallID: "c1", ID: ID{0, 1},
		Place: 1, Body: []byte{}})
}

// Several goroutines use one agent.
func TestManyGoroutines(t *testing.T) {
	const goroutines, commands = 8, 200
	agent := begin(t)
	var all sync.WaitGroup
	var mutex sync.Mutex
	ids := map[ID]bool{}
	refused := 0
	work := func() {
		defer all.Done()
		for i := 0; i < commands; i++ {
			id, err := agent.Do(Request{CallID: "c", LocalTag: "a", RemoteTag: "b", Method: "BYE",
				Headers: []Header{{"Subject", "x"}}})
			if err != nil {
				t.Error(err)
				return
			}
			outputs, err := agent.Run(0)
			if err != nil {
				t.Error(err)
				return
			}
			_, _ = agent.HeaderLines(1)
			_, _ = agent.Stats()
			mutex.Lock()
			ids[id] = true
			refused += len(outputs)
			mutex.Unlock()
		}
	}
	all.Add(goroutines)
	for i := 0; i < goroutines; i++ {
		go work()
	}
	all.Wait()
	same(t, nil, []int{len(ids), refused}, []int{goroutines * commands, goroutines * commands})
}

// An agent is closed while goroutines use it.
func TestAClosedAgentIsTold(t *testing.T) {
	const goroutines = 8
	agent := begin(t)
	told := make(chan error)
	for i := 0; i < goroutines; i++ {
		go func() {
			for {
				if _, err := agent.Run(0); err != nil {
					told <- err
					return
				}
			}
		}()
	}
	must(t, agent.Close())
	for i := 0; i < goroutines; i++ {
		same(t, nil, <-told, ErrNoAgent)
	}
}
