package sipua

import (
	"context"
	"errors"
	"fmt"
	"net"
	"net/netip"
	"strings"
	"sync"
	"testing"
	"time"
)

var loopback = netip.MustParseAddrPort("127.0.0.1:0")

// patience is how long a test waits for what has to come.
const patience = 10 * time.Second

// listen opens an endpoint with a channel of what it tells.
func listen(t *testing.T, options Options) (*Endpoint, chan Output) {
	t.Helper()
	told := make(chan Output, 10000)
	options.Told = func(_ *Endpoint, output Output) { told <- output }
	endpoint, err := Listen(context.Background(), loopback, options)
	must(t, err)
	t.Cleanup(func() {
		endpoint.Close()
		must(t, endpoint.Wait())
	})
	return endpoint, told
}

// next is the next output, of this kind.
func next(t *testing.T, told chan Output, kind Kind) Output {
	t.Helper()
	select {
	case output := <-told:
		if output.Kind != kind {
			t.Fatal(output, "instead of", kind)
		}
		return output
	case <-time.After(patience):
		t.Fatal("no ", kind)
	}
	return Output{}
}

func do(t *testing.T, endpoint *Endpoint, command Command) ID {
	t.Helper()
	id, err := endpoint.Do(command)
	must(t, err)
	return id
}

// socket is one of a peer in a test.
func socket(t *testing.T, ip string) *net.UDPConn {
	t.Helper()
	udp, err := net.ListenUDP("udp4", &net.UDPAddr{IP: net.ParseIP(ip)})
	must(t, err)
	t.Cleanup(func() { udp.Close() })
	must(t, udp.SetDeadline(time.Now().Add(patience)))
	return udp
}

func send(t *testing.T, udp *net.UDPConn, endpoint *Endpoint, text string) {
	t.Helper()
	_, err := udp.WriteToUDPAddrPort([]byte(text), endpoint.Local)
	must(t, err)
}

func receive(t *testing.T, udp *net.UDPConn) string {
	t.Helper()
	room := make([]byte, datagramRoom)
	size, _, err := udp.ReadFromUDPAddrPort(room)
	must(t, err)
	return string(room[:size])
}

// One endpoint calls another, which answers; the first one hangs up.
func TestACall(t *testing.T) {
	caller, calling := listen(t, Options{})
	callee, called := listen(t, Options{})
	uri := fmt.Sprintf("sip:b@%v", callee.Local)
	invite := do(t, caller, Invite{CallID: "c1", Address: callee.Local, RequestURI: uri,
		From: "sip:a@127.0.0.1", To: uri, Body: []byte("offer")})
	came := next(t, called, NoticeRequest)
	same(t, nil, []string{came.Method, string(came.Body)}, []string{"INVITE", "offer"})
	do(t, callee, Response{CallID: "c1", ID: came.ID, Status: 180, Reason: "Ringing"})
	do(t, callee, Response{CallID: "c1", ID: came.ID, Status: 200, Body: []byte("answer")})
	for _, status := range []int{100, 180, 200} {
		answer := next(t, calling, NoticeResponse)
		same(t, nil, []any{answer.ID, answer.Status}, []any{invite, status})
	}
	same(t, nil, next(t, called, NoticeAck).ID, came.ID)
	tag, err := caller.Agent.OpeningTag(invite)
	must(t, err)
	bye := do(t, caller, Request{CallID: "c1", LocalTag: tag, RemoteTag: came.LocalTag,
		Method: "BYE"})
	same(t, nil, next(t, calling, NoticeEnded).RemoteTag, came.LocalTag)
	request := next(t, called, NoticeRequest)
	same(t, nil, request.Method, "BYE")
	same(t, nil, next(t, called, NoticeEnded).LocalTag, came.LocalTag)
	do(t, callee, Response{CallID: "c1", ID: request.ID, Status: 200})
	same(t, nil, next(t, calling, NoticeResponse).ID, bye)
}

// Several goroutines give commands to one endpoint.
func TestManyGoroutinesDo(t *testing.T) {
	const goroutines, commands = 8, 50
	caller, calling := listen(t, Options{})
	callee, err := Listen(context.Background(), loopback, Options{
		Told: func(callee *Endpoint, output Output) {
			_, err := callee.Do(Response{CallID: output.CallID, ID: output.ID, Status: 200})
			if err != nil {
				t.Error(err)
			}
		},
	})
	must(t, err)
	defer callee.Wait()
	defer callee.Close()
	var all sync.WaitGroup
	all.Add(goroutines)
	for i := 0; i < goroutines; i++ {
		go func(i int) {
			defer all.Done()
			for k := 0; k < commands; k++ {
				_, err := caller.Do(Plain{CallID: fmt.Sprint(i, "-", k), Address: callee.Local,
					Method: "OPTIONS", RequestURI: "sip:b@127.0.0.1", From: "sip:a@127.0.0.1",
					To: "sip:b@127.0.0.1"})
				if err != nil {
					t.Error(err)
				}
			}
		}(i)
	}
	all.Wait()
	calls := map[string]bool{}
	for len(calls) < goroutines*commands {
		calls[next(t, calling, NoticeResponse).CallID] = true
	}
	same(t, nil, caller.Counts(), Counts{})
}

// A request that begins a transaction and is too large is lost; so is one too many, except in a
// call.
func TestLimits(t *testing.T) {
	endpoint, told := listen(t, Options{Largest: 1000, MostTransactions: 1})
	udp := socket(t, "127.0.0.1")
	long := "Subject: " + strings.Repeat("x", 1000) + "\r\n"
	send(t, udp, endpoint, request("OPTIONS", "a1", "", long))
	send(t, udp, endpoint, request("OPTIONS", "a2", "", ""))
	same(t, nil, next(t, told, NoticeRequest).ID.Place, uint32(1))
	send(t, udp, endpoint, request("OPTIONS", "a3", "", ""))
	send(t, udp, endpoint, "nothing")
	same(t, nil, next(t, told, Drop).Reason, DropNoEmptyLine)
	send(t, udp, endpoint, request("INFO", "a4", ";tag=t1", ""))
	for !strings.HasPrefix(receive(t, udp), "SIP/2.0 481 ") {
	}
	send(t, udp, endpoint, request("INFO", "a5", ";tag=t1", ""))
	send(t, udp, endpoint, "nothing")
	same(t, nil, next(t, told, Drop).Reason, DropNoEmptyLine)
	same(t, nil, endpoint.Counts(), Counts{Lost: 3})
}

// A repeat from another address gets nothing.
func TestReflected(t *testing.T) {
	endpoint, told := listen(t, Options{})
	one, two := socket(t, "127.0.0.1"), socket(t, "127.0.0.2")
	options := request("OPTIONS", "a1", "", "")
	send(t, one, endpoint, options)
	do(t, endpoint, Response{CallID: "c1", ID: next(t, told, NoticeRequest).ID, Status: 200})
	answer := receive(t, one)
	send(t, two, endpoint, options)
	send(t, two, endpoint, "nothing")
	next(t, told, Drop)
	same(t, nil, endpoint.Counts(), Counts{Reflected: 1})
	send(t, one, endpoint, options)
	same(t, nil, receive(t, one), answer)
}

// A response that is too long for UDP fails; the endpoint goes on.
func TestALongResponseFails(t *testing.T) {
	endpoint, told := listen(t, Options{Largest: LargestDatagram})
	udp := socket(t, "127.0.0.1")
	send(t, udp, endpoint, longInvite)
	id := next(t, told, NoticeRequest).ID
	same(t, nil, next(t, told, NoticeFailed).ID, id)
	send(t, udp, endpoint, request("OPTIONS", "a1", "", ""))
	next(t, told, NoticeRequest)
}

// A request that isn't answered is sent again, and one that the socket refuses has failed.
func TestTimers(t *testing.T) {
	endpoint, told := listen(t, Options{})
	silent := socket(t, "127.0.0.1")
	options := Plain{CallID: "c1", Address: silent.LocalAddr().(*net.UDPAddr).AddrPort(),
		Method: "OPTIONS", RequestURI: "sip:b@127.0.0.1", From: "sip:a@127.0.0.1",
		To: "sip:b@127.0.0.1"}
	begin := time.Now()
	do(t, endpoint, options)
	same(t, nil, receive(t, silent), receive(t, silent))
	if waited := time.Since(begin); waited < 490*time.Millisecond {
		t.Fatal(waited)
	}
	options.CallID, options.Address = "c2", loopback
	id := do(t, endpoint, options)
	same(t, nil, next(t, told, NoticeFailed).ID, id)
}

// How endpoints end: by Close, also from Told, and by their context. Then their address is free.
func TestEnds(t *testing.T) {
	endpoint, err := Listen(context.Background(), loopback, Options{})
	must(t, err)
	endpoint.Close()
	endpoint.Close()
	must(t, endpoint.Wait())
	_, err = endpoint.Do(Cancel{CallID: "c"})
	same(t, nil, err, ErrNoAgent)

	ctx, cancel := context.WithCancel(context.Background())
	options := Options{Configuration: Configuration{Local: own}}
	again, err := Listen(ctx, endpoint.Local, options)
	must(t, err)
	same(t, nil, again.Local, own)
	cancel()
	same(t, nil, again.Wait(), context.Canceled)

	closing := Options{Told: func(endpoint *Endpoint, _ Output) { endpoint.Close() }}
	third, err := Listen(context.Background(), endpoint.Local, closing)
	must(t, err)
	udp := socket(t, "127.0.0.1")
	send(t, udp, third, "nothing")
	must(t, third.Wait())
}

func TestBadAddresses(t *testing.T) {
	for _, bad := range []string{"0.0.0.0:0", "[::1]:0", "[::]:0"} {
		_, err := Listen(context.Background(), netip.MustParseAddrPort(bad), Options{})
		if !errors.Is(err, ErrAddress) {
			t.Fatal(bad, err)
		}
	}
	_, err := Listen(context.Background(), netip.MustParseAddrPort("192.0.2.1:0"), Options{})
	if err == nil {
		t.Fatal("a socket with an address of another host")
	}
	any, err := Listen(context.Background(), netip.MustParseAddrPort("0.0.0.0:0"),
		Options{Configuration: Configuration{Local: own}})
	must(t, err)
	any.Close()
	must(t, any.Wait())
}
