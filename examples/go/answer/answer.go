// An agent that answers over UDP: calls with 180, then with 200 and an SDP answer, other requests
// with 200. At SIGINT or SIGTERM it ends its calls.
//
//	go run ./answer 127.0.0.1:5070
package main

import (
	"context"
	"log"
	"net/netip"
	"os"
	"os/signal"
	"sync"
	"syscall"
	"time"

	"walgroud.example/sipua"
)

const (
	// The answer to an offer of audio. A phone reads the offer, and answers each of its media
	// lines.
	answer = "v=0\r\no=- 1 1 IN IP4 127.0.0.1\r\ns=-\r\nc=IN IP4 127.0.0.1\r\nt=0 0\r\n" +
		"m=audio 41000 RTP/AVP 0\r\n"
	// How long the ends of calls are waited for.
	leaveTime = 5 * time.Second
	// How many calls are held at one time. Another one gets 503, and may come again after this
	// time, in s.
	mostCalls  = 16384
	retryAfter = "10"
)

type dialog struct{ callID, localTag, remoteTag string }

type answerer struct {
	mutex     sync.Mutex
	isLeaving bool
	invites   map[sipua.ID]dialog // those whose 2xx waits for its ACK
	waits     map[dialog]sipua.ID // the same by their dialogs
	isUp      map[dialog]bool
	byes      map[sipua.ID]bool // those that wait for their responses
}

func main() {
	if len(os.Args) != 2 {
		log.Fatal("usage: answer IP:PORT")
	}
	local, err := netip.ParseAddrPort(os.Args[1])
	if err != nil {
		log.Fatal(err)
	}
	told := &answerer{invites: map[sipua.ID]dialog{}, waits: map[dialog]sipua.ID{},
		isUp: map[dialog]bool{}, byes: map[sipua.ID]bool{}}
	endpoint, err := sipua.Listen(context.Background(), local, sipua.Options{Told: told.tell})
	if err != nil {
		log.Fatal(err)
	}
	interrupted, stop := signal.NotifyContext(context.Background(), os.Interrupt, syscall.SIGTERM)
	defer stop()
	gone := make(chan error)
	go func() { gone <- endpoint.Wait() }()
	select {
	case err := <-gone:
		log.Fatal(err)
	case <-interrupted.Done():
	}
	told.leave(endpoint)
	for end := time.Now().Add(leaveTime); told.isBusy() && time.Now().Before(end); {
		time.Sleep(10 * time.Millisecond)
	}
	endpoint.Close()
	<-gone
}

// Handles a notice. Listen calls it for one at a time.
func (a *answerer) tell(endpoint *sipua.Endpoint, output sipua.Output) {
	a.mutex.Lock()
	defer a.mutex.Unlock()
	about := dialog{output.CallID, output.LocalTag, output.RemoteTag}
	invited, isOurs := a.invites[output.ID]
	switch output.Kind {
	case sipua.NoticeRequest:
		a.answer(endpoint, output, about)
	case sipua.NoticeAck, sipua.NoticeNoAck:
		delete(a.invites, output.ID)
		delete(a.waits, invited)
		if isOurs {
			a.isUp[invited] = true
		}
		if isOurs && (a.isLeaving || output.Kind == sipua.NoticeNoAck) {
			a.hangUp(endpoint, invited)
		}
	case sipua.NoticeEnded:
		delete(a.isUp, about)
		delete(a.invites, a.waits[about])
		delete(a.waits, about)
	case sipua.NoticeResponse, sipua.NoticeTimeout, sipua.NoticeFailed, sipua.NoticeRefused:
		delete(a.byes, output.ID) // its only requests are BYEs
	}
}

func (a *answerer) answer(endpoint *sipua.Endpoint, request sipua.Output, about dialog) {
	respond := func(status int, reason, body string, headers ...sipua.Header) {
		do(endpoint, sipua.Response{CallID: request.CallID, ID: request.ID, Status: status,
			Reason: reason, Body: []byte(body), Headers: headers})
	}
	switch {
	case request.Method != "INVITE":
		respond(200, "OK", "")
	case a.isUp[about]: // a re-INVITE
		respond(200, "OK", answer)
	case a.isLeaving:
		respond(480, "Temporarily Unavailable", "")
	case len(a.invites)+len(a.isUp) >= mostCalls:
		respond(503, "Service Unavailable", "", sipua.Header{Name: "Retry-After", Value: retryAfter})
	default:
		a.invites[request.ID] = about
		a.waits[about] = request.ID
		respond(180, "Ringing", "")
		respond(200, "OK", answer)
	}
}

func (a *answerer) hangUp(endpoint *sipua.Endpoint, about dialog) {
	a.byes[do(endpoint, sipua.Request{CallID: about.callID, LocalTag: about.localTag,
		RemoteTag: about.remoteTag, Method: "BYE"})] = true
}

// Ends the calls that are up. The BYE of another one waits for its ACK (RFC 3261, section 15).
func (a *answerer) leave(endpoint *sipua.Endpoint) {
	a.mutex.Lock()
	defer a.mutex.Unlock()
	a.isLeaving = true
	for about := range a.isUp {
		a.hangUp(endpoint, about)
	}
}

func (a *answerer) isBusy() bool {
	a.mutex.Lock()
	defer a.mutex.Unlock()
	return len(a.invites)+len(a.isUp)+len(a.byes) > 0
}

func do(endpoint *sipua.Endpoint, command sipua.Command) sipua.ID {
	id, err := endpoint.Do(command)
	if err != nil {
		log.Print(err)
	}
	return id
}
