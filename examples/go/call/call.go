// A call over UDP: it calls a URI at an address with an offer, prints the responses, and hangs up
// some seconds after the answer. If nobody answers within 20 s, it cancels the call. Its status is
// 0 if the call was answered and has ended.
//
//	go run ./call 127.0.0.1:5080 127.0.0.1:5070 sip:b@127.0.0.1 1
package main

import (
	"context"
	"fmt"
	"log"
	"net/netip"
	"os"
	"strconv"
	"time"

	"walgroud.example/sipua"
)

const (
	offer = "v=0\r\no=- 1 1 IN IP4 127.0.0.1\r\ns=-\r\nc=IN IP4 127.0.0.1\r\nt=0 0\r\n" +
		"m=audio 40000 RTP/AVP 0\r\n"
	ringTime = 20 * time.Second
	// After this time a request has timed out, and a cancelled INVITE is given up: 64 times T1.
	timeout    = 32 * time.Second
	lingerTime = time.Second
)

// A call. Its remote tag is empty until it is answered.
type call struct {
	endpoint                    *sipua.Endpoint
	told                        chan sipua.Output
	invite                      sipua.ID
	callID, localTag, remoteTag string
}

func main() {
	if len(os.Args) != 5 {
		log.Fatal("usage: call IP:PORT PEER-IP:PORT URI SECONDS")
	}
	local, err := netip.ParseAddrPort(os.Args[1])
	must(err)
	peer, err := netip.ParseAddrPort(os.Args[2])
	must(err)
	seconds, err := strconv.Atoi(os.Args[4])
	must(err)
	one := &call{told: make(chan sipua.Output), callID: fmt.Sprintf("go-%d", time.Now().UnixNano())}
	one.endpoint, err = sipua.Listen(context.Background(), local, sipua.Options{Told: one.tell})
	must(err)
	if status := one.dial(peer, os.Args[3]); status/100 != 2 {
		log.Fatal("not answered: ", status)
	}
	_, isEnded := one.await(time.Duration(seconds)*time.Second, func(output sipua.Output) bool {
		return output.Kind == sipua.NoticeEnded && output.RemoteTag == one.remoteTag
	})
	if isEnded { // by the peer's BYE, whose repeats are answered
		one.await(lingerTime, isOutcome(sipua.ID{}))
	} else {
		one.await(timeout, isOutcome(one.hangUp(one.remoteTag)))
	}
	one.endpoint.Close()
}

// Prints a response, and hands each notice over. The datagram of a notice can be read here.
func (c *call) tell(endpoint *sipua.Endpoint, output sipua.Output) {
	if output.Kind == sipua.NoticeResponse {
		start, _, err := endpoint.Agent.StartLine(output.Place)
		must(err)
		fmt.Println(start.Status, start.Reason)
	}
	c.told <- output
}

// Calls, and returns the status of the answer, or 0.
func (c *call) dial(peer netip.AddrPort, uri string) int {
	c.invite = c.do(sipua.Invite{CallID: c.callID, Address: peer, RequestURI: uri,
		From: "sip:caller@" + c.endpoint.Local.String(), To: uri, Body: []byte(offer)})
	var err error
	c.localTag, err = c.endpoint.Agent.OpeningTag(c.invite)
	must(err)
	outcome, is := c.await(ringTime, isOutcome(c.invite))
	if !is {
		c.do(sipua.Cancel{CallID: c.callID, ID: c.invite})
		outcome, is = c.await(timeout, isOutcome(c.invite))
	}
	if !is {
		c.do(sipua.AbandonRequest{CallID: c.callID, ID: c.invite})
	}
	if outcome.Status/100 == 2 {
		c.remoteTag = outcome.RemoteTag // its ACK went out
	}
	return outcome.Status
}

func (c *call) hangUp(remoteTag string) sipua.ID {
	return c.do(sipua.Request{CallID: c.callID, LocalTag: c.localTag, RemoteTag: remoteTag,
		Method: "BYE"})
}

// Whether an output ends a request.
func isOutcome(of sipua.ID) func(sipua.Output) bool {
	return func(output sipua.Output) bool {
		switch output.Kind {
		case sipua.NoticeTimeout, sipua.NoticeFailed, sipua.NoticeRefused:
			return output.ID == of
		}
		return output.Kind == sipua.NoticeResponse && output.Status >= 200 && output.ID == of
	}
}

// Handles what comes until an output is wanted, or the time is over.
func (c *call) await(patience time.Duration, isWanted func(sipua.Output) bool) (
	sipua.Output, bool) {
	over := time.After(patience)
	for {
		select {
		case output := <-c.told:
			c.handle(output)
			if isWanted(output) {
				return output, true
			}
		case <-over:
			return sipua.Output{}, false
		}
	}
}

// Answers requests of the peer, and ends the other branches of a fork.
func (c *call) handle(output sipua.Output) {
	isLate := output.Kind == sipua.NoticeResponse && output.ID == c.invite &&
		output.Status/100 == 2 && c.remoteTag != ""
	if isLate && output.RemoteTag != c.remoteTag {
		c.hangUp(output.RemoteTag)
	}
	if output.Kind != sipua.NoticeRequest {
		return
	}
	response := sipua.Response{CallID: output.CallID, ID: output.ID, Status: 200, Reason: "OK"}
	if output.Method == "INVITE" {
		response.Status, response.Reason = 488, "Not Acceptable Here"
	}
	c.do(response)
}

func (c *call) do(command sipua.Command) sipua.ID {
	id, err := c.endpoint.Do(command)
	must(err)
	return id
}

func must(err error) {
	if err != nil {
		log.Fatal(err)
	}
}
