package sipua

import (
	"context"
	"crypto/rand"
	"fmt"
	"net"
	"net/netip"
	"regexp"
	"sync"
	"time"
)

const (
	// LargestRequest is how many bytes a request may have that begins a transaction, unless Options
	// say otherwise.
	LargestRequest = 16384
	// MostTransactions is how many transactions are held at one time, unless Options say otherwise:
	// those of some 3,000 requests a second.
	MostTransactions = 100000
	// How many datagrams wait for a round; others wait in the socket.
	mostAtOnce = 250
	// The socket's buffer in bytes, as far as the system allows.
	socketBuffer = 4 << 20
	// How many bytes a datagram can have, and one more.
	datagramRoom = 65536
)

// A CANCEL, or a request with a tag in To.
var ofCall = regexp.MustCompile(`(?im)\A\s*CANCEL |^(?:to|t)[ \t]*:[^\r\n]*;[ \t]*tag[ \t]*=`)

// Options say how Listen opens an endpoint.
type Options struct {
	// Without Local, Via and Contact say the address of the socket. If Seed is zero, it is random.
	Configuration
	// Told is called with each drop and each notice, one at a time, after all sends of its round.
	// There, the methods of Endpoint.Agent say more of the datagram of output.Place. It may give
	// commands and close the endpoint. The rounds wait until it returns, and so does Wait.
	Told func(endpoint *Endpoint, output Output)
	// Largest is how many bytes a request may have that begins a transaction; 0 is LargestRequest.
	Largest int
	// MostTransactions is how many are held at one time; 0 is the constant of this name. Above
	// that, new requests are ignored, except in calls; above twice as many, these too.
	MostTransactions uint64
}

// Counts of an endpoint: the datagrams that were larger than Options.Largest, or had no room in a
// round or above MostTransactions; and the responses that weren't sent since their request came
// again from another address (Agent.IsReflected).
type Counts struct {
	Lost, Reflected uint64
}

// Endpoint is an agent with its socket. It runs a round when something came or is due. Do, Counts,
// Close and Wait may be called by several goroutines at once.
type Endpoint struct {
	// Agent is the agent, to ask about ids and the datagrams of the last round. Give commands by
	// Do, and run no rounds of your own.
	Agent *Agent
	// Local is the address that Via and Contact say.
	Local netip.AddrPort

	options Options
	udp     *net.UDPConn
	start   time.Time // the moment of a round is the ms since then
	came    chan Received
	wake    chan struct{} // has one where events wait for a round
	over    chan struct{} // is closed by end
	ending  sync.Once
	cause   error
	running sync.WaitGroup
	mutex   sync.Mutex
	counts  Counts
}

// Listen opens an endpoint whose socket has this address of IPv4; port 0 takes a free one. It is
// open until Close, until ctx is done, or until something fails. A socket for all addresses needs
// Options.Local.
func Listen(ctx context.Context, address netip.AddrPort, options Options) (*Endpoint, error) {
	if _, err := addressOf(address); err != nil {
		return nil, err
	}
	udp, err := net.ListenUDP("udp4", net.UDPAddrFromAddrPort(address))
	if err != nil {
		return nil, err
	}
	endpoint, err := newEndpoint(udp, options)
	if err != nil {
		udp.Close()
		return nil, err
	}
	endpoint.running.Add(2)
	go func() {
		defer endpoint.running.Done()
		endpoint.end(endpoint.receive())
	}()
	go func() {
		defer endpoint.running.Done()
		endpoint.end(endpoint.serve(ctx))
	}()
	return endpoint, nil
}

// An endpoint over a socket, which doesn't run yet.
func newEndpoint(udp *net.UDPConn, options Options) (*Endpoint, error) {
	if !options.Local.IsValid() {
		options.Local = udp.LocalAddr().(*net.UDPAddr).AddrPort()
	}
	if options.Local.Addr().IsUnspecified() {
		return nil, fmt.Errorf("%w: Options.Local isn't given", ErrAddress)
	}
	if options.Seed == [32]byte{} {
		if _, err := rand.Read(options.Seed[:]); err != nil {
			return nil, err
		}
	}
	if options.Largest == 0 {
		options.Largest = LargestRequest
	}
	if options.MostTransactions == 0 {
		options.MostTransactions = MostTransactions
	}
	agent, err := New(options.Configuration)
	if err != nil {
		return nil, err
	}
	_ = udp.SetReadBuffer(socketBuffer) // a smaller one loses more datagrams of a burst
	return &Endpoint{Agent: agent, Local: options.Local, options: options, udp: udp,
		start: time.Now(), came: make(chan Received, mostAtOnce), wake: make(chan struct{}, 1),
		over: make(chan struct{})}, nil
}

// Do gives a command, as Agent.Do, and has a round run.
func (e *Endpoint) Do(command Command) (ID, error) {
	id, err := e.Agent.Do(command)
	if err == nil {
		e.runSoon()
	}
	return id, err
}

// Counts are those of all datagrams so far.
func (e *Endpoint) Counts() Counts {
	e.mutex.Lock()
	defer e.mutex.Unlock()
	return e.counts
}

// Close frees the agent and closes the socket: end your calls before. Later commands give
// ErrNoAgent. A second Close does nothing.
func (e *Endpoint) Close() { e.end(nil) }

// Wait waits until the endpoint is closed, its address free, and Told has returned. It returns nil
// after Close, the error of the context, or what failed.
func (e *Endpoint) Wait() error {
	e.running.Wait()
	return e.cause
}

// Closes the endpoint. The first cause is the one that counts.
func (e *Endpoint) end(cause error) {
	e.ending.Do(func() {
		e.cause = cause
		close(e.over)
		e.udp.Close()
		e.Agent.Close()
	})
}

func (e *Endpoint) isOver() bool {
	select {
	case <-e.over:
		return true
	default:
		return false
	}
}

func (e *Endpoint) runSoon() {
	select {
	case e.wake <- struct{}{}:
	default: // it will run anyway
	}
}

// Hands over what comes, until the socket is closed.
func (e *Endpoint) receive() error {
	room := make([]byte, datagramRoom)
	for {
		size, from, err := e.udp.ReadFromUDPAddrPort(room)
		if err != nil {
			return err
		}
		select {
		case e.came <- Received{from, append([]byte(nil), room[:size]...)}:
		case <-e.over:
			return nil
		}
	}
}

// Runs the rounds.
func (e *Endpoint) serve(ctx context.Context) error {
	for {
		if err := e.wait(ctx); err != nil {
			return err
		}
		outputs, err := e.Agent.Run(uint64(time.Since(e.start).Milliseconds()))
		e.sendAll(outputs)
		e.tell(outputs)
		if err != nil {
			return err
		}
	}
}

// Waits until a round has something to do, and gives the agent the datagrams that came.
func (e *Endpoint) wait(ctx context.Context) error {
	due, isDue, err := e.Agent.NextDue()
	if err != nil {
		return err
	}
	var alarm <-chan time.Time
	if isDue {
		timer := time.NewTimer(time.Until(e.start.Add(time.Duration(due) * time.Millisecond)))
		defer timer.Stop()
		alarm = timer.C
	}
	select {
	case <-ctx.Done():
		return ctx.Err()
	case <-e.over:
		return nil
	case <-e.wake:
	case <-alarm:
	case first := <-e.came:
		err = e.take(first)
	}
	for left := len(e.came); left > 0 && err == nil; left-- {
		err = e.take(<-e.came)
	}
	return err
}

// Gives the agent a datagram, unless the limits say no. One that has no room is lost, as any
// datagram may be.
func (e *Endpoint) take(datagram Received) error {
	isLost, err := e.sheds(datagram.Data)
	if err == nil && !isLost {
		err = e.Agent.Datagram(datagram.From, datagram.Data)
	}
	if isLost || err == ErrTooManyEvents || err == ErrNoMemory {
		e.count(Counts{Lost: 1})
		return nil
	}
	return err
}

// Whether a datagram would begin a transaction, and is too large, or too many are held: at the
// limit one of a call that stands may begin, at twice that none.
func (e *Endpoint) sheds(data []byte) (bool, error) {
	held, err := e.Agent.Stats()
	if err != nil {
		return false, err
	}
	most := e.options.MostTransactions
	hasRoom := held.Transactions < most ||
		held.Transactions < 2*most && ofCall.Match(data)
	if hasRoom && len(data) <= e.options.Largest {
		return false, nil
	}
	return e.Agent.WouldBegin(data)
}

// Sends the datagrams of a round.
func (e *Endpoint) sendAll(outputs []Output) {
	for _, output := range outputs {
		if output.Kind == Send {
			e.send(output)
		}
	}
}

// Sends a datagram, unless it would answer a repeat from another address. A failure is an event of
// the next round; where that has no room, the transaction ends by its timers.
func (e *Endpoint) send(output Output) {
	if e.Agent.IsReflected(output) {
		e.count(Counts{Reflected: 1})
		return
	}
	if _, err := e.udp.WriteToUDPAddrPort(output.Body, output.To); err != nil {
		_ = e.Agent.Failed(output.Index)
		e.runSoon()
	}
}

// Tells the notices and drops of a round.
func (e *Endpoint) tell(outputs []Output) {
	for _, output := range outputs {
		if output.Kind != Send && e.options.Told != nil && !e.isOver() {
			e.options.Told(e, output)
		}
	}
}

func (e *Endpoint) count(more Counts) {
	e.mutex.Lock()
	defer e.mutex.Unlock()
	e.counts.Lost += more.Lost
	e.counts.Reflected += more.Reflected
}
