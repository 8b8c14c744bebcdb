// Package door lets any number of clients share a store over a Unix socket, by the lines of `snap_replay serve`
// (docs/SCRIPT.md). Each connection has lines, numbers and ids of its own, and its answers come in the order of its lines.
// Its peer's user and groups say what it may do.
package door

import (
	"context"
	"errors"
	"io"
	"net"
	"sync"
	"sync/atomic"
	"time"

	"pibroulez.example/pibroulez"
)

// How many lines of a connection may be sent and not answered, how many bytes each of them may have, and how many lines of
// one user may be under way whose answers may be long. A line with more bytes, or with a long answer, waits until those
// before it are answered, and those after it wait for it.
const (
	mostSent      = 64
	mostSentBytes = 64 << 10
	mostLong      = 32
)

// Config says how a door works. All of it is needed but Charge and Observe.
type Config struct {
	Store *pibroulez.Store
	// Rights says what a peer may do. It is asked for each line.
	Rights func(Peer) Rights
	// LineBytes is the most bytes of a line.
	LineBytes int
	// Connections is how many one user may have at one time.
	Connections int
	// Patience is how long a line may take from its first byte to its end, and a part of an answer to be read.
	Patience time.Duration
	// Journal is the most entries of a round, and at least 8. The door begins the next one where half of them are made.
	Journal uint64
	// Refusals has a line for each refusal, in JSON.
	Refusals io.Writer
	// Charge makes a call that charges a namespace at most `need` more than it is charged, as one that first gets a limit of
	// a cluster for it, or is nil where calls are made as they are. It may make the call again where that was
	// pibroulez.ErrOverLimit. Its error is the call's, or *OverLimit. Nobody sets a limit by the door then, and what charges
	// isn't pipelined.
	Charge func(ctx context.Context, namespace string, need pibroulez.Usage, call func(context.Context) error) error
	// Observe is told how long each line took that the store has answered, or nil.
	Observe func(do string, took time.Duration)
	// Warn is told what else has failed.
	Warn func(words string, err error)
}

// A Door serves connections until it is closed.
type Door struct {
	config   Config
	refusals refusals
	counters counters
	// Ends what waits for the store.
	ctx    context.Context
	cancel context.CancelFunc
	// Those that serve a connection, and what begins rounds.
	serving sync.WaitGroup
	roll    chan struct{}
	made    atomic.Uint64

	mutex sync.Mutex
	users map[uint32]*user
	open  map[*connection]bool
	// Whether no more are served, and who listens.
	isClosed  bool
	listeners []net.Listener
}

// What the connections of one user share.
type user struct {
	connections int
	// Has an element for each line whose answer may be long.
	long chan struct{}
}

// New makes a door. Close it once it isn't used any more.
func New(config Config) *Door {
	d := &Door{
		config: config, refusals: refusals{to: config.Refusals, users: map[uint32]*allowance{}}, counters: newCounters(),
		roll: make(chan struct{}, 1), users: map[uint32]*user{}, open: map[*connection]bool{},
	}
	d.ctx, d.cancel = context.WithCancel(context.Background())
	d.serving.Add(1)
	go d.rollEarly()
	return d
}

// Serve serves the connections of a listener, until the door is closed: then there is no error.
func (d *Door) Serve(listener *net.UnixListener) error {
	d.mutex.Lock()
	d.listeners = append(d.listeners, listener)
	isClosed := d.isClosed
	d.mutex.Unlock()
	if isClosed {
		listener.Close()
	}
	for {
		socket, err := listener.AcceptUnix()
		switch {
		case err == nil:
			d.take(socket)
		case d.ctx.Err() != nil || errors.Is(err, net.ErrClosed):
			return nil
		case isPassing(err):
			// Without descriptors or memory there will be some, once another connection has ended.
			d.config.Warn("no connection is taken for a while", err)
			select {
			case <-time.After(pause):
			case <-d.ctx.Done():
			}
		default:
			return err
		}
	}
}

// How long no connection is taken where the system has no room for one.
const pause = 100 * time.Millisecond

// Serves a connection, where its user may have one more.
func (d *Door) take(socket *net.UnixConn) {
	peer, err := peerOf(socket)
	if err != nil {
		d.config.Warn("a connection of nobody", err)
		socket.Close()
		return
	}
	c := &connection{door: d, socket: socket, peer: peer}
	if isTaken, name := d.enter(c); !isTaken {
		if name != "" {
			d.refuse(peer, name, pibroulez.Line{})
			// The room of a new socket takes these bytes.
			socket.Write(append(refusalOf(name), '\n'))
		}
		socket.Close()
		return
	}
	go func() {
		defer d.leave(c)
		c.serve()
	}()
}

// Counts a connection, where it may be served. Where its user may not have one more, that is told.
func (d *Door) enter(c *connection) (isTaken bool, name pibroulez.Reason) {
	d.mutex.Lock()
	defer d.mutex.Unlock()
	u := d.users[c.peer.User]
	switch {
	case d.isClosed:
		return false, ""
	case u == nil:
		u = &user{long: make(chan struct{}, mostLong)}
		d.users[c.peer.User] = u
	case u.connections >= d.config.Connections:
		return false, pibroulez.ErrTooManyConnections
	}
	u.connections++
	c.user = u
	d.open[c] = true
	d.serving.Add(1)
	return true, ""
}

func (d *Door) leave(c *connection) {
	defer d.serving.Done()
	d.mutex.Lock()
	defer d.mutex.Unlock()
	delete(d.open, c)
	if c.user.connections--; c.user.connections == 0 {
		delete(d.users, c.peer.User)
	}
}

// Close takes no more connections and no more lines, and waits until those that were read are answered, at most for the
// door's patience, in which the store answers and peers read.
func (d *Door) Close() {
	d.mutex.Lock()
	isFirst := !d.isClosed
	d.isClosed = true
	for _, it := range d.listeners {
		it.Close()
	}
	for c := range d.open {
		c.readNoMore()
	}
	d.mutex.Unlock()
	if isFirst {
		close(d.roll)
	}
	late := time.AfterFunc(d.config.Patience, d.cancel)
	defer late.Stop()
	d.serving.Wait()
	d.cancel()
}

// Writes a refusal into its log, and counts it.
func (d *Door) refuse(peer Peer, name pibroulez.Reason, line pibroulez.Line) {
	d.counters.refuse(name)
	if err := d.refusals.tell(time.Now(), peer, name, line); err != nil {
		d.config.Warn("a refusal isn't in its log", err)
	}
}

// Counts a line that may make an entry, and has a round begun where half of one may be full.
func (d *Door) madeEntry() {
	if d.made.Add(1)%(d.config.Journal/8) != 0 {
		return
	}
	d.mutex.Lock()
	defer d.mutex.Unlock()
	if d.isClosed {
		return
	}
	select {
	case d.roll <- struct{}{}:
	default:
	}
}

// Begins rounds before one is full, so that no line finds it full: those after it, which were sent already, would be
// carried out without it.
func (d *Door) rollEarly() {
	defer d.serving.Done()
	for range d.roll {
		report, err := d.config.Store.Report(d.ctx)
		if err == nil && report.Entries >= d.config.Journal/2 {
			err = d.config.Store.Roll(d.ctx, d.config.Journal)
		}
		if err != nil && !errors.Is(err, pibroulez.ErrDied) {
			d.config.Warn("no round is begun", err)
		}
	}
}

// Why a line can't be sent, as its peer is told it, or nothing where the connection ends.
func (d *Door) reasonOf(err error) pibroulez.Reason {
	switch {
	case isNoSpace(err):
		return pibroulez.ErrNoSpace
	case !errors.Is(err, pibroulez.ErrDied) && !errors.Is(err, pibroulez.ErrClosed) && d.ctx.Err() == nil:
		d.config.Warn("a line isn't sent", err)
	}
	return ""
}
