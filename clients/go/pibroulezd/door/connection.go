package door

import (
	"bufio"
	"bytes"
	"context"
	"errors"
	"io"
	"net"
	"os"
	"sync/atomic"
	"time"

	"pibroulez.example/pibroulez"
)

// How many bytes are read ahead, and written at a time.
const (
	readBytes  = 16 << 10
	writeBytes = 64 << 10
)

// A connection is served by two goroutines: one reads lines and sends them, the other waits for their answers, in order,
// and writes them.
type connection struct {
	door   *Door
	socket *net.UnixConn
	peer   Peer
	user   *user
	// Whether no more lines are to be read.
	isEnding atomic.Bool

	input *bufio.Reader
	// The number of the last line.
	number uint64
	// The lines that wait for their answers, and an element for each one of them.
	waiting chan answer
	sent    chan struct{}
	// Ends with the writing.
	ctx context.Context
}

// An answer that is to be written: its text, or what waits for it.
type answer struct {
	text   []byte
	sent   *pibroulez.Sent
	number uint64
	id     []byte
	// Whether it is alone under way, what it does, and when it was sent.
	isAlone bool
	do      string
	begin   time.Time
}

var errLate = errors.New("a line without its end")

func (c *connection) serve() {
	c.input = bufio.NewReaderSize(c.socket, readBytes)
	c.waiting, c.sent = make(chan answer, mostSent), make(chan struct{}, mostSent)
	ctx, cancel := context.WithCancel(c.door.ctx)
	c.ctx = ctx
	written := make(chan struct{})
	go func() {
		defer close(written)
		c.write(cancel)
	}()
	for c.readLine() {
	}
	close(c.waiting)
	<-written
	cancel()
	c.socket.Close()
}

// Has no more lines read. A line that has begun is cut off.
func (c *connection) readNoMore() {
	c.isEnding.Store(true)
	c.socket.SetReadDeadline(time.Unix(1, 0))
}

// Reads a line and has it answered. Whether there may be another one.
func (c *connection) readLine() bool {
	text, isTooLong, err := c.nextLine()
	if err != nil && len(text) == 0 && !isTooLong {
		if errors.Is(err, errLate) {
			c.door.refuse(c.peer, pibroulez.ErrLateLine, pibroulez.Line{})
			c.answer(answer{text: refusalOf(pibroulez.ErrLateLine)})
		}
		return false
	}
	c.number++
	c.door.counters.lines.Add(1)
	if isTooLong {
		return c.answer(answer{text: faultOf("too long", c.number)}) && err == nil
	}
	return c.carryOut(text) && err == nil
}

// Carries out a line, and has its answer written in its place. Whether the connection goes on.
func (c *connection) carryOut(text []byte) bool {
	if isEmpty(text) {
		return c.answer(answer{text: []byte(`{"empty":true}`)})
	}
	it := parse(text)
	if it.fault != "" {
		return c.answer(answer{text: withID(faultOf(it.fault, c.number), it.id)})
	}
	if !c.isAllowed(it) {
		return c.refuse(it, pibroulez.ErrNotAllowed)
	}
	isAlone := len(text) > mostSentBytes || !isShort[it.Do]
	if !c.begin(isAlone) {
		return false
	}
	// Its turn may have come late.
	if !c.isAllowed(it) {
		c.end(isAlone)
		return c.refuse(it, pibroulez.ErrNotAllowed)
	}
	if !it.IsQuestion() {
		c.door.madeEntry()
	}
	if c.door.config.Charge != nil && charges[it.Do] {
		return c.charge(it, isAlone)
	}
	begin := time.Now()
	sent, err := c.door.config.Store.Send(c.ctx, it.Line)
	if err == nil {
		c.waiting <- answer{sent: sent, number: c.number, id: it.id, isAlone: isAlone, do: it.Do, begin: begin}
		return true
	}
	c.end(isAlone)
	if name := c.door.reasonOf(err); name != "" {
		return c.refuse(it, name)
	}
	return false
}

// Whether the peer may make a call now.
func (c *connection) isAllowed(it command) bool {
	return c.door.config.Rights(c.peer).allow(it.Line) && (c.door.config.Charge == nil || !isNobodysInCluster[it.Do]) && !makesIdentity(it.Line)
}

func (c *connection) refuse(it command, name pibroulez.Reason) bool {
	c.door.refuse(c.peer, name, it.Line)
	return c.answer(answer{text: withID(refusalOf(name), it.id)})
}

// Has a text written in its place, once there is room.
func (c *connection) answer(it answer) bool {
	if !c.begin(false) {
		return false
	}
	c.waiting <- it
	return true
}

// Waits until one more may be under way, or this one alone. Whether the connection goes on.
func (c *connection) begin(isAlone bool) bool {
	elements := 1
	if isAlone {
		elements = mostSent
		select {
		case c.user.long <- struct{}{}:
		case <-c.ctx.Done():
			return false
		}
	}
	for i := 0; i < elements; i++ {
		select {
		case c.sent <- struct{}{}:
		case <-c.ctx.Done():
			c.take(i)
			if isAlone {
				<-c.user.long
			}
			return false
		}
	}
	return true
}

// One is under way no more.
func (c *connection) end(isAlone bool) {
	if !isAlone {
		c.take(1)
		return
	}
	c.take(mostSent)
	<-c.user.long
}

func (c *connection) take(elements int) {
	for i := 0; i < elements; i++ {
		<-c.sent
	}
}

// Reads up to the end of a line, which it takes away. A line of too many bytes is read to its end, and kept no more. The
// error is that of the end of the connection, after the last line, or errLate.
func (c *connection) nextLine() (text []byte, isTooLong bool, err error) {
	if err := c.waitForLine(); err != nil {
		return nil, false, err
	}
	for {
		part, err := c.input.ReadSlice('\n')
		if !isTooLong {
			text = append(text, part...)
			isTooLong = len(bytes.TrimSuffix(text, []byte("\n"))) > c.door.config.LineBytes
		}
		if isTooLong {
			text = nil
		}
		switch {
		case errors.Is(err, bufio.ErrBufferFull):
		case errors.Is(err, os.ErrDeadlineExceeded):
			if c.isEnding.Load() {
				return nil, false, io.EOF
			}
			return nil, false, errLate
		case err != nil && err != io.EOF:
			return nil, false, err
		default:
			return bytes.TrimSuffix(text, []byte("\n")), isTooLong, err
		}
	}
}

// Waits for the first byte of a line, as long as there is none. From then on it has to end before the patience does.
func (c *connection) waitForLine() error {
	if ahead, _ := c.input.Peek(c.input.Buffered()); bytes.IndexByte(ahead, '\n') >= 0 {
		return nil
	}
	if c.input.Buffered() == 0 {
		c.setReadDeadline(time.Time{})
		if _, err := c.input.Peek(1); err != nil {
			return io.EOF
		}
	}
	c.setReadDeadline(time.Now().Add(c.door.config.Patience))
	return nil
}

func (c *connection) setReadDeadline(at time.Time) {
	c.socket.SetReadDeadline(at)
	if c.isEnding.Load() {
		c.socket.SetReadDeadline(time.Unix(1, 0))
	}
}

// Writes the answers in their order. Where one can't be got or written the connection ends, and the others are dropped.
func (c *connection) write(cancel context.CancelFunc) {
	output := bufio.NewWriterSize(deadlineWriter{c.socket, c.door.config.Patience}, writeBytes)
	isBroken := false
	for it := range c.waiting {
		if !isBroken {
			if err := c.writeAnswer(output, it); err != nil {
				isBroken = true
				cancel()
				c.socket.Close()
			}
		}
		c.end(it.isAlone)
	}
}

// Writes an answer. What is to be written doesn't wait for one that hasn't come.
func (c *connection) writeAnswer(output *bufio.Writer, it answer) error {
	text := it.text
	if it.sent != nil {
		if !it.sent.IsAnswered() {
			if err := output.Flush(); err != nil {
				return err
			}
		}
		answered, err := it.sent.Answer(c.ctx)
		if err != nil {
			return err
		}
		c.door.counters.answer(answered)
		if c.door.config.Observe != nil {
			c.door.config.Observe(it.do, time.Since(it.begin))
		}
		text = handedOn(answered, it.number, it.id)
	}
	output.Write(text)
	output.WriteByte('\n')
	if len(c.waiting) > 0 && !it.isAlone {
		return nil
	}
	return output.Flush()
}

// Writes to a socket whose peer has to read each part before the patience ends.
type deadlineWriter struct {
	socket   *net.UnixConn
	patience time.Duration
}

func (w deadlineWriter) Write(text []byte) (int, error) {
	written := 0
	for written < len(text) {
		end := written + writeBytes
		if end > len(text) {
			end = len(text)
		}
		if err := w.socket.SetWriteDeadline(time.Now().Add(w.patience)); err != nil {
			return written, err
		}
		size, err := w.socket.Write(text[written:end])
		written += size
		if err != nil {
			return written, err
		}
	}
	return written, nil
}
