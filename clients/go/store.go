// Package pibroulez is a client of a store of container snapshots, which a process `snap_replay serve` keeps.
//
// A Store has a method for each command of the process; docs/SCRIPT.md says what each does, and which refusals it
// has. Any number of goroutines may call it. A call is sent as soon as it is made, and its answer is that of its
// place in the order, so no call waits for the answer of another. Where a call's context ends, the call returns the
// context's error; the process may still carry it out, and its answer is dropped.
//
// The process keeps all in memory, so nothing outlives it but what a log keeps: see Config.Log and Open. The process has
// each call that changes something on the disk before it answers it. A call whose line the disk of the log has no room for
// is syscall.ENOSPC, or syscall.EDQUOT, and isn't sent; the store goes on. A log holds some of the disk for the calls that
// free something: discard, remove, sweep, trim, lease_drop, lease_release, reopen and roll. Calls that change nothing and
// make no entry have no line in it. What the process can't keep though it was sent is ErrNotKept.
package pibroulez

import (
	"bufio"
	"bytes"
	"context"
	"encoding/json"
	"errors"
	"fmt"
	"io"
	"io/fs"
	"os"
	"sort"
	"sync"
	"sync/atomic"
	"time"
	"unicode/utf8"
)

// How many calls may be sent before the first is answered.
const maxSent = 1024

// Config says what a store is opened with.
type Config struct {
	// Program is the path of snap_replay.
	Program string
	// Root is the directory that mounts name.
	Root string
	// Namespaces are the namespaces that it begins with, with their limits: 4096 at most, and maybe none.
	Namespaces map[string]Usage
	// Journal is the most entries of the journal's first round, or the default where it is 0.
	Journal uint64
	// Slots is how many snapshots may be active at one time, of all namespaces together: 1 to 4096, or 64 where it is 0.
	Slots uint64
	// LayerInodes is the most inodes of each layer that is made, or the default, 65,536, where it is 0.
	LayerInodes uint64
	// Ancestors is the most committed ancestors of a snapshot: 1 to 500, or 64 where it is 0.
	Ancestors uint64
	// Log is the path of a file in which the process keeps the calls, or empty for none. For New it must have no store yet.
	// A file of this name and `-wal` more is made beside it.
	Log string
	// Checkpoint says when the process makes the log short: where it has grown to so many times what it had behind the last
	// checkpoint, of at least 1 MiB, or never where it is 0; with 1 it does all the time. The next round of the journal begins
	// by itself then, as by Roll to as many entries, at any moment: the entries of the round before are gone, and so are its
	// sessions, so that a call in another session than 0 is ErrNoSession until Session has opened it anew.
	Checkpoint uint64
	// Socket is the path at which a daemon has a store that it shares, or empty for a store of this client's own. No other
	// field is given with it: the daemon has opened the store, keeps its log and begins its rounds.
	Socket string
}

// A Store is a store that a process of its own keeps, or a daemon behind a socket: see Config.Socket.
type Store struct {
	peer peer
	log  *log

	// The callers hand their calls to the writer, which hands each to the reader and sends it.
	calls chan *call
	sent  chan *call

	rounds rounds

	closing chan struct{}
	close   sync.Once
	// How long Close waits for an answer, and how many have come.
	patience time.Duration
	answered atomic.Uint64
	// Whether the process was killed since none came.
	stuck atomic.Bool

	// Is closed once no call is answered any more; then err says why.
	ended chan struct{}
	err   error
}

// How long Close waits for a process that answers nothing.
const patience = 10 * time.Second

type call struct {
	do   string
	line []byte
	// Whether it changes nothing and makes no entry.
	isLookup bool
	// The number of the call, from 1. It is the id of its line, so that its answer is known by it.
	id     uint64
	answer chan []byte
}

// The fields of a command.
type fields map[string]any

// New starts the process and opens a store, and a log where the configuration names one.
//
// With Config.Socket it connects with a daemon in place of that: the error is ErrNotOfSocket, or that of the connection.
// Else it is a *Refusal where the store is refused, fs.ErrExist where the log has a store, a *BadLog where the file is
// another's, and syscall.EWOULDBLOCK where another process has the log. With an error a file that has text is as it was;
// a log without a line may be left, on which a store can be opened, and one with it where the context has ended.
func New(ctx context.Context, config Config) (*Store, error) {
	return config.begin(ctx, func(store *Store, has bool) error {
		if has {
			return isThere(config.Log)
		}
		return store.open(ctx, config)
	})
}

// The error of a log that has a store already.
func isThere(path string) error { return &fs.PathError{Op: "create log", Path: path, Err: fs.ErrExist} }

func (s *Store) open(ctx context.Context, config Config) error {
	if err := s.log.checkNoLines(); err != nil {
		return err
	}
	return s.call(ctx, "open", config.fields(), nil, nil)
}

func (c Config) fields() fields {
	namespaces := make([][3]any, 0, len(c.Namespaces))
	for name, limit := range c.Namespaces {
		namespaces = append(namespaces, [3]any{name, limit.Blocks, limit.Inodes})
	}
	sort.Slice(namespaces, func(i, j int) bool { return namespaces[i][0].(string) < namespaces[j][0].(string) })
	given := fields{"root": c.Root, "namespaces": namespaces}
	if c.Journal != 0 {
		given["journal"] = c.Journal
	}
	if c.Slots != 0 {
		given["slots"] = c.Slots
	}
	if c.LayerInodes != 0 {
		given["layer_inodes"] = c.LayerInodes
	}
	if c.Ancestors != 0 {
		given["ancestors"] = c.Ancestors
	}
	return given
}

// Open starts the process, and opens the store again that a log tells. The store goes on with the log, and doesn't make it
// short: OpenOrNew does.
//
// The error is fs.ErrNotExist where there is no log, or none with a line, a *BadLog where the file is no log, and
// syscall.EWOULDBLOCK where another process has the log: also the one of a client that was killed, until it has seen the
// end of its input. With an error a file that has text is as it was. The cost is that of all calls in the log.
func Open(ctx context.Context, program, path string) (*Store, error) {
	return begin(ctx, program, path, 0, 0, func(store *Store, has bool) error {
		if has {
			return nil
		}
		if err := store.log.checkNoLines(); err != nil {
			return err
		}
		return &fs.PathError{Op: "open log without a line", Path: path, Err: fs.ErrNotExist}
	})
}

// OpenOrNew opens the store again that the configuration's log tells, as Open does. Where there is no log, or none with a
// line, it opens a store as New does; all of the configuration but Program, Log and Checkpoint is of such a store alone. With
// Config.Socket it is New.
func OpenOrNew(ctx context.Context, config Config) (*Store, error) {
	return config.begin(ctx, func(store *Store, has bool) error {
		if has {
			return nil
		}
		return store.open(ctx, config)
	})
}

// Connects with the daemon where a socket is named, and else starts a process over a log that is made where it isn't there.
func (c Config) begin(ctx context.Context, first func(store *Store, has bool) error) (*Store, error) {
	if c.Socket != "" {
		return connect(ctx, c)
	}
	return begin(ctx, c.Program, c.Log, c.Checkpoint, os.O_CREATE, first)
}

// Starts the process over a log, if one is named, and does what is to be done with it first, which is told whether there
// is a store.
func begin(
	ctx context.Context, program, path string, checkpoint uint64, flags int, first func(store *Store, has bool) error,
) (*Store, error) {
	lines, err := findLog(path, checkpoint, flags)
	if err != nil {
		return nil, err
	}
	process, input, output, err := startProcess(program, lines.words())
	if err != nil {
		lines.close()
		return nil, err
	}
	store := storeOf(process, lines)
	store.run(input, output)
	has, err := store.hasStore(ctx)
	if err == nil {
		err = lines.findSecond()
	}
	if err == nil {
		err = first(store, has)
	}
	if err != nil {
		store.peer.kill()
		store.Close()
		return nil, err
	}
	lines.hold()
	return store, nil
}

func storeOf(peer peer, lines *log) *Store {
	return &Store{
		peer:    peer,
		log:     lines,
		calls:   make(chan *call),
		sent:    make(chan *call, maxSent),
		closing: make(chan struct{}),
		ended:   make(chan struct{}),
		rounds:  rounds{turn: make(chan struct{}, 1)},

		patience: patience,
	}
}

// Has the calls written and their answers read from now on.
func (s *Store) run(input io.WriteCloser, output io.Reader) {
	go s.write(input)
	go s.read(bufio.NewReader(output))
}

// Close ends the process, once it has answered the calls that were sent. Later calls are ErrClosed.
//
// A process that answers nothing for 10 seconds, as a stopped one, is killed: ErrDied. So are the calls that it hasn't
// answered. Of a daemon the connection is ended in place of the process.
func (s *Store) Close() error {
	s.close.Do(func() { close(s.closing) })
	for {
		answered := s.answered.Load()
		select {
		case <-s.ended:
			if errors.Is(s.err, ErrClosed) {
				return nil
			}
			return s.err
		case <-time.After(s.patience):
		}
		if s.answered.Load() == answered {
			s.stuck.Store(true)
			s.peer.kill()
		}
	}
}

// Ended is closed once the process has ended, by Close or by itself. Err says why then.
func (s *Store) Ended() <-chan struct{} { return s.ended }

// Err is nil as long as the process runs, then ErrClosed where Close has ended it, and else ErrDied.
func (s *Store) Err() error {
	select {
	case <-s.ended:
		return s.err
	default:
		return nil
	}
}

// PID is the process, or the daemon's.
func (s *Store) PID() int { return s.peer.pid() }

// Request makes the call of any command, with the fields that docs/SCRIPT.md names, and takes the members of its
// answer, where answer isn't nil, as json.Unmarshal does. It is ErrReserved where a field is `do` or `id`.
func (s *Store) Request(ctx context.Context, do string, command map[string]any, answer any) error {
	return s.call(ctx, do, command, nil, answer)
}

func (s *Store) call(ctx context.Context, do string, given fields, options []Option, answer any) error {
	c, err := callOf(do, given, options)
	if err != nil {
		return fmt.Errorf("%s: %w", do, err)
	}
	text, err := s.answerTo(ctx, c)
	if err != nil {
		return fmt.Errorf("%s: %w", do, err)
	}
	if answer == nil {
		return nil
	}
	return json.Unmarshal(text, answer)
}

// The call of a command. Its line has its line feed.
func callOf(do string, given fields, options []Option) (call, error) {
	command := fields{"do": do}
	for name, value := range given {
		if name == "do" || name == "id" {
			return call{}, fmt.Errorf("%w: %s", ErrReserved, name)
		}
		command[name] = value
	}
	for _, option := range options {
		if !option.isOf(do) {
			return call{}, fmt.Errorf("%w: %s", ErrOption, option.field)
		}
		command[option.field] = option.value
		if option.value == nil {
			delete(command, option.field)
		}
	}
	line, err := json.Marshal(command)
	if err != nil {
		return call{}, err
	}
	if !isText(line) {
		return call{}, ErrNotText
	}
	return call{do: do, line: append(line, '\n'), isLookup: makesNoEntry(do, command)}, nil
}

// Whether what json.Marshal has written is of texts in UTF-8: in place of each other byte it puts the escape \ufffd,
// and the character itself it leaves as it is. A json.RawMessage it takes over unseen.
func isText(line []byte) bool {
	if !utf8.Valid(line) {
		return false
	}
	escape := []byte(`\ufffd`)
	for begin := 0; ; {
		at := bytes.Index(line[begin:], escape)
		if at < 0 {
			return true
		}
		before := line[begin : begin+at]
		if (len(before)-len(bytes.TrimRight(before, `\`)))%2 == 0 {
			return false
		}
		begin += at + len(escape)
	}
}

// What an answer refuses, if it does.
func refused(text []byte) error {
	switch {
	case isFault(text):
		fault := new(Fault)
		if err := json.Unmarshal(text, fault); err != nil {
			return err
		}
		return fault
	case bytes.HasPrefix(text, []byte(`{"error":`)):
		refusal, err := refusalIn(text)
		if err != nil {
			return err
		}
		return refusal
	}
	return nil
}

// The members of an answer are in byte order, so this one is the first.
func isFault(text []byte) bool { return bytes.HasPrefix(text, []byte(`{"fault":`)) }

// Sends a call, and waits for its answer.
func (s *Store) exchange(ctx context.Context, given call) ([]byte, error) {
	if err := s.post(ctx, &given); err != nil {
		return nil, err
	}
	return s.wait(ctx, &given)
}

// Sends a call.
func (s *Store) post(ctx context.Context, c *call) error {
	c.answer = make(chan []byte, 1)
	if err := s.Err(); err != nil {
		return err
	}
	if err := s.log.admit(c); err != nil {
		return err
	}
	if err := s.send(ctx, c); err != nil {
		s.log.release(c)
		return err
	}
	return nil
}

// Waits for the answer of a call that was sent.
func (s *Store) wait(ctx context.Context, c *call) ([]byte, error) {
	select {
	case text := <-c.answer:
		return text, nil
	case <-ctx.Done():
		return nil, ctx.Err()
	case <-s.ended:
	}
	select {
	case text := <-c.answer:
		return text, nil
	default:
		return nil, s.err
	}
}

// Hands a call to the writer.
func (s *Store) send(ctx context.Context, c *call) error {
	if err := ctx.Err(); err != nil {
		return err
	}
	select {
	case <-s.closing:
		return ErrClosed
	default:
	}
	select {
	case s.calls <- c:
		return nil
	case <-ctx.Done():
		return ctx.Err()
	case <-s.closing:
		return ErrClosed
	case <-s.ended:
		return s.err
	}
}

// Sends the calls, in the order in which it hands them to the reader, until the store is closed. Where the process
// takes none, the reader finds its end.
func (s *Store) write(input io.WriteCloser) {
	defer input.Close()
	output := bufio.NewWriter(input)
	for id := uint64(1); ; id++ {
		var c *call
		select {
		case c = <-s.calls:
		default:
			output.Flush()
			select {
			case c = <-s.calls:
			case <-s.closing:
				return
			case <-s.ended:
				return
			}
		}
		c.id = id
		select {
		case s.sent <- c:
		default:
			output.Flush()
			select {
			case s.sent <- c:
			case <-s.ended:
				return
			}
		}
		output.Write(bytes.TrimSuffix(c.line, []byte("}\n")))
		output.WriteString(c.member())
	}
}

// The end of the line and of the answer of a call: the member that has its id.
func (c *call) member() string { return fmt.Sprintf(",\"id\":%d}\n", c.id) }

// Hands out the answers until the process ends.
func (s *Store) read(output *bufio.Reader) {
	for {
		text, err := output.ReadBytes('\n')
		if err != nil {
			s.end(nil, false)
			return
		}
		var c *call
		select {
		case c = <-s.sent:
		default:
			s.end(unasked(text, "an answer without a call"), true)
			return
		}
		if text, err = c.answerIn(text); err != nil {
			s.end(err, true)
			return
		}
		s.answered.Add(1)
		s.log.release(c)
		c.answer <- text
	}
}

// The answer of the call within a response. A line that is too long has no id, and is told as a fault without one.
func (c *call) answerIn(response []byte) ([]byte, error) {
	begin, end := []byte(`{"answer":`), []byte(c.member())
	if bytes.HasPrefix(response, begin) && bytes.HasSuffix(response, end) {
		return response[len(begin) : len(response)-len(end)], nil
	}
	if isFault(response) {
		return response, nil
	}
	return nil, unasked(response, "an answer to another call")
}

// What ends a store that gets an answer which nobody has asked for: a refusal is that of a daemon that ends the connection.
func unasked(text []byte, otherwise string) error {
	if err := refused(text); err != nil {
		return err
	}
	return errors.New(otherwise)
}

// Ends the process, at once where it is to be killed, and has all calls from now on answered with the cause.
func (s *Store) end(cause error, kill bool) {
	if kill {
		s.peer.kill()
	}
	waited := s.peer.wait()
	s.log.close()
	if cause == nil {
		cause = s.causeOf(waited)
	}
	s.err = cause
	if !errors.Is(cause, ErrClosed) && !isNoLog(cause) {
		s.err = &died{cause}
	}
	close(s.ended)
}

// What has ended a process that isn't ended for its answers.
func (s *Store) causeOf(waited error) error {
	if s.stuck.Load() {
		return fmt.Errorf("it answered nothing for %v", s.patience)
	}
	if waited == nil {
		select {
		case <-s.closing:
			return ErrClosed
		default:
			waited = s.peer.state()
		}
	}
	words := s.peer.words()
	if cause := s.log.cause(waited, words); cause != nil {
		return cause
	}
	if words != "" {
		return fmt.Errorf("%w: %s", waited, words)
	}
	return waited
}
