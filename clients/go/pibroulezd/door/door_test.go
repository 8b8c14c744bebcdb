package door

import (
	"bufio"
	"bytes"
	"context"
	"errors"
	"fmt"
	"io"
	"math/rand"
	"net"
	"os"
	"os/exec"
	"path/filepath"
	"reflect"
	"runtime"
	"strings"
	"sync"
	"syscall"
	"testing"
	"time"

	"pibroulez.example/pibroulez"
	"pibroulez.example/pibroulez/socket"
)

var ctx = context.Background()

func program() string {
	if named := os.Getenv("PIBROULEZ_PROGRAM"); named != "" {
		return named
	}
	return "../../../../crates/snap_replay/out/snap_replay"
}

func granted(t *testing.T, err error) {
	t.Helper()
	if err != nil {
		t.Fatal(err)
	}
}

func equal(t *testing.T, got, want any) {
	t.Helper()
	if !reflect.DeepEqual(got, want) {
		t.Errorf("%+v, not %+v", got, want)
	}
}

// A text that several goroutines write, and others wait for.
type text struct {
	mutex  sync.Mutex
	buffer bytes.Buffer
	err    error
}

func (t *text) Write(part []byte) (int, error) {
	t.mutex.Lock()
	defer t.mutex.Unlock()
	if t.err != nil {
		return 0, t.err
	}
	return t.buffer.Write(part)
}

func (t *text) String() string {
	t.mutex.Lock()
	defer t.mutex.Unlock()
	return t.buffer.String()
}

// A door with a store of the namespaces `a` and `b`, and what it was told and has refused.
type house struct {
	*Door
	store           *pibroulez.Store
	path, log       string
	refused, warned *text
	closed          chan error
	isEnded         bool
	asked           sync.Mutex
	rights          Rights
}

func newHouse(t *testing.T, change func(*Config)) *house {
	t.Helper()
	return newHouseIn(t, t.TempDir(), change)
}

func newHouseIn(t *testing.T, folder string, change func(*Config)) *house {
	t.Helper()
	h := &house{
		path: filepath.Join(folder, "lines"), log: filepath.Join(folder, "log"), refused: new(text), warned: new(text),
		closed: make(chan error, 1), rights: Rights{IsOperator: true},
	}
	var err error
	limit := pibroulez.Usage{Blocks: 1 << 30, Inodes: 1 << 30}
	h.store, err = pibroulez.New(ctx, pibroulez.Config{
		Program: program(), Root: "/r", Namespaces: map[string]pibroulez.Usage{"a": limit, "b": limit}, Slots: 4096, Log: h.log,
	})
	granted(t, err)
	config := Config{
		Store: h.store, LineBytes: 1 << 20, Connections: 300, Patience: time.Minute, Journal: 1 << 20, Refusals: h.refused,
		Rights: func(Peer) Rights {
			h.asked.Lock()
			defer h.asked.Unlock()
			return h.rights
		},
		Warn: func(words string, err error) { fmt.Fprintf(h.warned, "%s: %v\n", words, err) },
	}
	if change != nil {
		change(&config)
	}
	h.Door = New(config)
	listener, err := socket.Listen(h.path, 0o666, 0o700)
	granted(t, err)
	go func() { h.closed <- h.Serve(listener) }()
	t.Cleanup(func() {
		h.store.Close()
		if !h.isEnded {
			h.end(t)
		}
	})
	return h
}

// Ends the door.
func (h *house) end(t *testing.T) {
	t.Helper()
	h.isEnded = true
	h.Close()
	granted(t, <-h.closed)
}

func (h *house) allow(rights Rights) {
	h.asked.Lock()
	defer h.asked.Unlock()
	h.rights = rights
}

// Who talks to a door by lines.
type talk struct {
	t *testing.T
	*net.UnixConn
	input *bufio.Reader
}

func (h *house) talk(t *testing.T) *talk {
	t.Helper()
	socket, err := net.DialUnix("unix", nil, &net.UnixAddr{Name: h.path, Net: "unix"})
	granted(t, err)
	t.Cleanup(func() { socket.Close() })
	granted(t, socket.SetDeadline(time.Now().Add(5*time.Minute)))
	return &talk{t, socket, bufio.NewReader(socket)}
}

func (k *talk) send(text string) {
	k.t.Helper()
	_, err := io.WriteString(k, text)
	granted(k.t, err)
}

// The next answer, without its line feed.
func (k *talk) answer() string {
	k.t.Helper()
	line, err := k.input.ReadString('\n')
	granted(k.t, err)
	return strings.TrimSuffix(line, "\n")
}

func (k *talk) ask(line string) string {
	k.t.Helper()
	k.send(line + "\n")
	return k.answer()
}

// The answers of all that is left, after the end of the lines.
func (k *talk) rest() []string {
	k.t.Helper()
	granted(k.t, k.CloseWrite())
	text, err := io.ReadAll(k.input)
	granted(k.t, err)
	return strings.Split(strings.TrimSuffix(string(text), "\n"), "\n")
}

// The connection is ended by the other side.
func (k *talk) isEnded() {
	k.t.Helper()
	if line, err := k.input.ReadString('\n'); err == nil || errors.Is(err, os.ErrDeadlineExceeded) {
		k.t.Errorf("%q, %v: no end", line, err)
	}
}

// The answers to all lines, which are read as they are sent.
func (k *talk) askAll(lines string) []string {
	go func() {
		io.WriteString(k, lines)
		k.CloseWrite()
	}()
	text, err := io.ReadAll(k.input)
	granted(k.t, err)
	return strings.Split(strings.TrimSuffix(string(text), "\n"), "\n")
}

const opening = `{"do":"open","root":"/r","namespaces":[["a",1073741824,1073741824],["b",1073741824,1073741824]],"slots":4096}`

// What the process `serve` answers after its opening.
func served(t *testing.T, lines string) []string {
	t.Helper()
	process := exec.Command(program(), "serve")
	process.Stdin = strings.NewReader(opening + "\n" + lines)
	answers, err := process.Output()
	granted(t, err)
	return strings.Split(strings.TrimSuffix(string(answers), "\n"), "\n")[1:]
}

func deep(depth int) string { return strings.Repeat("[", depth) + strings.Repeat("]", depth) }

// Lines of each kind, also such as are no command.
var lines = []string{
	`{"do":"prepare","ns":"a","key":"k","parent":"","id":1}`,
	`{"do":"mkdir","ns":"a","key":"k","path":"/d"}`,
	``, ` `, "\t\r",
	`{"do":"mkdir","ns":"a","key":"k","path":"/d","mode":"x","id":8}`,
	`{"do":"mkdir","ns":"a","key":"k","path":"/d","mod":448,"id":9}`,
	`{"do":"mkdir","ns":"a","key":"k","path":"/d","id":"text"}`,
	`{"do":"prepar","id":"x\u00e9\u001f\/<&>` + "\u2028" + `\b\f\n\r\t\u007f"}`,
	`{"do":"open","root":"/r","namespaces":[],"id":3}`,
	`{"do":5,"id":1}`, `{"do":null,"id":1}`, `{"do":true}`, `{"do":[]}`, `{"do":{}}`, `{"id":"o"}`, `{"do":""}`,
	`{"do":"report","id":1.0}`, `{"do":"report","id":-1}`, `{"do":"report","id":1,"id":2}`, `{"do":"report","id":null}`,
	`{"do":"report","id":18446744073709551615}`, `{"do":"report","id":18446744073709551616}`, `{"do":"report","id":1e2}`,
	`{"do":"report","id":"\ud800"}`, `{"do":"report","id":"\udc00\ud800"}`, `{"do":"report","id":"\ud83d\ude00"}`,
	`{"do":"report","id":"\ufffd` + "\ufffd" + `"}`, `{"do":"report","id":"\ud83d\u0041"}`, `{"do":"report","id":"\ud83"}`,
	`{"do":"report","x":1e999,"id":5}`, `{"do":"report","x":1e30,"id":5}`,
	`{"do":"report","id":7,"x":` + deep(126) + `}`, `{"do":"report","id":7,"x":` + deep(127) + `}`, deep(1000), deep(100000),
	`{"do":"report","x":"` + deep(300) + `\"` + deep(300) + `\\","id":1}`,
	`[1]`, `5`, `"x"`, `null`, `{`, `{}x`, `{"do":"report"}{"do":"report"}`, `{"do":"report",}`, `x`, "\ufeff{}", "\x00", `{"do":"report","\xff":1}`,
	"{\"do\":\"report\",\"x\":\"\xff\"}", "{\"do\":\"report\",\"x\":\"\x01\"}", `{"do":"report","x":"\x"}`,
	`{"do":"stat","ns":"a","ns":"b","key":"k","quiet":true,"id":1}`,
	`{"do":"stat","NS":"a","ns":"a","key":"k"}`, `{"DO":"report"}`, `{"do":"stat","\u006es":"a","key":"\ufffd\u0000"}`,
	` {"do":"quota","ns":"a"} ` + "\r", `{"do":"limit","ns":"a","blocks":01,"inodes":1}`,
	`{"do":"limit","ns":"a","blocks":0,"inodes":5,"id":2}`, `{"do":"prepare","ns":"a","key":"x","parent":"","s":4}`,
	`{"do":"session","id":1}`, `{"do":"prepare","ns":"a","key":"x","parent":"","s":1,"labels":{"a\"":"<>"}}`,
	`{"do":"commit","ns":"a","key":"k","name":"base"}`, `{"do":"journal","full":true}`, `{"do":"tree","ns":"a"}`, `{"do":"roll"}`, `{"do":"report"}`,
}

// The door answers an operator what `serve` answers, with the numbers of the connection's own lines.
func TestAnswersOfServe(t *testing.T) {
	h := newHouse(t, nil)
	all := strings.Join(lines, "\n")
	want := served(t, all)
	k := h.talk(t)
	k.send(all)
	got := k.rest()
	equal(t, len(got), len(want))
	for number := range want {
		// The opening is the first line of `serve`.
		shifted := strings.Replace(want[number], fmt.Sprintf(`,"line":%d}`, number+2), fmt.Sprintf(`,"line":%d}`, number+1), 1)
		if number < len(got) && got[number] != shifted {
			t.Errorf("%q: %s, not %s", lines[number], got[number], shifted)
		}
	}
	equal(t, h.refused.String(), "")
}

// Lines that were changed by chance, of these.
func changedLines(seed int64, lines []string, count int) []string {
	parts := []string{
		`"`, `\\`, `\\u0000`, `\\ud800`, `\\udc00`, `{`, `}`, `[`, `]`, `:`, `,`, `null`, `1e999`, `-0`, "\x00", "\xff", "\u2028", `"id":`, `"id":7,`, `"do":"report",`,
		`"ns":"a",`, ` `, "\t", "\r", "\ufeff", `"s":0,`, `"s":1,`, `"quiet":true,`, `18446744073709551615`, `18446744073709551616`, `"\\u0069d":5,`,
	}
	chance := rand.New(rand.NewSource(seed))
	var changed []string
	for len(changed) < count {
		line := lines[chance.Intn(len(lines))]
		if len(line) > 2000 {
			continue
		}
		for changes := chance.Intn(4); changes >= 0; changes-- {
			begin := chance.Intn(len(line) + 1)
			end := begin + chance.Intn(len(line)-begin+1)*chance.Intn(2)
			line = line[:begin] + parts[chance.Intn(len(parts))] + line[end:]
		}
		changed = append(changed, line)
	}
	return changed
}

// Lines that were changed by chance are answered as `serve` answers them.
func TestChangedLines(t *testing.T) {
	changed := changedLines(1, lines, 4000)
	all := strings.Join(changed, "\n") + "\n"
	want := served(t, all)
	got := newHouse(t, nil).talk(t).askAll(all)
	equal(t, len(got), len(want))
	for number := range want {
		shifted := strings.Replace(want[number], fmt.Sprintf(`,"line":%d}`, number+2), fmt.Sprintf(`,"line":%d}`, number+1), 1)
		if number < len(got) && got[number] != shifted {
			t.Errorf("%q: %s, not %s", changed[number], got[number], shifted)
		}
	}
}

// Connections have numbers and ids of their own, and their answers come in the order of their lines.
func TestConnectionsApart(t *testing.T) {
	h := newHouse(t, nil)
	const connections, rounds = 200, 20
	var done sync.WaitGroup
	for number := 0; number < connections; number++ {
		k, number := h.talk(t), number
		done.Add(1)
		go func() {
			defer done.Done()
			var text, want strings.Builder
			for round := 0; round < rounds; round++ {
				key := fmt.Sprintf("%d-%d", number, round)
				fmt.Fprintf(&text, `{"do":"prepare","ns":"a","key":%q,"parent":"","id":%d}`+"\n", key, round)
				fmt.Fprintf(&text, `{"do":"stat","ns":"a","key":"x%s","quiet":true,"id":"s"}`+"\nx\n", key)
				fmt.Fprintf(&text, `{"do":"mkdir","ns":"a","key":%q,"path":"/d","id":%d}`+"\n", key, round)
				fmt.Fprintf(&text, `{"do":"discard","ns":"a","key":%q}`+"\n", key)
				fmt.Fprintf(&want, `{"answer":{"chain":[],"id":N,"slot":N},"id":%d}`+"\n", round)
				fmt.Fprintf(&want, `{"answer":{"error":"NotFound","from":"book","of":"key"},"id":"s"}`+"\n")
				fmt.Fprintf(&want, `{"fault":"not JSON","line":%d}`+"\n", 5*round+3)
				fmt.Fprintf(&want, `{"answer":{"count":[2,2],"share":[2,2]},"id":%d}`+"\n"+`{"freed":[2,2]}`+"\n", round)
			}
			if _, err := io.WriteString(k, text.String()); err != nil {
				t.Error(err)
				return
			}
			k.CloseWrite()
			got, err := io.ReadAll(k.input)
			if err != nil || withoutNumbers(string(got)) != want.String() {
				t.Errorf("%v: %s, not %s", err, got, want.String())
			}
		}()
	}
	done.Wait()
	equal(t, h.Counts().Lines, uint64(connections*rounds*5))
	equal(t, h.Counts().Faults, uint64(0))
	equal(t, h.Counts().Refusals, map[pibroulez.Reason]uint64{pibroulez.ErrNotFound: connections * rounds})
}

// Answers to prepares with N for ids and slots, which depend on the order of the connections.
func withoutNumbers(text string) string {
	var answers strings.Builder
	for _, line := range strings.SplitAfter(text, "\n") {
		if begin := strings.Index(line, `"id":`); strings.HasPrefix(line, `{"answer":{"chain":[]`) {
			end := strings.Index(line, `}`)
			line = line[:begin] + `"id":N,"slot":N` + line[end:]
		}
		answers.WriteString(line)
	}
	return answers.String()
}

// A line of more bytes than one may have is a fault when it has ended, also where it comes in pieces and has megabytes.
func TestTooLong(t *testing.T) {
	h := newHouse(t, func(c *Config) { c.LineBytes = 1000 })
	k := h.talk(t)
	report := `{"do":"quota","ns":"x"}`
	k.send(report + strings.Repeat(" ", 1000-len(report)) + "\n")
	equal(t, k.answer(), `{"error":"NoNamespace","from":"book","of":"ns"}`)
	k.send(report + strings.Repeat(" ", 1001-len(report)) + "\n")
	equal(t, k.answer(), `{"fault":"too long","line":2}`)
	go func() {
		for i := 0; i < 8; i++ {
			io.WriteString(k, strings.Repeat("x", 1<<20))
		}
		io.WriteString(k, "\n"+report+"\n")
	}()
	equal(t, k.answer(), `{"fault":"too long","line":3}`)
	equal(t, k.answer(), `{"error":"NoNamespace","from":"book","of":"ns"}`)
	k.send(strings.Repeat("x", 1001))
	equal(t, k.rest(), []string{`{"fault":"too long","line":5}`})
}

// A line that doesn't end in time ends its connection, after the answers of those before; one that has none may wait.
func TestLateLine(t *testing.T) {
	h := newHouse(t, func(c *Config) { c.Patience = 200 * time.Millisecond })
	idle, half, endless := h.talk(t), h.talk(t), h.talk(t)
	half.send(`{"do":"quota","ns":"x"}` + "\n" + `{"do":"quota"`)
	equal(t, half.answer(), `{"error":"NoNamespace","from":"book","of":"ns"}`)
	go func() {
		for {
			if _, err := io.WriteString(endless, strings.Repeat("x", 1<<16)); err != nil {
				return
			}
		}
	}()
	equal(t, half.answer(), `{"error":"LateLine","from":"door"}`)
	half.isEnded()
	equal(t, endless.answer(), `{"error":"LateLine","from":"door"}`)
	endless.isEnded()
	equal(t, idle.ask(`{"do":"quota","ns":"x"}`), `{"error":"NoNamespace","from":"book","of":"ns"}`)
	equal(t, h.Counts().Refusals[pibroulez.ErrLateLine], uint64(2))
}

// Peers that never read hold nobody up: what they may have under way is bounded, and their connections are ended.
func TestPeersThatNeverRead(t *testing.T) {
	h := newHouse(t, func(c *Config) { c.Patience = 500 * time.Millisecond })
	k := h.talk(t)
	equal(t, k.ask(`{"do":"prepare","ns":"a","key":"k","parent":""}`), `{"chain":[],"id":1,"slot":0}`)
	for name := 0; name < 300; name++ {
		k.send(fmt.Sprintf(`{"do":"mkdir","ns":"a","key":"k","path":"/%d%s"}`+"\n", name, strings.Repeat("n", 200)))
	}
	for name := 0; name < 300; name++ {
		k.answer()
	}
	var peers []*talk
	var flooding sync.WaitGroup
	for number := 0; number < 10; number++ {
		it := h.talk(t)
		peers = append(peers, it)
		line := `{"do":"list","ns":"a","key":"k","path":"/"}` + "\n"
		if number%5 == 0 {
			line = `{"do":"setmode","ns":"a","key":"k","path":"/0` + strings.Repeat("n", 200) + `","mode":448}` + "\n"
		}
		flooding.Add(1)
		go func() {
			defer flooding.Done()
			for {
				if _, err := io.WriteString(it, line); err != nil {
					return
				}
			}
		}()
	}
	// Another one is answered meanwhile.
	for round := 0; round < 30; round++ {
		equal(t, k.ask(`{"do":"charge","ns":"a","key":"k","need":[1,1],"id":1}`), `{"answer":{"share":[301,301]},"id":1}`)
		equal(t, k.ask(`{"do":"quota","ns":"x"}`), `{"error":"NoNamespace","from":"book","of":"ns"}`)
	}
	// The floods end since the door ends their connections.
	flooding.Wait()
	for _, it := range peers {
		it.Close()
	}
	equal(t, k.ask(`{"do":"quota","ns":"x"}`), `{"error":"NoNamespace","from":"book","of":"ns"}`)
}

// Peers that flood the door as fast as they read hold nobody up: with lines that are no command, too long, refused, questions, or
// changes.
func TestFloods(t *testing.T) {
	h := newHouse(t, func(c *Config) { c.LineBytes = 1 << 16 })
	k := h.talk(t)
	equal(t, k.ask(`{"do":"prepare","ns":"a","key":"k","parent":""}`), `{"chain":[],"id":1,"slot":0}`)
	var peers []*talk
	var flooding sync.WaitGroup
	for _, line := range []string{
		"x", strings.Repeat("x", 1<<17), `{"do":"prepare","ns":"none","key":"k","parent":""}`, `{"do":"tree","ns":"a"}`,
		`{"do":"put","ns":"a","key":"k","path":"/f","size":1}`, `{"do":"setmode","ns":"a","key":"k","path":"/","mode":448}`,
	} {
		it, text := h.talk(t), strings.Repeat(line+"\n", 1+1000/len(line))
		peers = append(peers, it)
		flooding.Add(2)
		go func() {
			defer flooding.Done()
			for {
				if _, err := io.WriteString(it, text); err != nil {
					return
				}
			}
		}()
		go func() {
			defer flooding.Done()
			io.Copy(io.Discard, it)
		}()
	}
	for round := 0; round < 10; round++ {
		equal(t, k.ask(`{"do":"charge","ns":"a","key":"k","need":[3,3],"id":1}`), `{"answer":{"share":[3,3]},"id":1}`)
		equal(t, k.ask(`{"do":"quota","ns":"x"}`), `{"error":"NoNamespace","from":"book","of":"ns"}`)
	}
	for _, it := range peers {
		it.Close()
	}
	flooding.Wait()
	equal(t, k.ask(`{"do":"quota","ns":"x"}`), `{"error":"NoNamespace","from":"book","of":"ns"}`)
}

// A user may have three connections here, and a fourth one is told so and ended.
func TestTooManyConnections(t *testing.T) {
	h := newHouse(t, func(c *Config) { c.Connections = 3 })
	var open []*talk
	for len(open) < 3 {
		k := h.talk(t)
		equal(t, k.ask("x"), `{"fault":"not JSON","line":1}`)
		open = append(open, k)
	}
	more := h.talk(t)
	equal(t, more.answer(), `{"error":"TooManyConnections","from":"door"}`)
	more.isEnded()
	store, err := pibroulez.New(ctx, pibroulez.Config{Socket: h.path})
	granted(t, err)
	if _, err := store.Report(ctx); !errors.Is(err, pibroulez.ErrTooManyConnections) || !errors.Is(err, pibroulez.ErrDied) {
		t.Errorf("%v: a call on a connection too many", err)
	}
	store.Close()
	open[0].rest()
	for {
		// The one that has ended is counted until the door has seen its end.
		k := h.talk(t)
		k.send("x\n")
		if k.answer() == `{"fault":"not JSON","line":1}` {
			return
		}
	}
}

// A door that is closed answers the lines that it has read, and ends its connections and its listener.
func TestClose(t *testing.T) {
	h := newHouse(t, nil)
	idle, half, busy := h.talk(t), h.talk(t), h.talk(t)
	half.send(`{"do"`)
	busy.send(strings.Repeat(`{"do":"session"}`+"\n", 30))
	busy.answer()
	h.end(t)
	idle.isEnded()
	half.isEnded()
	for {
		if line, err := busy.input.ReadString('\n'); err != nil {
			break
		} else if !strings.HasPrefix(line, `{"session":`) {
			t.Error(line)
		}
	}
	if socket, err := net.Dial("unix", h.path); err == nil {
		socket.Close()
		t.Error("a closed door is connected with")
	}
}

// A door whose store doesn't answer is closed within its patience.
func TestCloseOfAStoppedStore(t *testing.T) {
	h := newHouse(t, func(c *Config) { c.Patience = 300 * time.Millisecond })
	k := h.talk(t)
	equal(t, k.ask(`{"do":"session"}`), `{"session":1}`)
	granted(t, syscall.Kill(h.store.PID(), syscall.SIGSTOP))
	k.send(`{"do":"session"}` + "\n")
	for h.Counts().Lines < 2 {
		runtime.Gosched()
	}
	h.end(t)
	k.isEnded()
	granted(t, syscall.Kill(h.store.PID(), syscall.SIGCONT))
	h.Door.Close()
}

// Where the store's process is killed each connection ends, and nothing more is answered.
func TestStoreIsKilled(t *testing.T) {
	h := newHouse(t, nil)
	idle, busy := h.talk(t), h.talk(t)
	equal(t, busy.ask(`{"do":"session"}`), `{"session":1}`)
	process, err := os.FindProcess(h.store.PID())
	granted(t, err)
	granted(t, process.Kill())
	<-h.store.Ended()
	busy.send(`{"do":"session"}` + "\n")
	busy.isEnded()
	h.end(t)
	idle.isEnded()
}
