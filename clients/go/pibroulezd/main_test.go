package main

import (
	"bytes"
	"errors"
	"fmt"
	"net"
	"os"
	"os/exec"
	"path/filepath"
	"reflect"
	"regexp"
	"strconv"
	"strings"
	"syscall"
	"testing"
	"time"

	"github.com/sirupsen/logrus"
)

// The test's own program is the daemon where it is started so.
func TestMain(m *testing.M) {
	if os.Getenv("PIBROULEZD_TEST") != "" {
		main()
		return
	}
	os.Exit(m.Run())
}

func program() string {
	named := os.Getenv("PIBROULEZ_PROGRAM")
	if named == "" {
		named = "../../../crates/snap_replay/out/snap_replay"
	}
	path, err := filepath.Abs(named)
	if err != nil {
		panic(err)
	}
	return path
}

func granted(t *testing.T, err error) {
	t.Helper()
	if err != nil {
		t.Fatal(err)
	}
}

func equal(t *testing.T, got, want any) {
	t.Helper()
	if !reflect.DeepEqual(got, want) {
		t.Errorf("%+v, not %+v", got, want)
	}
}

// A folder for a daemon, with its file.
type place struct {
	folder string
}

func newPlace(t *testing.T) place {
	t.Helper()
	return place{t.TempDir()}
}

func (p place) path(name string) string { return filepath.Join(p.folder, name) }

// Writes the file: the root, the program, and this.
func (p place) configure(t *testing.T, rest string) string {
	t.Helper()
	return p.configureOver(t, program(), rest)
}

func (p place) configureOver(t *testing.T, program, rest string) string {
	t.Helper()
	text := fmt.Sprintf("root = %q\nprogram = %q\n%s", p.path("root"), program, rest)
	path := p.path("pibroulezd.toml")
	granted(t, os.WriteFile(path, []byte(text), 0o600))
	return path
}

func tenant(name string, blocks, inodes int) string {
	return fmt.Sprintf("[tenants.%s]\nblocks = %d\ninodes = %d\n", name, blocks, inodes)
}

// A daemon as a process, and what it says.
type process struct {
	*exec.Cmd
	said     *bytes.Buffer
	notified *net.UnixConn
	// Is closed once it has ended; then err says how.
	ended chan struct{}
	err   error
}

func (p place) command(words ...string) *process {
	it := &process{Cmd: exec.Command(os.Args[0], words...), said: new(bytes.Buffer), ended: make(chan struct{})}
	it.Stderr = it.said
	it.Env = append(os.Environ(), "PIBROULEZD_TEST=1", "NOTIFY_SOCKET="+p.path("notify"))
	return it
}

// Starts it.
func (it *process) begin(t *testing.T) {
	t.Helper()
	granted(t, it.Start())
	go func() {
		it.err = it.Wait()
		close(it.ended)
	}()
	t.Cleanup(func() {
		it.Process.Kill()
		<-it.ended
	})
}

// Starts one, which serves then.
func (p place) start(t *testing.T, words ...string) *process {
	t.Helper()
	it := p.command(append([]string{"--config", p.path("pibroulezd.toml")}, words...)...)
	os.Remove(p.path("notify"))
	var err error
	it.notified, err = net.ListenUnixgram("unixgram", &net.UnixAddr{Name: p.path("notify"), Net: "unixgram"})
	granted(t, err)
	t.Cleanup(func() { it.notified.Close() })
	it.begin(t)
	it.waitFor(t, "READY=1")
	return it
}

// Waits until it tells systemd so.
func (it *process) waitFor(t *testing.T, want string) {
	t.Helper()
	message := make([]byte, 64)
	for end := time.Now().Add(time.Minute); ; {
		granted(t, it.notified.SetReadDeadline(time.Now().Add(100*time.Millisecond)))
		size, err := it.notified.Read(message)
		if err == nil && string(message[:size]) == want {
			return
		}
		select {
		case <-it.ended:
			t.Fatalf("%v in place of %s: %s", it.err, want, it.said)
		default:
		}
		if !errors.Is(err, os.ErrDeadlineExceeded) || time.Now().After(end) {
			t.Fatalf("%q, %v, not %q", message[:size], err, want)
		}
	}
}

// Has it read its file again.
func (it *process) readAgain(t *testing.T) {
	t.Helper()
	granted(t, it.Process.Signal(syscall.SIGHUP))
	it.waitFor(t, "RELOADING=1")
	it.waitFor(t, "READY=1")
}

// Waits for its end, and answers its status.
func (it *process) status(t *testing.T) int {
	t.Helper()
	select {
	case <-it.ended:
	case <-time.After(time.Minute):
		it.Process.Kill()
		<-it.ended
		t.Fatalf("no end: %s", it.said)
	}
	var exit *exec.ExitError
	if it.err != nil && !errors.As(it.err, &exit) {
		t.Fatal(it.err)
	}
	return it.ProcessState.ExitCode()
}

func (it *process) end(t *testing.T) {
	t.Helper()
	granted(t, it.Process.Signal(syscall.SIGTERM))
	if status := it.status(t); status != 0 {
		t.Fatalf("status %d: %s", status, it.said)
	}
}

// The one child of a process.
func childOf(t *testing.T, pid int) int {
	t.Helper()
	text, err := os.ReadFile(fmt.Sprintf("/proc/%d/task/%d/children", pid, pid))
	granted(t, err)
	all, err := filepath.Glob(fmt.Sprintf("/proc/%d/task/*/children", pid))
	granted(t, err)
	for _, it := range all {
		more, err := os.ReadFile(it)
		granted(t, err)
		text = append(text, more...)
	}
	children := strings.Fields(string(text))
	if len(children) == 0 {
		t.Fatal("no child")
	}
	child, err := strconv.Atoi(children[0])
	granted(t, err)
	return child
}

// What the words on the command line say, and which are wrong.
func TestWords(t *testing.T) {
	given, err := read([]string{"--config", "/c", "--check", "--log-level", "debug"})
	granted(t, err)
	equal(t, given, words{path: "/c", checks: true, level: logrus.DebugLevel})
	given, err = read([]string{"--help"})
	granted(t, err)
	for _, option := range []string{"--config", "--check", "--log-level", "--version", "Statuses"} {
		if !strings.Contains(given.told, option) {
			t.Errorf("help without %s", option)
		}
	}
	given, err = read([]string{"--version"})
	granted(t, err)
	told, err := exec.Command(program(), "--version").Output()
	granted(t, err)
	equal(t, given.told, strings.Replace(string(told), "snap_replay", "pibroulezd", 1))
	for _, wrong := range [][]string{{"word"}, {"--confg", "/c"}, {"--log-level", "loud"}, {"--config"}} {
		if _, err := read(wrong); err == nil {
			t.Errorf("%v is taken", wrong)
		}
	}
}

// A file is checked without a store.
func TestCheck(t *testing.T) {
	p := newPlace(t)
	path := p.configure(t, tenant("a", 1, 1))
	it := p.command("--check", "--config", path)
	it.begin(t)
	equal(t, it.status(t), 0)
	equal(t, it.said.String(), "")
	path = p.configure(t, "slots = 0\nslot = 1\nancestors = 501\n")
	it = p.command("--check", "--config", path)
	it.begin(t)
	equal(t, it.status(t), failed)
	equal(t, it.said.String(), path+":3: slots: a number from 1 to 4096 is wanted, another number is there\n"+path+":4: slot: no such key\n"+
		path+":5: ancestors: a number from 1 to 500 is wanted, another number is there\n")
	if _, err := os.Stat(p.path("root")); err == nil {
		t.Error("a check has made the root")
	}
}

// The unit for systemd starts the daemon by words that it has, and doesn't start it anew where that changes nothing.
func TestUnit(t *testing.T) {
	text, err := os.ReadFile("pibroulezd.service")
	granted(t, err)
	starts := 0
	for _, line := range strings.Split(string(text), "\n") {
		key, value, _ := strings.Cut(line, "=")
		switch key {
		case "ExecStart", "ExecStartPre":
			given, err := read(strings.Fields(value)[1:])
			granted(t, err)
			equal(t, given.path, "/etc/pibroulez/pibroulezd.toml")
			equal(t, given.checks, key == "ExecStartPre")
			starts++
		case "RestartPreventExitStatus":
			equal(t, value, fmt.Sprint(wrongWords, " ", outOfCluster, " ", badLog))
			starts++
		}
	}
	equal(t, starts, 3)
}

// The manual page has each option and status of the help, and each key of README.
func TestManual(t *testing.T) {
	text, err := os.ReadFile("pibroulezd.8")
	granted(t, err)
	manual := strings.ReplaceAll(string(text), `\-`, "-")
	readme, err := os.ReadFile("README.md")
	granted(t, err)
	words := regexp.MustCompile(`--[a-z-]+`).FindAllString(help, -1)
	for _, row := range regexp.MustCompile("(?m)^\\| (`[a-z][^|]*) \\|").FindAllStringSubmatch(string(readme), -1) {
		for _, key := range regexp.MustCompile("`([a-z_]+(\\.[a-zA-Z_]+)*)`").FindAllStringSubmatch(row[1], -1) {
			words = append(words, key[1])
		}
	}
	if len(words) < 30 {
		t.Errorf("only %q", words)
	}
	for _, it := range words {
		if !strings.Contains(manual, it) {
			t.Errorf("no %s", it)
		}
	}
	for _, status := range []int{0, failed, wrongWords, storeEnded, outOfCluster, busyLog, badLog, failedLog} {
		if !strings.Contains(manual, fmt.Sprintf("\n.B %d\n", status)) {
			t.Errorf("no status %d", status)
		}
	}
}
