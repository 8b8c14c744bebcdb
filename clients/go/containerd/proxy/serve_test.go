package main

import (
	"bytes"
	"context"
	"errors"
	"net"
	"os"
	"os/exec"
	"path/filepath"
	"strconv"
	"strings"
	"syscall"
	"testing"
	"time"

	"github.com/sirupsen/logrus"

	"pibroulez.example/pibroulez/containerd"
)

// What the words on the command line say, and which are wrong.
func TestWords(t *testing.T) {
	given, err := read([]string{"--root", "/r", "--socket=/s", "--program", "p", "--log-level", "debug"})
	granted(t, err)
	if given.config.Root != "/r" || given.config.Program != "p" || given.socket != "/s" || given.level != logrus.DebugLevel {
		t.Errorf("%+v", given)
	}
	if given.config.Checkpoint != 4 {
		t.Errorf("%+v", given)
	}
	given, err = read([]string{"--checkpoint", "0"})
	granted(t, err)
	if given.config.Checkpoint != 0 {
		t.Errorf("%+v", given)
	}
	given, err = read([]string{"--help"})
	granted(t, err)
	for _, option := range []string{"--program", "--root", "--socket", "--checkpoint", "--log-level", "--version", "Statuses"} {
		if !strings.Contains(given.told, option) {
			t.Errorf("help without %s", option)
		}
	}
	given, err = read([]string{"--version"})
	granted(t, err)
	told, err := exec.Command(program(), "--version").Output()
	granted(t, err)
	if given.told != strings.Replace(string(told), "snap_replay", "pibroulez-proxy", 1) {
		t.Errorf("%q, and the program is %q", given.told, told)
	}
	for _, wrong := range [][]string{{"word"}, {"--rot", "/r"}, {"--log-level", "loud"}, {"--checkpoint", "x"}, {"--root"}} {
		if _, err := read(wrong); err == nil {
			t.Errorf("%v is taken", wrong)
		}
	}
}

// A root whose store ends a little later is served then.
func TestRootOfAnotherForAWhile(t *testing.T) {
	config := containerd.Config{Program: program(), Root: t.TempDir()}
	before, err := containerd.New(context.Background(), config)
	granted(t, err)
	if _, err := containerd.New(context.Background(), config); !errors.Is(err, syscall.EWOULDBLOCK) {
		t.Errorf("%v: a root of another", err)
	}
	ended := time.AfterFunc(200*time.Millisecond, func() { before.Close() })
	defer ended.Stop()
	s, err := newOnceFree(context.Background(), config)
	granted(t, err)
	granted(t, s.Close())
}

// The proxy as a process: it tells systemd when it serves, and ends with a line and a status where its store is killed.
func TestStoreIsKilled(t *testing.T) {
	binary := filepath.Join(t.TempDir(), "proxy")
	if built, err := exec.Command("go", "build", "-o", binary, ".").CombinedOutput(); err != nil {
		t.Fatalf("%v: %s", err, built)
	}
	root := t.TempDir()
	notified, err := net.ListenUnixgram("unixgram", &net.UnixAddr{Name: filepath.Join(root, "notify"), Net: "unixgram"})
	granted(t, err)
	defer notified.Close()
	named, err := filepath.Abs(program())
	granted(t, err)
	process := exec.Command(binary, "--program", named, "--root", root, "--socket", filepath.Join(root, "socket"))
	process.Env = append(os.Environ(), "NOTIFY_SOCKET="+filepath.Join(root, "notify"))
	var said bytes.Buffer
	process.Stderr = &said
	granted(t, process.Start())
	granted(t, notified.SetReadDeadline(time.Now().Add(time.Minute)))
	message := make([]byte, 64)
	size, err := notified.Read(message)
	granted(t, err)
	if string(message[:size]) != "READY=1" {
		t.Errorf("%q", message[:size])
	}
	granted(t, syscall.Kill(childOf(t, process.Process.Pid), syscall.SIGKILL))
	var exit *exec.ExitError
	if err := process.Wait(); !errors.As(err, &exit) || exit.ExitCode() != storeEnded {
		t.Errorf("%v, not status %d", err, storeEnded)
	}
	if lines := strings.Count(said.String(), "level=error"); lines != 1 || !strings.Contains(said.String(), "the store has ended") ||
		!strings.Contains(said.String(), "killed") {
		t.Errorf("it said %q", said.String())
	}
}

// The one child of a process.
func childOf(t *testing.T, pid int) int {
	t.Helper()
	text, err := exec.Command("pgrep", "-P", strconv.Itoa(pid)).Output()
	granted(t, err)
	child, err := strconv.Atoi(strings.TrimSpace(string(text)))
	granted(t, err)
	return child
}

// A proxy that is ended before it serves, and one that can't.
func TestNoService(t *testing.T) {
	ctx, cancel := context.WithCancel(context.Background())
	cancel()
	config := containerd.Config{Program: program(), Root: t.TempDir()}
	granted(t, serve(ctx, config, filepath.Join(t.TempDir(), "socket")))
	config.Root = filepath.Join(t.TempDir(), "a,b")
	err := serve(context.Background(), config, filepath.Join(t.TempDir(), "socket"))
	if err == nil || statusOf(err) != failed {
		t.Errorf("%v: a malformed root", err)
	}
}
