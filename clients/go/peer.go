package pibroulez

import (
	"bytes"
	"context"
	"errors"
	"fmt"
	"io"
	"net"
	"os/exec"
	"strings"
	"syscall"
)

// Who answers a store's lines.
type peer interface {
	// The number of its process.
	pid() int
	// Ends it at once, or what connects the store with it.
	kill()
	// Waits until it has ended.
	wait() error
	// What it ended of, where there was no error.
	state() error
	// What it said of that, or nothing.
	words() string
}

// A process of the store's own.
type process struct {
	*exec.Cmd
	said *bytes.Buffer
}

// Starts a program with words, and hands out its ends of the pipes.
func startProcess(program string, words []string) (*process, io.WriteCloser, io.Reader, error) {
	p := &process{exec.Command(program, words...), new(bytes.Buffer)}
	// In a group of its own, so that an interrupt at a terminal reaches the client alone.
	p.SysProcAttr = &syscall.SysProcAttr{Setpgid: true}
	p.Stderr = p.said
	input, err := p.StdinPipe()
	if err != nil {
		return nil, nil, nil, err
	}
	output, err := p.StdoutPipe()
	if err != nil {
		return nil, nil, nil, err
	}
	if err := p.Start(); err != nil {
		return nil, nil, nil, err
	}
	return p, input, output, nil
}

func (p *process) pid() int { return p.Process.Pid }

func (p *process) kill() { p.Process.Kill() }

func (p *process) wait() error { return p.Wait() }

func (p *process) state() error { return errors.New(p.ProcessState.String()) }

func (p *process) words() string { return strings.TrimSpace(p.said.String()) }

// A daemon that others use too, behind a socket.
type daemon struct {
	*net.UnixConn
	number int
}

// Connects with a daemon.
func dial(ctx context.Context, socket string) (*daemon, error) {
	var dialer net.Dialer
	connection, err := dialer.DialContext(ctx, "unix", socket)
	if err != nil {
		return nil, err
	}
	d := &daemon{UnixConn: connection.(*net.UnixConn)}
	if raw, err := d.SyscallConn(); err == nil {
		raw.Control(func(descriptor uintptr) {
			if it, err := syscall.GetsockoptUcred(int(descriptor), syscall.SOL_SOCKET, syscall.SO_PEERCRED); err == nil {
				d.number = int(it.Pid)
			}
		})
	}
	return d, nil
}

func (d *daemon) pid() int { return d.number }

func (d *daemon) kill() { d.UnixConn.Close() }

func (d *daemon) wait() error {
	d.UnixConn.Close()
	return nil
}

func (d *daemon) state() error { return errors.New("the daemon has ended the connection") }

func (d *daemon) words() string { return "" }

// The end of the lines, which leaves the answers to come.
type lineEnd struct{ *net.UnixConn }

func (l lineEnd) Close() error { return l.CloseWrite() }

// A store behind a daemon's socket.
func connect(ctx context.Context, config Config) (*Store, error) {
	if given := config.otherThanSocket(); given != "" {
		return nil, fmt.Errorf("%w: %s", ErrNotOfSocket, given)
	}
	d, err := dial(ctx, config.Socket)
	if err != nil {
		return nil, err
	}
	store := storeOf(d, nil)
	store.run(lineEnd{d.UnixConn}, d)
	return store, nil
}

// The first field that a store behind a socket doesn't have, or nothing.
func (c Config) otherThanSocket() string {
	for _, it := range []struct {
		name    string
		isGiven bool
	}{
		{"Program", c.Program != ""}, {"Root", c.Root != ""}, {"Namespaces", c.Namespaces != nil}, {"Journal", c.Journal != 0},
		{"Slots", c.Slots != 0}, {"LayerInodes", c.LayerInodes != 0}, {"Ancestors", c.Ancestors != 0},
		{"Log", c.Log != ""}, {"Checkpoint", c.Checkpoint != 0},
	} {
		if it.isGiven {
			return it.name
		}
	}
	return ""
}
