package main

import (
	"errors"
	"fmt"
	"io/fs"
	"os"
	"strings"
	"testing"

	"pibroulez.example/pibroulez"
	"pibroulez.example/pibroulez/pibroulezd/door"
)

func (p place) lines() string { return fmt.Sprintf("[lines]\nsocket = %q\n", p.path("lines")) }

// The roles of whoever runs the tests.
func roles(role string) string { return fmt.Sprintf("[roles.%s]\nusers = [%d]\n", role, os.Getuid()) }

func (p place) connect(t *testing.T) *pibroulez.Store {
	t.Helper()
	store, err := pibroulez.New(ctx, pibroulez.Config{Socket: p.path("lines")})
	granted(t, err)
	t.Cleanup(func() { store.Close() })
	return store
}

func isError(t *testing.T, err, want error) {
	t.Helper()
	if !errors.Is(err, want) {
		t.Errorf("%v, not %v", err, want)
	}
}

// The door for lines gives its callers the roles of the file, and others once that is read again, on open connections too.
// What it has refused is in the file of refusals, which may be moved away.
func TestLines(t *testing.T) {
	p := newPlace(t)
	p.configure(t, p.lines()+roles("operator")+tenant("a", 100, 100)+tenant("b", 100, 100))
	it := p.start(t)
	store := p.connect(t)
	equal(t, store.PID(), it.Process.Pid)
	granted(t, store.Limit(ctx, "b", pibroulez.Usage{Blocks: 50, Inodes: 50}))
	granted(t, store.NamespaceCreate(ctx, "c", pibroulez.Usage{Blocks: 1, Inodes: 1}))
	granted(t, store.NamespaceRemove(ctx, "c"))
	_, err := store.Prepare(ctx, "a", "k", "")
	granted(t, err)

	p.configure(t, p.lines()+roles("quota")+tenant("a", 100, 100)+tenant("b", 100, 100))
	it.readAgain(t)
	_, err = store.Discard(ctx, "a", "k")
	isError(t, err, pibroulez.ErrNotAllowed)
	isError(t, store.NamespaceRemove(ctx, "b"), pibroulez.ErrNotAllowed)
	_, err = store.Stat(ctx, "a", "k")
	granted(t, err)
	granted(t, store.Limit(ctx, "b", pibroulez.Usage{Blocks: 60, Inodes: 60}))

	p.configure(t, p.lines()+tenant("a", 100, 100)+fmt.Sprintf("groups = [%d]\n", os.Getgid())+tenant("b", 100, 100))
	granted(t, os.Rename(p.path("root/refusals.jsonl"), p.path("moved")))
	it.readAgain(t)
	isError(t, store.Limit(ctx, "a", pibroulez.Usage{Blocks: 1, Inodes: 1}), pibroulez.ErrNotAllowed)
	_, err = store.Tree(ctx, "b")
	isError(t, err, pibroulez.ErrNotAllowed)
	_, err = store.Discard(ctx, "a", "k")
	granted(t, err)

	for path, want := range map[string]string{"moved": `"do":"discard","ns":"a","key":"k"`, "root/refusals.jsonl": `"do":"limit","ns":"a"`} {
		text, err := os.ReadFile(p.path(path))
		granted(t, err)
		if !strings.Contains(string(text), want) || strings.Contains(string(text), "stat") {
			t.Errorf("%s: %s", path, text)
		}
	}
	mode, err := os.Stat(p.path("lines"))
	granted(t, err)
	equal(t, mode.Mode(), fs.ModeSocket|0o666)
	it.end(t)
	<-store.Ended()
	isError(t, store.Err(), pibroulez.ErrDied)
	if _, err := os.Stat(p.path("lines")); !errors.Is(err, fs.ErrNotExist) {
		t.Errorf("%v: the socket of a daemon that has ended", err)
	}
}

// A daemon that can't get its socket doesn't serve, and leaves what is in its place.
func TestNoSocket(t *testing.T) {
	p := newPlace(t)
	granted(t, os.WriteFile(p.path("lines"), []byte("kept"), 0o600))
	log := quiet()
	err := serve(ctx, log, p.configure(t, p.lines()), nil)
	if err == nil || !strings.Contains(err.Error(), "is no socket") {
		t.Error(err)
	}
	text, err := os.ReadFile(p.path("lines"))
	granted(t, err)
	equal(t, string(text), "kept")
	granted(t, os.Remove(p.path("lines")))
	err = serve(ctx, log, p.configure(t, p.lines()+fmt.Sprintf("refusals = %q\n", p.path("no/folder"))), nil)
	isError(t, err, fs.ErrNotExist)
}

// The roles of a peer are by its user and all its groups.
func TestRights(t *testing.T) {
	p := newPlace(t)
	d, _ := p.open(t, "[roles.operator]\nusers = [7]\n[roles.quota]\ngroups = [8]\n"+
		tenant("a", 1, 1)+"users = [9]\n"+tenant("b", 1, 1)+"groups = [10]\n")
	for _, it := range []struct {
		peer door.Peer
		want door.Rights
	}{
		{door.Peer{User: 7, Group: 7}, door.Rights{IsOperator: true, Namespaces: map[string]bool{}}},
		{door.Peer{User: 8, Group: 8}, door.Rights{IsQuota: true, Namespaces: map[string]bool{}}},
		{door.Peer{User: 9, Group: 9, Groups: []uint32{10, 8}}, door.Rights{IsQuota: true, Namespaces: map[string]bool{"a": true, "b": true}}},
		{door.Peer{User: 10, Group: 9}, door.Rights{Namespaces: map[string]bool{}}},
		{door.Peer{User: 0, Group: 0}, door.Rights{Namespaces: map[string]bool{}}},
	} {
		equal(t, d.rights(it.peer), it.want)
	}
}
