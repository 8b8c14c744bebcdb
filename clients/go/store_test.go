package pibroulez

import (
	"context"
	"encoding/json"
	"errors"
	"fmt"
	"io/fs"
	"net/netip"
	"os"
	"os/exec"
	"path/filepath"
	"reflect"
	"strings"
	"sync"
	"syscall"
	"testing"
	"time"
)

// Expected values are those of docs/SCRIPT.md: its examples, and sums by its rules.

var ctx = context.Background()

func program() string {
	if named := os.Getenv("PIBROULEZ_PROGRAM"); named != "" {
		return named
	}
	return "../../crates/snap_replay/out/snap_replay"
}

// A store with a namespace `a`, which is closed when the test ends.
func newStore(t *testing.T, limit Usage) *Store {
	t.Helper()
	return newStoreOf(t, Config{Program: program(), Root: "/r", Namespaces: map[string]Usage{"a": limit}})
}

func newStoreOf(t *testing.T, config Config) *Store {
	t.Helper()
	store, err := New(ctx, config)
	if err != nil {
		t.Fatal(err)
	}
	t.Cleanup(func() { store.Close() })
	return store
}

// The answer of a call that must be granted.
func must[A any](t *testing.T) func(A, error) A {
	return func(answer A, err error) A {
		t.Helper()
		if err != nil {
			t.Fatal(err)
		}
		return answer
	}
}

func equal(t *testing.T, got, want any) {
	t.Helper()
	if !reflect.DeepEqual(got, want) {
		t.Errorf("%+v, not %+v", got, want)
	}
}

func granted(t *testing.T, err error) {
	t.Helper()
	if err != nil {
		t.Fatal(err)
	}
}

func isError(t *testing.T, err, want error) {
	t.Helper()
	if !errors.Is(err, want) {
		t.Errorf("%v, not %v", err, want)
	}
}

func commitEmpty(t *testing.T, store *Store, name, parent string) {
	t.Helper()
	must[Prepared](t)(store.Prepare(ctx, "a", "new", parent))
	must[Committed](t)(store.Commit(ctx, "a", "new", name))
}

func text(s string) *string { return &s }

// The first script of README, and the answers that docs/SCRIPT.md has for it.
func TestFirstScript(t *testing.T) {
	store := newStore(t, Usage{100, 100})
	equal(t, must[Prepared](t)(store.Prepare(ctx, "a", "k", "")), Prepared{[]uint64{}, 1, 0})
	changed := must[Changed](t)
	equal(t, changed(store.Mkdir(ctx, "a", "k", "/etc")), Changed{Usage{2, 2}, Usage{2, 2}})
	equal(t, changed(store.Create(ctx, "a", "k", "/etc/x")), Changed{Usage{2, 3}, Usage{2, 3}})
	equal(t, changed(store.WriteFill(ctx, "a", "k", "/etc/x", 0, 120, 5000)), Changed{Usage{4, 3}, Usage{4, 3}})
	equal(t, must[Committed](t)(store.Commit(ctx, "a", "k", "base")), Committed{1, Usage{4, 3}})
	equal(t, must[Usage](t)(store.Usage(ctx, "a", "base", WithEntry())), Usage{4, 3})
	_, err := store.Stat(ctx, "a", "k", WithEntry())
	isError(t, err, ErrNotFound)
	equal(t, must[Report](t)(store.Report(ctx)), Report{8, 0, 1, map[string]Usage{"a": {4, 3}}})
}

func TestFiles(t *testing.T) {
	store := newStore(t, Usage{100, 100})
	must[Prepared](t)(store.Prepare(ctx, "a", "k", ""))
	changed := must[Changed](t)
	extra := WithExtra(Usage{1, 1})
	for _, it := range []struct {
		got          Changed
		count, share Usage
	}{
		{changed(store.Mkdir(ctx, "a", "k", "/d", WithMode(0o700))), Usage{2, 2}, Usage{2, 2}},
		{changed(store.Create(ctx, "a", "k", "/d/f")), Usage{2, 3}, Usage{2, 3}},
		{changed(store.WriteText(ctx, "a", "k", "/d/f", 2, "hi")), Usage{3, 3}, Usage{3, 3}},
		{changed(store.Truncate(ctx, "a", "k", "/d/f", 5000, extra)), Usage{4, 3}, Usage{5, 4}},
		{changed(store.Setmode(ctx, "a", "k", "/d/f", 0o600)), Usage{4, 3}, Usage{5, 4}},
		{changed(store.Symlink(ctx, "a", "k", "/s", "d/f")), Usage{4, 4}, Usage{5, 4}},
		{changed(store.Link(ctx, "a", "k", "/d/f", "/d/g")), Usage{4, 4}, Usage{5, 4}},
		{changed(store.Rename(ctx, "a", "k", "/d/g", "/h")), Usage{4, 4}, Usage{5, 4}},
		{changed(store.Unlink(ctx, "a", "k", "/h")), Usage{4, 4}, Usage{5, 4}},
		{changed(store.Mkdir(ctx, "a", "k", "/e")), Usage{5, 5}, Usage{5, 5}},
		{changed(store.Rmdir(ctx, "a", "k", "/e")), Usage{4, 4}, Usage{5, 5}},
	} {
		equal(t, it.got, Changed{it.count, it.share})
	}
	look := func(path string) Seen { return must[Seen](t)(store.Look(ctx, "a", "k", path)) }
	equal(t, look("/d"), Seen{Type: Directory, Mode: 0o700})
	equal(t, look("/d/f"), Seen{Type: File, Mode: 0o600, Size: 5000})
	equal(t, look("/s"), Seen{Type: Symlink, Target: "d/f"})
	equal(t, look("/e"), Seen{})
	equal(t, must[[]string](t)(store.List(ctx, "a", "k", "/")), []string{"d", "s"})
	head := append([]byte{0, 0, 'h', 'i'}, make([]byte, 12)...)
	equal(t, must[Content](t)(store.Read(ctx, "a", "k", "/d/f")), Content{Head: head, Size: 5000})
	part := must[Part](t)
	equal(t, part(store.ReadPart(ctx, "a", "k", "/d/f", 2, 3)), Part{Bytes: []byte{'h', 'i', 0}, Size: 5000})
	equal(t, part(store.ReadPart(ctx, "a", "k", "/d/f", 4999, 0)), Part{Bytes: []byte{0}, Size: 5000})
	equal(t, part(store.ReadPart(ctx, "a", "k", "/d/f", 5001, 1)), Part{Bytes: []byte{}, Size: 5000})
	equal(t, must[string](t)(store.Resolve(ctx, "a", "k", "/s")), "/d/f")
	equal(t, must[Usage](t)(store.DiskUsage(ctx, "a", "k", "/")), Usage{4, 4})
	equal(t, must[Usage](t)(store.DiskUsage(ctx, "a", "k", "/d/f")), Usage{2, 1})
	equal(t, must[Usage](t)(store.Trim(ctx, "a", "k")), Usage{4, 4})
	equal(t, must[Usage](t)(store.Charge(ctx, "a", "k", Usage{10, 10})), Usage{10, 10})
	equal(t, must[Usage](t)(store.Charge(ctx, "a", "k", Usage{11, 11}, WithWant(Usage{20, 20}))), Usage{20, 20})
	equal(t, must[Usage](t)(store.Usage(ctx, "a", "k")), Usage{20, 20})
}

func TestFilesOfASize(t *testing.T) {
	store := newStore(t, Usage{100, 100})
	must[Prepared](t)(store.Prepare(ctx, "a", "k", ""))
	digest := "sha256:ab"
	put := must[Changed](t)(store.Put(ctx, "a", "k", "/f", 5000, WithMode(0o755), WithDigest(digest)))
	equal(t, put, Changed{Usage{3, 2}, Usage{3, 2}})
	equal(t, must[Seen](t)(store.Look(ctx, "a", "k", "/f")), Seen{Type: File, Mode: 0o755, Size: 5000, Sized: true, Digest: digest})
	equal(t, must[Content](t)(store.Read(ctx, "a", "k", "/f")), Content{Size: 5000, Sized: true, Digest: digest})
	equal(t, must[Part](t)(store.ReadPart(ctx, "a", "k", "/f", 1, 2)), Part{Size: 5000, Sized: true, Digest: digest})
	must[Changed](t)(store.WriteText(ctx, "a", "k", "/f", 8192, "x"))
	equal(t, must[Content](t)(store.Read(ctx, "a", "k", "/f")), Content{Size: 8193, Sized: true})
	_, tooBig := store.Put(ctx, "a", "k", "/g", 1<<40+1)
	if !errors.Is(tooBig, ErrTooBig) {
		t.Error(tooBig)
	}
}

func TestWhatLayersBelowHave(t *testing.T) {
	store := newStore(t, Usage{100, 100})
	must[Prepared](t)(store.Prepare(ctx, "a", "k", ""))
	for _, directory := range []string{"/d", "/e"} {
		must[Changed](t)(store.Mkdir(ctx, "a", "k", directory))
		must[Changed](t)(store.Create(ctx, "a", "k", directory+"/f"))
	}
	must[Committed](t)(store.Commit(ctx, "a", "k", "base"))
	must[Prepared](t)(store.Prepare(ctx, "a", "k", "base"))
	equal(t, must[Changed](t)(store.Opaque(ctx, "a", "k", "/d")), Changed{Usage{2, 2}, Usage{2, 2}})
	equal(t, must[[]string](t)(store.List(ctx, "a", "k", "/d")), []string{})
	equal(t, must[Changed](t)(store.Whiteout(ctx, "a", "k", "/e")), Changed{Usage{2, 3}, Usage{2, 3}})
	equal(t, must[[]string](t)(store.List(ctx, "a", "k", "/")), []string{"d"})
}

// Each call that makes an entry is counted: the numbers of entries are in the comments.
func TestSnapshots(t *testing.T) {
	store := newStore(t, Usage{100, 100}) // 1
	entry := WithEntry()
	must[Prepared](t)(store.Prepare(ctx, "a", "k", "", WithLabels(map[string]string{"x": "1"})))
	equal(t, must[[]Mount](t)(store.Mounts(ctx, "a", "k", entry)), []Mount{{"bind", "/r/snapshots/1/fs", []string{"rw", "rbind"}}})
	active := Info{"k", "", KindActive, map[string]string{"x": "1"}, 1, 2, 2}
	equal(t, must[Info](t)(store.Stat(ctx, "a", "k", entry)), active) // 4
	active.Labels, active.Updated = map[string]string{"x": "1", "y": "2"}, 5
	equal(t, must[Info](t)(store.Update(ctx, "a", "k", map[string]string{"y": "2"}, []string{"labels.y"})), active)
	granted(t, store.LeaseCreate(ctx, "a", "lease", WithUntil(5))) // 6
	equal(t, must[Committed](t)(store.Commit(ctx, "a", "k", "base", WithLease("lease"))), Committed{1, Usage{1, 1}})
	equal(t, must[Viewed](t)(store.View(ctx, "a", "v", "base", WithLabels(nil))), Viewed{[]uint64{1}, 2})
	equal(t, must[Prepared](t)(store.Prepare(ctx, "a", "k2", "base")), Prepared{[]uint64{1}, 3, 0}) // 9
	equal(t, must[Usage](t)(store.Discard(ctx, "a", "k2")), Usage{1, 1})                            // 10
	base := Info{"base", "", KindCommitted, active.Labels, 1, 7, 7}
	view := Info{"v", "base", KindView, map[string]string{}, 2, 8, 8}
	walk := must[[]Info](t)
	equal(t, walk(store.Walk(ctx, "a", "", 0, Filter{}, entry)), []Info{base, view}) // 11
	equal(t, walk(store.Walk(ctx, "a", "", 1, Filter{}, entry)), []Info{base})
	equal(t, walk(store.Walk(ctx, "a", "base", 0, Filter{}, entry)), []Info{view})
	equal(t, walk(store.Walk(ctx, "a", "", 0, Filter{Name: text("v"), Parent: text("base")}, entry)), []Info{view})
	equal(t, walk(store.Walk(ctx, "a", "", 0, Filter{Parent: text("")}, entry)), []Info{base})
	equal(t, walk(store.Walk(ctx, "a", "", 0, Filter{Kind: KindView}, entry)), []Info{view})
	equal(t, walk(store.Walk(ctx, "a", "", 0, Filter{Labels: map[string]*string{"x": nil, "y": text("2")}}, entry)), []Info{base})
	granted(t, store.LeaseAdd(ctx, "a", "lease", "base")) // 18
	equal(t, must[Usage](t)(store.ChainUsage(ctx, "a", "v")), Usage{1, 1})
	_, notActive := store.Look(ctx, "a", "base", "/")
	isError(t, notActive, ErrNotActive)
	equal(t, must[Seen](t)(store.Look(ctx, "a", "base", "/", WithPeek())), Seen{Type: Directory, Mode: 0o755})
	equal(t, must[Usage](t)(store.DiskUsage(ctx, "a", "base", "/", WithPeek())), Usage{1, 1})
	equal(t, must[Swept](t)(store.TrySweep(ctx, "a", 0)), Swept{Usage{}, 0, []string{}})
	quota := Quota{Limit: Usage{100, 100}, Charged: Usage{1, 1}, Committed: Usage{1, 1}, Free: Usage{99, 99}}
	equal(t, must[Quota](t)(store.Quota(ctx, "a")), quota)
	equal(t, must[map[string]Quota](t)(store.Quotas(ctx)), map[string]Quota{"a": quota})
	until := uint64(5)
	lease := Lease{"lease", []string{"base"}, &until}
	equal(t, must[Lease](t)(store.Lease(ctx, "a", "lease")), lease)
	equal(t, must[[]Lease](t)(store.Leases(ctx, "a")), []Lease{lease})
	equal(t, must[[]Node](t)(store.Tree(ctx, "a")), []Node{
		{"base", "", KindCommitted, 1, Usage{1, 1}, 1},
		{"v", "base", KindView, 2, Usage{}, 0},
	})
	equal(t, must[[]Node](t)(store.TreePage(ctx, "a", "", 1)), []Node{{"base", "", KindCommitted, 1, Usage{1, 1}, 1}})
	equal(t, must[[]Node](t)(store.TreePage(ctx, "a", "base", 0)), []Node{{"v", "base", KindView, 2, Usage{}, 0}})
	equal(t, must[[]Change](t)(store.Diff(ctx, "a", "base", "", 1)), []Change{{"added", "/"}})
	equal(t, must[[]Change](t)(store.Diff(ctx, "a", "v", "/", 0)), []Change{})
	equal(t, must[[]Entry](t)(store.Journal(ctx, "a", 6, 3)), []Entry{
		{Number: 7, Call: "commit", Charge: Usage{1, 1}, Key: "base", ID: 1},
		{Number: 8, Call: "view", Charge: Usage{1, 1}, Key: "v", ID: 2},
		{Number: 9, Call: "prepare", Charge: Usage{2, 2}, Key: "k2", ID: 3},
	})
	equal(t, must[[]Entry](t)(store.FullJournal(ctx, "a", 9, 1)), []Entry{
		{Number: 10, Call: "discard", Charge: Usage{1, 1}, ID: 3, Line: `{"do":"discard","key":"k2","ns":"a","s":0}`},
	})
	equal(t, must[Usage](t)(store.Remove(ctx, "a", "v")), Usage{}) // 19
	granted(t, store.LeaseRelease(ctx, "a", "lease"))
	granted(t, store.Limit(ctx, "a", Usage{50, 50}))
	equal(t, must[Swept](t)(store.Sweep(ctx, "a", 0)), Swept{Usage{1, 1}, 0, []string{"base"}}) // 22
	equal(t, must[uint64](t)(store.Session(ctx)), uint64(1))
	must[Prepared](t)(store.Prepare(ctx, "a", "k", "", WithSession(1)))
	must[Usage](t)(store.Discard(ctx, "a", "k", WithSession(1))) // 25
	granted(t, store.Reopen(ctx, 10))                            // 26
	equal(t, must[Report](t)(store.Report(ctx)), Report{1, 0, 0, map[string]Usage{"a": {}}})
	must[Prepared](t)(store.Prepare(ctx, "a", "k", ""))
	equal(t, must[Info](t)(store.Stat(ctx, "a", "k")).Created, uint64(27))
	isError(t, store.Roll(ctx, 1), ErrJournalFull)
	granted(t, store.Roll(ctx, 2))
	equal(t, must[Report](t)(store.Report(ctx)), Report{1, 1, 1, map[string]Usage{"a": {1, 1}}})
	granted(t, store.Roll(ctx, 0))
	equal(t, must[Info](t)(store.Stat(ctx, "a", "k")).Created, uint64(27))
}

// A commit with labels has these in place of those of the active snapshot, and one without has the latter.
func TestLabelsOfCommits(t *testing.T) {
	store := newStore(t, Usage{100, 100})
	prepared := map[string]string{"x": "1", "y": "2"}
	for name, it := range map[string]struct {
		options []Option
		labels  map[string]string
	}{
		"as they were": {nil, prepared},
		"others":       {[]Option{WithLabels(map[string]string{"y": "3"})}, map[string]string{"y": "3"}},
		"none":         {[]Option{WithLabels(nil)}, map[string]string{}},
	} {
		must[Prepared](t)(store.Prepare(ctx, "a", "k", "", WithLabels(prepared)))
		must[Committed](t)(store.Commit(ctx, "a", "k", name, it.options...))
		equal(t, must[Info](t)(store.Stat(ctx, "a", name)).Labels, it.labels)
	}
}

// The journal of no namespace has all entries of the round, also those of calls without a namespace of the store.
func TestJournalOfTheRound(t *testing.T) {
	store := newStore(t, Usage{100, 100})
	must[uint64](t)(store.Session(ctx))
	_, err := store.Prepare(ctx, "b", "k", "")
	isError(t, err, ErrNoNamespace)
	must[Prepared](t)(store.Prepare(ctx, "a", "k", ""))
	equal(t, must[[]Entry](t)(store.Journal(ctx, "", 1, 0)), []Entry{
		{Number: 2, Session: 1, Call: "session"},
		{Number: 3, Call: "prepare", Namespace: "b", Key: "k", Refused: ErrNoNamespace},
		{Number: 4, Call: "prepare", Namespace: "a", Key: "k", ID: 1},
	})
	full := all(t, func(visit func(Entry) error) error { return store.FullJournalAll(ctx, "", 1, visit) })
	if len(full) != 3 || !strings.HasPrefix(full[0].Line, `{"do":"session"`) {
		t.Errorf("%+v", full)
	}
}

// A namespace is made, holds a snapshot or a lease, and is removed once it has none. The log has it all.
func TestNamespaces(t *testing.T) {
	config := loggedConfig(logPath(t))
	config.Namespaces = nil
	store := newStoreOf(t, config)
	isRefused := func(err error, reason Reason) {
		t.Helper()
		isError(t, err, reason)
		var refusal *Refusal
		if !errors.As(err, &refusal) || refusal.From != "book" {
			t.Errorf("%v: not from book", err)
		}
	}
	equal(t, must[map[string]Quota](t)(store.Quotas(ctx)), map[string]Quota{})
	isRefused(store.NamespaceCreate(ctx, "", Usage{1, 1}), ErrBadArgument)
	isRefused(store.NamespaceCreate(ctx, "a", Usage{1<<40 + 1, 1}), ErrBadArgument)
	isRefused(store.NamespaceCreate(ctx, "a", Usage{1, 1<<40 + 1}), ErrBadArgument)
	isRefused(store.NamespaceRemove(ctx, "a"), ErrNoNamespace)
	granted(t, store.NamespaceCreate(ctx, "a", Usage{10, 1 << 40}))
	isRefused(store.NamespaceCreate(ctx, "a", Usage{1, 1}), ErrNamespaceExists)
	equal(t, must[Quota](t)(store.Quota(ctx, "a")).Limit, Usage{10, 1 << 40})
	must[Prepared](t)(store.Prepare(ctx, "a", "k", ""))
	isRefused(store.NamespaceRemove(ctx, "a"), ErrNotEmpty)
	must[Usage](t)(store.Discard(ctx, "a", "k"))
	granted(t, store.LeaseCreate(ctx, "a", "lease"))
	granted(t, store.NamespaceCreate(ctx, "b", Usage{2, 3}))
	granted(t, store.Close())
	store = reopen(t, config.Log)
	isRefused(store.NamespaceRemove(ctx, "a"), ErrNotEmpty)
	granted(t, store.LeaseRelease(ctx, "a", "lease"))
	granted(t, store.NamespaceRemove(ctx, "a"))
	_, err := store.Prepare(ctx, "a", "k", "")
	isRefused(err, ErrNoNamespace)
	b := Quota{Limit: Usage{2, 3}, Free: Usage{2, 3}}
	equal(t, must[map[string]Quota](t)(store.Quotas(ctx)), map[string]Quota{"b": b})
	isError(t, store.NamespaceRemove(ctx, "b", WithLease("x")), ErrOption)
	granted(t, store.Close())
	equal(t, must[map[string]Quota](t)(reopen(t, config.Log).Quotas(ctx)), map[string]Quota{"b": b})
}

// A store has as many as 4096 namespaces, and the place of a removed one is another's.
func TestMostNamespaces(t *testing.T) {
	store := newStoreOf(t, Config{Program: program(), Root: "/r"})
	for number := 0; number < 4096; number++ {
		granted(t, store.NamespaceCreate(ctx, fmt.Sprint(number), Usage{1, 1}))
	}
	isError(t, store.NamespaceCreate(ctx, "more", Usage{1, 1}), ErrTooManyNamespaces)
	granted(t, store.NamespaceRemove(ctx, "7"))
	granted(t, store.NamespaceCreate(ctx, "more", Usage{1, 1}))
	entries := must[[]Entry](t)(store.Journal(ctx, "more", 0, 0))
	if len(entries) != 1 || entries[0].Call != "namespace_create" {
		t.Errorf("%+v", entries)
	}
}

func TestRefusals(t *testing.T) {
	store := newStore(t, Usage{100, 100})
	commitEmpty(t, store, "base", "")
	commitEmpty(t, store, "child", "base")
	must[Prepared](t)(store.Prepare(ctx, "a", "below", ""))
	must[Changed](t)(store.Mkdir(ctx, "a", "below", "/lower"))
	must[Committed](t)(store.Commit(ctx, "a", "below", "lower"))
	must[Prepared](t)(store.Prepare(ctx, "a", "k", "lower"))
	must[Changed](t)(store.Mkdir(ctx, "a", "k", "/d"))
	must[Changed](t)(store.Create(ctx, "a", "k", "/d/f"))
	granted(t, store.LeaseCreate(ctx, "a", "lease"))
	granted(t, store.LeaseAdd(ctx, "a", "lease", "child"))
	for n := 0; n <= 40; n++ {
		must[Changed](t)(store.Symlink(ctx, "a", "k", fmt.Sprintf("/l%d", n), fmt.Sprintf("l%d", n+1)))
	}
	must[Prepared](t)(store.Prepare(ctx, "a", "sealed", ""))
	_, err := store.Commit(ctx, "a", "sealed", "base")
	isError(t, err, ErrAlreadyExists)
	prepare := func(namespace, key, parent string) error {
		_, err := store.Prepare(ctx, namespace, key, parent)
		return err
	}
	remove := func(key string) error {
		_, err := store.Remove(ctx, "a", key)
		return err
	}
	unlink := func(path string) error {
		_, err := store.Unlink(ctx, "a", "k", path)
		return err
	}
	mkdir := func(key, path string, options ...Option) error {
		_, err := store.Mkdir(ctx, "a", key, path, options...)
		return err
	}
	equal(t, must[[]Lease](t)(store.Leases(ctx, "a")), []Lease{{"lease", []string{"child"}, nil}})
	_, noLease := store.Lease(ctx, "a", "none")
	_, notActive := store.Commit(ctx, "a", "base", "x")
	_, noSession := store.Stat(ctx, "a", "k", WithSession(7), WithEntry())
	_, notEmpty := store.Rmdir(ctx, "a", "k", "/d")
	_, crossDevice := store.Rename(ctx, "a", "k", "/lower", "/upper")
	_, notPermitted := store.Link(ctx, "a", "k", "/d", "/x")
	_, tooBig := store.Truncate(ctx, "a", "k", "/d/f", 1<<20+1)
	_, tooManyLinks := store.Resolve(ctx, "a", "k", "/l0")
	_, badPath := store.Look(ctx, "a", "k", "d")
	for _, it := range []struct {
		err    error
		reason Reason
		from   string
		of     string
	}{
		{prepare("a", "", ""), ErrBadArgument, "book", "key"},
		{prepare("b", "x", ""), ErrNoNamespace, "book", "ns"},
		{prepare("a", "x", "none"), ErrNotFound, "book", "parent"},
		{prepare("a", "base", ""), ErrAlreadyExists, "book", "key"},
		{prepare("a", "x", "k"), ErrNotCommitted, "book", "parent"},
		{notActive, ErrNotActive, "book", "key"},
		{remove("base"), ErrHasChildren, "book", "key"},
		{remove("k"), ErrInUse, "book", "key"},
		{remove("child"), ErrLeased, "book", "key"},
		{store.LeaseDrop(ctx, "a", "lease", "base"), ErrNotFound, "book", "name"},
		{store.LeaseRelease(ctx, "a", "none"), ErrNoLease, "book", "lease"},
		{noLease, ErrNoLease, "book", "lease"},
		{store.LeaseCreate(ctx, "a", "lease"), ErrLeaseExists, "book", "lease"},
		{store.Limit(ctx, "a", Usage{1, 100}), ErrBelowCharge, "book", ""},
		{noSession, ErrNoSession, "world", ""},
		{mkdir("sealed", "/d"), ErrNoHand, "world", "key"},
		{store.Reopen(ctx, 0), ErrStillOut, "world", ""},
		{unlink("/none"), ErrNotFound, "file", "path"},
		{mkdir("k", "/d/f/x"), ErrNotDir, "file", "path"},
		{unlink("/d"), ErrIsDir, "file", "path"},
		{mkdir("k", "/d"), ErrExists, "file", "path"},
		{notEmpty, ErrNotEmpty, "file", "path"},
		{crossDevice, ErrCrossDevice, "file", "from"},
		{mkdir("k", "/x", WithMode(0o10000)), ErrInvalid, "file", "mode"},
		{notPermitted, ErrNotPermitted, "file", "from"},
		{tooBig, ErrTooBig, "file", "size"},
		{tooManyLinks, ErrTooManyLinks, "file", "path"},
		{badPath, ErrBadPath, "file", "path"},
	} {
		isError(t, it.err, it.reason)
		var refusal *Refusal
		if !errors.As(it.err, &refusal) || refusal.From != it.from || refusal.Of != it.of {
			t.Errorf("%v: not from %s and of %q", it.err, it.from, it.of)
		}
	}
}

// The root takes 1/1 of 4/2; 4/3 are wanted.
func TestOverLimit(t *testing.T) {
	store := newStore(t, Usage{4, 2})
	must[Prepared](t)(store.Prepare(ctx, "a", "k", ""))
	_, err := store.Charge(ctx, "a", "k", Usage{4, 3})
	isError(t, err, ErrOverLimit)
	var refusal *Refusal
	if errors.As(err, &refusal) {
		equal(t, *refusal, Refusal{Reason: ErrOverLimit, From: "book", Free: Usage{3, 1}, Of: "need"})
	}
}

func TestLimitsOfASnapshot(t *testing.T) {
	store := newStore(t, Usage{100, 100})
	commitEmpty(t, store, "0", "")
	for n := 1; n <= 64; n++ {
		commitEmpty(t, store, fmt.Sprint(n), fmt.Sprint(n-1))
	}
	_, err := store.View(ctx, "a", "v", "64")
	isError(t, err, ErrTooDeep)
	store = newStore(t, Usage{100, 100})
	for slot := 0; slot < 64; slot++ {
		equal(t, must[Prepared](t)(store.Prepare(ctx, "a", fmt.Sprint(slot), "")).Slot, slot)
	}
	_, err = store.Prepare(ctx, "a", "64", "")
	isError(t, err, ErrTooManyActives)
}

func TestSlots(t *testing.T) {
	if given := (Config{Slots: 2}).fields()["slots"]; given != uint64(2) {
		t.Errorf("slots are %v", given)
	}
	if given, there := (Config{}).fields()["slots"]; there {
		t.Errorf("slots are %v", given)
	}
}

func TestAncestors(t *testing.T) {
	if given, there := (Config{}).fields()["ancestors"]; there {
		t.Errorf("ancestors are %v", given)
	}
	limits := map[string]Usage{"a": {100, 100}}
	_, err := New(ctx, Config{Program: program(), Root: "/r", Namespaces: limits, Ancestors: 501})
	isError(t, err, ErrBadArgument)
	if refusal := new(Refusal); !errors.As(err, &refusal) || refusal.Field != "ancestors" || refusal.Of != "ancestors" {
		t.Errorf("%v: the field is not ancestors", err)
	}
	store := newStoreOf(t, Config{Program: program(), Root: "/r", Namespaces: limits, Ancestors: 2})
	for n, parent := range []string{"", "1", "2"} {
		commitEmpty(t, store, fmt.Sprint(n+1), parent)
	}
	equal(t, must[Prepared](t)(store.Prepare(ctx, "a", "k", "2")).Chain, []uint64{2, 1})
	_, err = store.Prepare(ctx, "a", "l", "3")
	isError(t, err, ErrTooDeep)
	_, err = store.View(ctx, "a", "v", "3")
	isError(t, err, ErrTooDeep)
}

// Of three entries the session and the prepare take one each, and the discard keeps the last.
func TestJournalFull(t *testing.T) {
	limits := map[string]Usage{"a": {1, 1}}
	store := newStoreOf(t, Config{Program: program(), Root: "/r", Namespaces: limits, Journal: 3})
	must[Prepared](t)(store.Prepare(ctx, "a", "k", ""))
	_, err := store.Stat(ctx, "a", "k", WithEntry())
	isError(t, err, ErrJournalFull)
	must[Usage](t)(store.Discard(ctx, "a", "k"))
}

func TestRefusedOpen(t *testing.T) {
	_, err := New(ctx, Config{Program: program(), Root: "r"})
	isError(t, err, ErrBadArgument)
	var refusal *Refusal
	if !errors.As(err, &refusal) || refusal.Field != "root" {
		t.Errorf("%v: the field is not root", err)
	}
}

// Each is told with its line, and the store is as it was. The `open` is line 1.
func TestFaults(t *testing.T) {
	store := newStore(t, Usage{100, 100})
	for line, it := range []struct {
		do    string
		given map[string]any
		words string
	}{
		{"mkdir", map[string]any{"ns": "a", "key": "k", "path": "/d", "mode": "x"}, "bad field mode: a number is wanted, a text is there"},
		{"prepear", nil, "no such command"},
		{"open", map[string]any{"root": "/r", "namespaces": []any{}}, "open twice"},
	} {
		var fault *Fault
		if err := store.Request(ctx, it.do, it.given, nil); !errors.As(err, &fault) {
			t.Errorf("%v, not a fault", err)
			continue
		}
		equal(t, *fault, Fault{it.words, uint64(line) + 2})
	}
	equal(t, must[Report](t)(store.Report(ctx)), Report{1, 0, 0, map[string]Usage{"a": {}}})
}

// Nothing is sent where an option isn't the call's, or a field is the client's: the next fault is of line 2.
func TestWhatIsNotSent(t *testing.T) {
	store := newStore(t, Usage{100, 100})
	_, err := store.Prepare(ctx, "a", "k", "", WithLease("l"))
	isError(t, err, ErrOption)
	_, err = store.Look(ctx, "a", "k", "/", WithEntry())
	isError(t, err, ErrOption)
	for _, field := range []string{"do", "id"} {
		isError(t, store.Request(ctx, "look", map[string]any{field: "session"}, nil), ErrReserved)
	}
	var fault *Fault
	if err := store.Request(ctx, "zap", nil, nil); !errors.As(err, &fault) || fault.Line != 2 {
		t.Errorf("%v, not a fault of line 2", err)
	}
	equal(t, must[Report](t)(store.Report(ctx)), Report{1, 0, 0, map[string]Usage{"a": {}}})
}

// Texts beyond ASCII, and those that JSON escapes, come back as they were given. Others aren't sent.
func TestTexts(t *testing.T) {
	store := newStore(t, Usage{100, 100})
	key := "k\"\\\n\t<&>\u2028\u00e9\U0001f600\ufffd\\ufffd"
	labels := map[string]string{"<": ">"}
	must[Prepared](t)(store.Prepare(ctx, "a", key, "", WithLabels(labels)))
	info := must[Info](t)(store.Stat(ctx, "a", key))
	equal(t, info.Name, key)
	equal(t, info.Labels, labels)
	bad := "\xff"
	_, err := store.Stat(ctx, "a", bad)
	isError(t, err, ErrNotText)
	_, err = store.Prepare(ctx, "a", "l", "", WithLabels(map[string]string{"x": bad}))
	isError(t, err, ErrNotText)
	_, err = store.Update(ctx, "a", key, nil, []string{bad})
	isError(t, err, ErrNotText)
	_, err = store.Walk(ctx, "a", "", 0, Filter{Labels: map[string]*string{"x": &bad}})
	isError(t, err, ErrNotText)
	_, err = New(ctx, Config{Program: program(), Root: "/r", Namespaces: map[string]Usage{bad: {}}})
	isError(t, err, ErrNotText)
	for _, value := range []any{
		bad, &bad, []any{"x", bad}, map[string]any{"x": map[string]any{bad: 1}}, struct{ Text []string }{[]string{bad}},
		[]Kind{Kind(bad)}, fs.PathError{Op: "\\" + bad}, json.RawMessage(`"` + bad + `"`),
		netip.IPv6Unspecified().WithZone(bad),
	} {
		isError(t, store.Request(ctx, "look", map[string]any{"x": value}, nil), ErrNotText)
	}
	isError(t, store.Request(ctx, "look"+bad, nil, nil), ErrNotText)
	equal(t, must[Report](t)(store.Report(ctx)).Entries, uint64(2))
}

// Thirty-two goroutines make 20 snapshots each, of a file of n blocks: 1 + n blocks, 2 inodes.
func TestGoroutines(t *testing.T) {
	const goroutines, snapshots = 32, 20
	store := newStore(t, Usage{100_000, 100_000})
	var group sync.WaitGroup
	for n := uint64(0); n < goroutines; n++ {
		n := n
		group.Add(1)
		go func() {
			defer group.Done()
			if err := makeSnapshots(store, n, snapshots); err != nil {
				t.Error(err)
			}
		}()
	}
	group.Wait()
	blocks := uint64(0)
	for n := uint64(0); n < goroutines; n++ {
		blocks += snapshots * (1 + n)
	}
	equal(t, must[Report](t)(store.Report(ctx)).Totals, map[string]Usage{"a": {blocks, 2 * goroutines * snapshots}})
}

func makeSnapshots(store *Store, n uint64, count int) error {
	session, err := store.Session(ctx)
	if err != nil {
		return err
	}
	in := WithSession(session)
	for i := 0; i < count; i++ {
		key, name := fmt.Sprintf("key-%d-%d", n, i), fmt.Sprintf("name-%d-%d", n, i)
		made, err := store.Prepare(ctx, "a", key, "", in)
		if err != nil {
			return err
		}
		if _, err := store.Create(ctx, "a", key, "/file", in); err != nil {
			return err
		}
		if _, err := store.WriteFill(ctx, "a", key, "/file", 0, 0, 4096*n, in); err != nil {
			return err
		}
		committed, err := store.Commit(ctx, "a", key, name, in)
		if err != nil {
			return err
		}
		if want := (Committed{made.ID, Usage{1 + n, 2}}); committed != want {
			return fmt.Errorf("%v, not %v", committed, want)
		}
		info, err := store.Stat(ctx, "a", name, in)
		if err != nil || info.Name != name || info.ID != made.ID {
			return fmt.Errorf("%v: %v", info, err)
		}
	}
	return nil
}

// A program that is no store: it answers each line by the line's number, the second after a second, and the fourth
// as if it were another.
const slow = `#!/bin/sh
n=0
while read -r line; do
	n=$((n + 1))
	id=$n
	case $n in
	2) sleep 1 ;;
	4) id=1 ;;
	esac
	echo "{\"answer\":{\"session\":$n},\"id\":$id}"
done
`

func slowStore(t *testing.T) *Store {
	t.Helper()
	path := filepath.Join(t.TempDir(), "slow")
	if err := os.WriteFile(path, []byte(slow), 0o700); err != nil {
		t.Fatal(err)
	}
	return newStoreOf(t, Config{Program: path})
}

// A program that answers with the id of another call is ended.
func TestAnswerToAnotherCall(t *testing.T) {
	store := slowStore(t)
	must[uint64](t)(store.Session(ctx))
	must[uint64](t)(store.Session(ctx))
	for i := 0; i < 2; i++ {
		_, err := store.Session(ctx)
		isError(t, err, ErrDied)
	}
}

// A line of more than 16,777,216 bytes is a fault, and the next call has its own answer.
func TestLongLine(t *testing.T) {
	store := newStore(t, Usage{1, 1})
	_, err := store.Prepare(ctx, "a", strings.Repeat("k", 1<<24), "")
	var fault *Fault
	if !errors.As(err, &fault) || *fault != (Fault{"too long", 2}) {
		t.Errorf("%v, not a fault", err)
	}
	equal(t, must[Report](t)(store.Report(ctx)).Records, 0)
}

// A call whose context ends returns at once, and no other call gets its answer.
func TestContexts(t *testing.T) {
	store := slowStore(t)
	cancelled, cancel := context.WithCancel(ctx)
	cancel()
	_, err := store.Session(cancelled)
	isError(t, err, context.Canceled)
	short, cancel := context.WithTimeout(ctx, 300*time.Millisecond)
	defer cancel()
	_, err = store.Session(short) // line 2
	isError(t, err, context.DeadlineExceeded)
	equal(t, must[uint64](t)(store.Session(ctx)), uint64(3))
}

// Sixteen goroutines ask for a snapshot of their own, each with contexts that mostly end before the answer comes: what
// is answered is always the caller's.
func TestEndedContexts(t *testing.T) {
	store := newStore(t, Usage{100, 100})
	var group sync.WaitGroup
	for n := 0; n < 16; n++ {
		key := fmt.Sprint(n)
		must[Prepared](t)(store.Prepare(ctx, "a", key, ""))
		group.Add(1)
		go func() {
			defer group.Done()
			for i := 0; i < 200; i++ {
				short, cancel := context.WithTimeout(ctx, time.Duration(i)*10*time.Microsecond)
				info, err := store.Stat(short, "a", key)
				cancel()
				if err == nil && info.Name != key || err != nil && !errors.Is(err, context.DeadlineExceeded) {
					t.Errorf("%s, not %s: %v", info.Name, key, err)
				}
			}
		}()
	}
	group.Wait()
	equal(t, must[Info](t)(store.Stat(ctx, "a", "0")).Name, "0")
}

// Calls that are made as the store is closed are answered, or are refused as closed.
func TestClosedUnderCalls(t *testing.T) {
	for i := 0; i < 20; i++ {
		store := newStore(t, Usage{1, 1})
		var group sync.WaitGroup
		for n := 0; n < 8; n++ {
			group.Add(1)
			go func() {
				defer group.Done()
				for {
					if _, err := store.Report(ctx); err != nil {
						isError(t, err, ErrClosed)
						return
					}
				}
			}()
		}
		time.Sleep(time.Millisecond)
		granted(t, store.Close())
		group.Wait()
	}
}

func TestKilled(t *testing.T) {
	store := newStore(t, Usage{1, 1})
	syscall.Kill(store.PID(), syscall.SIGKILL)
	for i := 0; i < 2; i++ {
		_, err := store.Report(ctx)
		isError(t, err, ErrDied)
		if !strings.Contains(err.Error(), "signal: killed") {
			t.Errorf("%v: it doesn't tell how", err)
		}
	}
	isError(t, store.Close(), ErrDied)
}

// Whoever waits for the end of a store learns of it, and why.
func TestEnded(t *testing.T) {
	killed, closed := newStore(t, Usage{1, 1}), newStore(t, Usage{1, 1})
	granted(t, killed.Err())
	syscall.Kill(killed.PID(), syscall.SIGKILL)
	<-killed.Ended()
	isError(t, killed.Err(), ErrDied)
	if status := new(exec.ExitError); !errors.As(killed.Err(), &status) {
		t.Errorf("%v: no status", killed.Err())
	}
	granted(t, closed.Close())
	<-closed.Ended()
	isError(t, closed.Err(), ErrClosed)
}

// A stopped process is ended by Close, with the calls that it hasn't answered; one that goes on in time isn't.
func TestStopped(t *testing.T) {
	for _, goesOn := range []bool{true, false} {
		store := newStore(t, Usage{1, 1})
		store.patience = time.Minute
		syscall.Kill(store.PID(), syscall.SIGSTOP)
		asked := make(chan error)
		go func() {
			_, err := store.Report(ctx)
			asked <- err
		}()
		for len(store.sent) == 0 {
			time.Sleep(time.Millisecond)
		}
		if goesOn {
			time.AfterFunc(100*time.Millisecond, func() { syscall.Kill(store.PID(), syscall.SIGCONT) })
			granted(t, store.Close())
			granted(t, <-asked)
			continue
		}
		store.patience = 100 * time.Millisecond
		isError(t, store.Close(), ErrDied)
		isError(t, <-asked, ErrDied)
	}
}

func TestClosed(t *testing.T) {
	store := newStore(t, Usage{1, 1})
	granted(t, store.Close())
	granted(t, store.Close())
	_, err := store.Report(ctx)
	isError(t, err, ErrClosed)
}

func TestOtherPrograms(t *testing.T) {
	_, err := New(ctx, Config{Program: "/none"})
	isError(t, err, fs.ErrNotExist)
	_, err = New(ctx, Config{Program: "/bin/false"})
	isError(t, err, ErrDied)
}
