package containerd

import (
	"context"
	"errors"
	"fmt"
	"os"
	"path/filepath"
	"reflect"
	"strings"
	"sync"
	"sync/atomic"
	"testing"

	"github.com/containerd/containerd/errdefs"
	"github.com/containerd/containerd/snapshots"

	"pibroulez.example/pibroulez"
	"pibroulez.example/pibroulez/told"
)

func ofBoth(number uint64) pibroulez.Usage { return pibroulez.Usage{Blocks: number, Inodes: number} }

// A snapshotter for which each namespace of containerd is a tenant of 9/9, one is listed, and one is another's.
func withEach(root, program string) (*Snapshotter, error) {
	limit := ofBoth(9)
	return New(ctx, Config{
		Program: program, Root: root, Each: &limit, Tenants: map[string]pibroulez.Usage{"listed": ofBoth(5)}, Others: []string{"builder"},
	})
}

func newWithEach(t *testing.T, root string) *Snapshotter {
	t.Helper()
	s, err := withEach(root, program())
	granted(t, err)
	t.Cleanup(func() { s.Close() })
	return s
}

// Expects the store to have these tenants beside the two that are always there.
func expectTenants(t *testing.T, s *Snapshotter, want ...string) {
	t.Helper()
	quotas, err := s.store.Quotas(ctx)
	granted(t, err)
	if got := told.Sorted(quotas); !reflect.DeepEqual(got, told.Sorted(setOf(append(want, Namespace, "listed")))) {
		t.Errorf("%q, and wanted are %q", got, want)
	}
}

func setOf(names []string) map[string]bool {
	set := map[string]bool{}
	for _, it := range names {
		set[it] = true
	}
	return set
}

func limitOf(t *testing.T, s *Snapshotter, name string) pibroulez.Usage {
	t.Helper()
	quota, err := s.store.Quota(ctx, name)
	granted(t, err)
	return quota.Limit
}

// A tenant that isn't listed comes with its first snapshot, of any kind, and goes with its last. One that is listed stays.
func TestTenantsComeAndGo(t *testing.T) {
	root := t.TempDir()
	s := newWithEach(t, root)
	expectTenants(t, s)
	prepare := func(key, parent string, opts ...snapshots.Opt) error {
		_, err := s.Prepare(ctx, key, parent, opts...)
		return err
	}
	granted(t, prepare("x/1/k", ""))
	expectTenants(t, s, "x")
	if got := limitOf(t, s, "x"); got != ofBoth(9) {
		t.Error(got)
	}
	granted(t, s.Commit(ctx, "x/2/base", "x/1/k"))
	_, err := s.View(ctx, "x/3/view", "x/2/base")
	granted(t, err)
	granted(t, prepare("x-y/1/k", ""))
	granted(t, prepare("listed/1/k", ""))
	granted(t, prepare("builder/1/k", ""))
	granted(t, prepare("w", ""))
	var keys []string
	for _, it := range infos(t, s) {
		keys = append(keys, it.Name)
	}
	if got := strings.Join(keys, " "); got != "builder/1/k listed/1/k w x-y/1/k x/2/base x/3/view" {
		t.Error(got)
	}
	expectTenants(t, s, "x", "x-y")
	for _, key := range []string{"x/3/view", "x-y/1/k", "listed/1/k"} {
		granted(t, s.Remove(ctx, key))
	}
	expectTenants(t, s, "x")
	granted(t, s.Close())
	s = newWithEach(t, root)
	expectTenants(t, s, "x")
	granted(t, s.Remove(ctx, "x/2/base"))
	expectTenants(t, s)
	// It comes back with none of what it had.
	granted(t, prepare("x/4/k", ""))
	if got := usageOf(t, s, "x/4/k"); got != ofBoth(1) {
		t.Error(got)
	}
	granted(t, s.Remove(ctx, "x/4/k"))
	expectTenants(t, s)
}

// A snapshot that isn't made leaves no tenant, and a question for one that isn't there makes none, and no line of the log.
func TestTenantsOfRefusals(t *testing.T) {
	root := t.TempDir()
	s := newWithEach(t, root)
	log := logSize(t, root)
	_, errOfStat := s.Stat(ctx, "x/1/k")
	_, errOfUsage := s.Usage(ctx, "x/1/k")
	_, errOfMounts := s.Mounts(ctx, "x/1/k")
	_, errOfUpdate := s.Update(ctx, snapshots.Info{Name: "x/1/k", Labels: map[string]string{"a": "b"}})
	for _, err := range []error{errOfStat, errOfUsage, errOfMounts, errOfUpdate, s.Commit(ctx, "x/2/k", "x/1/k"), s.Remove(ctx, "x/1/k")} {
		if !errdefs.IsNotFound(err) {
			t.Error(err)
		}
	}
	if got := infos(t, s); len(got) != 0 || logSize(t, root) > log+400 {
		t.Errorf("%v, %d bytes more", got, logSize(t, root)-log)
	}
	expectTenants(t, s)
	_, err := s.Prepare(ctx, "x/1/k", "x/0/none")
	if !errdefs.IsNotFound(err) {
		t.Error(err)
	}
	_, err = s.View(ctx, "x/1/k", "x/0/none")
	if !errdefs.IsNotFound(err) {
		t.Error(err)
	}
	_, err = s.Prepare(ctx, "x/1/k", "", snapshots.WithLabels(map[string]string{ReserveLabel: "10/1"}))
	if !errdefs.IsUnavailable(err) || !strings.Contains(err.Error(), `of tenant "x"`) {
		t.Error(err)
	}
	expectTenants(t, s)
	// Of these names none is a tenant.
	for _, name := range []string{"", Namespace, "builder", "pibroulez-store-x", strings.Repeat("n", 256)} {
		_, err := s.Prepare(ctx, name+"/1/k", "")
		granted(t, err)
		expectTenants(t, s)
		granted(t, s.Remove(ctx, name+"/1/k"))
	}
	// And of these none can be.
	for _, name := range []string{"\xff", "a\x00b"} {
		if _, err := s.Prepare(ctx, name+"/1/k", ""); !errdefs.IsInvalidArgument(err) {
			t.Errorf("%q: %v", name, err)
		}
	}
	expectTenants(t, s)
	granted(t, s.Cleanup(ctx))
	if entries, err := os.ReadDir(s.directories.path); err != nil || len(entries) != 0 {
		t.Errorf("%v, %v", entries, err)
	}
}

// A tenant of an operator keeps its limit, and goes with its last snapshot too. One with a lease or with a snapshot of somebody
// else stays. One that is removed by a line is made anew.
func TestTenantsByLines(t *testing.T) {
	root := t.TempDir()
	s := newWithEach(t, root)
	prepare := func(key string) {
		t.Helper()
		_, err := s.Prepare(ctx, key, "")
		granted(t, err)
	}
	granted(t, s.store.NamespaceCreate(ctx, "made", ofBoth(3)))
	prepare("made/1/k")
	if got := limitOf(t, s, "made"); got != ofBoth(3) {
		t.Error(got)
	}
	granted(t, s.Remove(ctx, "made/1/k"))
	expectTenants(t, s)

	prepare("leased/1/k")
	granted(t, s.store.LeaseCreate(ctx, "leased", "l"))
	granted(t, s.Remove(ctx, "leased/1/k"))
	expectTenants(t, s, "leased")
	granted(t, s.store.LeaseRelease(ctx, "leased", "l"))
	prepare("leased/2/k")
	granted(t, s.Remove(ctx, "leased/2/k"))
	expectTenants(t, s)

	// One that is known to be there, and was removed.
	granted(t, s.store.NamespaceRemove(ctx, "listed"))
	prepare("listed/1/k")
	if got := limitOf(t, s, "listed"); got != ofBoth(5) {
		t.Error(got)
	}
	prepare("x/1/k")
	_, err := s.store.Discard(ctx, "x", "x/1/k")
	granted(t, err)
	granted(t, s.store.NamespaceRemove(ctx, "x"))
	prepare("x/2/k")
	expectTenants(t, s, "x")

	_, err = s.store.Prepare(ctx, "x", "own", "")
	granted(t, err)
	granted(t, s.Remove(ctx, "x/2/k"))
	expectTenants(t, s, "x")
	granted(t, os.RemoveAll(s.directories.of(5)))
	granted(t, s.Close())
	for _, key := range []string{"own", "zzz"} {
		_, err := withEach(root, program())
		if !errdefs.IsFailedPrecondition(err) || !strings.Contains(err.Error(), fmt.Sprintf(`namespace "x" of the store has the snapshot %q, which isn't containerd's`, key)) {
			t.Errorf("%v", err)
		}
		store, err := pibroulez.Open(ctx, program(), filepath.Join(root, LogFile))
		granted(t, err)
		_, err = store.Discard(ctx, "x", key)
		granted(t, err)
		if key == "own" {
			_, err = store.Prepare(ctx, "x", "zzz", "")
			granted(t, err)
		}
		granted(t, store.Close())
	}
	s = newWithEach(t, root)
	expectTenants(t, s)
}

// Calls of one namespace at once, of which some make its first snapshot and some remove its last, are all granted, and leave
// no tenant.
func TestTenantsAtOnce(t *testing.T) {
	s := newWithEach(t, rootInMemory(t))
	var all sync.WaitGroup
	var made atomic.Int64
	for n := 0; n < 8; n++ {
		n := n
		all.Add(1)
		go func() {
			defer all.Done()
			for round := 0; round < 12; round++ {
				key := fmt.Sprintf("x%d/%d/k", n%2, n)
				if _, err := s.Prepare(ctx, key, ""); err != nil {
					t.Error(err)
				}
				if err := s.Walk(ctx, func(context.Context, snapshots.Info) error { made.Add(1); return nil }); err != nil {
					t.Error(err)
				}
				if err := s.Remove(ctx, key); err != nil {
					t.Error(err)
				}
			}
		}()
	}
	all.Wait()
	if made.Load() < 8*12 {
		t.Errorf("%d snapshots were seen", made.Load())
	}
	expectTenants(t, s)
	if len(s.tenants.of) > 2 || len(s.tenants.locks.held) > 0 {
		t.Errorf("%v, %v", s.tenants.of, s.tenants.locks.held)
	}
}

// A store that ends after any line leaves a root of which a snapshotter is made that has each snapshot's directory, and no
// tenant without a snapshot.
func TestTenantsOfAnEnd(t *testing.T) {
	if _, err := os.Stat("/bin/sh"); err != nil {
		t.Skip(err)
	}
	t.Parallel()
	life := func(s *Snapshotter) error {
		if _, err := s.Prepare(ctx, "x/1/k", ""); err != nil {
			return err
		}
		if _, err := s.Prepare(ctx, "y/1/k", "", snapshots.WithLabels(map[string]string{ReserveLabel: "10/1"})); !errdefs.IsUnavailable(err) || errors.Is(err, pibroulez.ErrDied) {
			return err
		}
		if err := s.Commit(ctx, "x/2/base", "x/1/k"); err != nil {
			return err
		}
		return s.Remove(ctx, "x/2/base")
	}
	var seen atomic.Int64
	for lines, isWhole := 1, false; !isWhole; lines++ {
		root, few := t.TempDir(), filepath.Join(t.TempDir(), "few")
		program := program()
		if !filepath.IsAbs(program) {
			program, _ = filepath.Abs(program)
		}
		const script = "#!/bin/sh\nn=0\nwhile [ $n -lt %d ] && IFS= read -r line; do printf '%%s\\n' \"$line\"; n=$((n + 1)); done | '%s' \"$@\"\n"
		granted(t, os.WriteFile(few, []byte(fmt.Sprintf(script, lines, program)), 0o700))
		s, err := withEach(root, few)
		if err == nil {
			isWhole = life(s) == nil
			s.Close()
		}
		s = newWithEach(t, root)
		granted(t, s.Cleanup(ctx))
		nodes, err := s.tree(ctx)
		granted(t, err)
		tenants := map[string]bool{}
		for _, it := range nodes {
			tenants[s.namespaceOf(it.Key)] = true
			seen.Add(1)
		}
		expectTenants(t, s, told.Sorted(tenants)...)
		entries, err := os.ReadDir(s.directories.path)
		if err != nil || len(entries) != len(nodes) {
			t.Errorf("after %d lines: %v, %v of %v", lines, err, entries, nodes)
		}
		granted(t, s.Close())
	}
	if seen.Load() == 0 {
		t.Error("no snapshot was there at any time")
	}
}

// A store with as many namespaces as one may have gets no tenant more, which the error says.
func TestMostTenants(t *testing.T) {
	root := t.TempDir()
	config := Config{Program: program(), Root: root}.ofStore(root, filepath.Join(root, LogFile))
	for n := len(config.Namespaces); n < 4096; n++ {
		config.Namespaces[fmt.Sprint("n", n)] = ofBoth(5)
	}
	store, err := pibroulez.New(ctx, config)
	granted(t, err)
	defer store.Close()
	limit := ofBoth(9)
	s, err := New(ctx, Config{Root: root, Store: store, Each: &limit, Others: told.Sorted(config.Namespaces)})
	granted(t, err)
	defer s.Close()
	_, err = s.Prepare(ctx, "x/1/k", "")
	if !errdefs.IsUnavailable(err) || err.Error() != `tenant "x" is not made: the store has as many namespaces as one may have` {
		t.Error(err)
	}
	granted(t, store.NamespaceRemove(ctx, "n7"))
	_, err = s.Prepare(ctx, "x/1/k", "")
	granted(t, err)
}

// Namespaces with snapshots of before stay where these are, until a start finds none.
func TestSharedTenants(t *testing.T) {
	root := t.TempDir()
	s, err := New(ctx, Config{Program: program(), Root: root, Tenants: map[string]pibroulez.Usage{"listed": ofBoth(5)}})
	granted(t, err)
	_, err = s.Prepare(ctx, "x/1/k", "")
	granted(t, err)
	granted(t, s.Close())
	s = newWithEach(t, root)
	granted(t, s.Commit(ctx, "x/2/base", "x/1/k"))
	_, err = s.Prepare(ctx, "x/3/k", "x/2/base")
	granted(t, err)
	expectTenants(t, s)
	granted(t, s.Remove(ctx, "x/3/k"))
	granted(t, s.Remove(ctx, "x/2/base"))
	granted(t, s.Close())
	s = newWithEach(t, root)
	_, err = s.Prepare(ctx, "x/4/k", "")
	granted(t, err)
	expectTenants(t, s, "x")
}

// While it runs, tenants become listed and unlisted, their limits change, and names become another's.
func TestTenantsAreSet(t *testing.T) {
	s := newWithEach(t, t.TempDir())
	set := func(each uint64, listed map[string]pibroulez.Usage, want ...string) {
		t.Helper()
		if taken, err := s.SetTenants(ctx, listed, ofBoth(each)); err != nil || !reflect.DeepEqual(taken, want) {
			t.Errorf("%v, %v", taken, err)
		}
	}
	for _, key := range []string{"x/1/k", "builder/1/k"} {
		_, err := s.Prepare(ctx, key, "")
		granted(t, err)
	}
	if err := s.Reserve(ctx, "x"); !errors.Is(err, ErrTaken) {
		t.Error(err)
	}
	set(7, map[string]pibroulez.Usage{"listed": ofBoth(5), "x": ofBoth(3), "builder": ofBoth(1)}, "builder")
	granted(t, s.Remove(ctx, "x/1/k"))
	expectTenants(t, s, "x")
	set(7, map[string]pibroulez.Usage{"listed": ofBoth(5)})
	expectTenants(t, s)
	_, err := s.Prepare(ctx, "x/1/k", "")
	granted(t, err)
	if got := limitOf(t, s, "x"); got != ofBoth(7) {
		t.Error(got)
	}
	granted(t, s.Remove(ctx, "x/1/k"))
	granted(t, s.Reserve(ctx, "x"))
	_, err = s.Prepare(ctx, "x/1/k", "")
	granted(t, err)
	expectTenants(t, s)
}
