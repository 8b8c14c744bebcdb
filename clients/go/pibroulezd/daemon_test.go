package main

import (
	"bytes"
	"context"
	"errors"
	"io"
	"os"
	"strconv"
	"strings"
	"syscall"
	"testing"

	"github.com/containerd/containerd/namespaces"
	"github.com/sirupsen/logrus"

	"pibroulez.example/pibroulez"
	"pibroulez.example/pibroulez/cluster"
	"pibroulez.example/pibroulez/cluster/etcdtest"
	"pibroulez.example/pibroulez/pibroulezd/door"
	"pibroulez.example/pibroulez/told"
)

var ctx = context.Background()

func quiet() *logrus.Logger {
	log := logrus.New()
	log.SetOutput(io.Discard)
	return log
}

// A daemon within the test's process, and what it tells.
func (p place) open(t *testing.T, rest string) (*daemon, *bytes.Buffer) {
	t.Helper()
	said := new(bytes.Buffer)
	log := logrus.New()
	log.SetOutput(said)
	d, err := open(ctx, log, p.configure(t, rest))
	granted(t, err)
	t.Cleanup(func() { d.store.Close() })
	return d, said
}

func (d *daemon) limitOf(t *testing.T, name string) pibroulez.Usage {
	t.Helper()
	quota, err := d.store.Quota(ctx, name)
	granted(t, err)
	return quota.Limit
}

// A daemon that reads its file again goes on with what may change, and refuses the rest by its name.
func TestReadAgain(t *testing.T) {
	p := newPlace(t)
	p.configure(t, tenant("a", 100, 100)+tenant("b", 5, 5))
	it := p.start(t)
	p.configure(t, "slots = 7\nancestors = 64\n"+tenant("a", 60, 70)+tenant("c", 1, 1))
	it.readAgain(t)
	p.configure(t, "slots = 0\n"+tenant("a", 1, 1))
	it.readAgain(t)
	granted(t, os.Remove(p.path("pibroulezd.toml")))
	it.readAgain(t)
	it.end(t)
	for _, want := range []string{
		"slots: it can't change while the daemon runs: 4096 stays", "ancestors: it can't change while the daemon runs: 500 stays", "\"tenant removed\" tenant=b", "\"tenant made\" limit=1/1 tenant=c",
		":3: slots: a number from 1 to 4096 is wanted", "no such file",
	} {
		if !strings.Contains(it.said.String(), want) {
			t.Errorf("not told: %s in %s", want, it.said)
		}
	}
	store, err := pibroulez.Open(ctx, program(), p.path("root/calls.jsonl"))
	granted(t, err)
	defer store.Close()
	quotas, err := store.Quotas(ctx)
	granted(t, err)
	equal(t, quotas["a"].Limit, pibroulez.Usage{Blocks: 60, Inodes: 70})
	equal(t, quotas["c"].Limit, pibroulez.Usage{Blocks: 1, Inodes: 1})
	equal(t, len(quotas), 2)
}

// The names of the store's tenants.
func (d *daemon) tenants(t *testing.T) []string {
	t.Helper()
	quotas, err := d.store.Quotas(ctx)
	granted(t, err)
	return told.Sorted(quotas)
}

// Where the file is read again the store has its tenants, and no other but those with snapshots or leases. These stay
// without members, and are gone once they have none.
func TestTenantsChange(t *testing.T) {
	p := newPlace(t)
	d, said := p.open(t, tenant("a", 100, 100)+tenant("b", 5, 6)+"users = [7]\n")
	_, err := d.store.Prepare(ctx, "b", "k", "")
	granted(t, err)
	granted(t, d.store.NamespaceCreate(ctx, "made", pibroulez.Usage{Blocks: 1, Inodes: 1}))
	p.configure(t, tenant("a", 100, 100)+tenant("c", 7, 8)+"users = [7]\n")
	d.readAgain(ctx)
	equal(t, d.tenants(t), []string{"a", "b", "c"})
	equal(t, d.limitOf(t, "b"), pibroulez.Usage{Blocks: 5, Inodes: 6})
	equal(t, d.limitOf(t, "c"), pibroulez.Usage{Blocks: 7, Inodes: 8})
	equal(t, d.rights(door.Peer{User: 7}).Namespaces, map[string]bool{"c": true})
	if !strings.Contains(said.String(), `msg="the tenant stays, and has no members" error="namespace_remove: NotEmpty (from book)" tenant=b`) {
		t.Errorf("it said %s", said)
	}
	_, err = d.store.Discard(ctx, "b", "k")
	granted(t, err)
	d.readAgain(ctx)
	equal(t, d.tenants(t), []string{"a", "c"})

	// A tenant that comes back has the limit of the file, and none of what it had. One that somebody else has set stays.
	p.configure(t, tenant("b", 5, 6))
	d.readAgain(ctx)
	equal(t, d.tenants(t), []string{"b"})
	equal(t, d.limitOf(t, "b"), pibroulez.Usage{Blocks: 5, Inodes: 6})
	entries, err := d.store.Journal(ctx, "b", 0, 0)
	granted(t, err)
	equal(t, len(entries), 1)
	granted(t, d.store.Limit(ctx, "b", pibroulez.Usage{Blocks: 50, Inodes: 60}))
	d.readAgain(ctx)
	equal(t, d.limitOf(t, "b"), pibroulez.Usage{Blocks: 50, Inodes: 60})
	granted(t, d.store.NamespaceRemove(ctx, "b"))
	d.readAgain(ctx)
	equal(t, d.limitOf(t, "b"), pibroulez.Usage{Blocks: 5, Inodes: 6})
	p.configure(t, "")
	d.readAgain(ctx)
	equal(t, d.tenants(t), []string{})
	text, err := os.ReadFile(p.path("root/limits.json"))
	granted(t, err)
	equal(t, string(text), "{}\n")
}

// At a start the store has the tenants of the file, too. It isn't served where another one has a snapshot or a lease: all of
// these are told.
func TestTenantsOfAStart(t *testing.T) {
	p := newPlace(t)
	d, _ := p.open(t, "")
	equal(t, d.tenants(t), []string{})
	granted(t, d.store.Close())
	d, _ = p.open(t, tenant("a", 1, 1)+tenant("b", 2, 2)+tenant("c", 3, 3)+tenant("d", 4, 4))
	equal(t, d.tenants(t), []string{"a", "b", "c", "d"})
	_, err := d.store.Prepare(ctx, "b", "k", "")
	granted(t, err)
	granted(t, d.store.LeaseCreate(ctx, "c", "lease"))
	granted(t, d.store.Close())
	_, err = open(ctx, quiet(), p.configure(t, tenant("a", 1, 1)))
	if err == nil || !strings.HasSuffix(err.Error(), `: tenants: the store of `+p.path("root")+` also has "b", "c"`) {
		t.Error(err)
	}
	equal(t, statusOf(err), failed)
	d, _ = p.open(t, tenant("b", 2, 2)+tenant("c", 3, 3)+tenant("e", 5, 5))
	equal(t, d.tenants(t), []string{"b", "c", "e"})
	equal(t, d.limitOf(t, "e"), pibroulez.Usage{Blocks: 5, Inodes: 5})
}

// A store allows as many ancestors as the file says when it is opened, and as many after a start with another file.
func TestAncestors(t *testing.T) {
	p := newPlace(t)
	d, _ := p.open(t, "ancestors = 2\n"+tenant("a", 100, 100))
	for n, parent := range []string{"", "1", "2"} {
		_, err := d.store.Prepare(ctx, "a", "k", parent)
		granted(t, err)
		_, err = d.store.Commit(ctx, "a", "k", strconv.Itoa(n+1))
		granted(t, err)
	}
	for _, other := range []string{"", "ancestors = 500\n"} {
		if _, err := d.store.Prepare(ctx, "a", "k", "3"); !errors.Is(err, pibroulez.ErrTooDeep) {
			t.Errorf("%v, not too deep", err)
		}
		if _, err := d.store.View(ctx, "a", "v", "3"); !errors.Is(err, pibroulez.ErrTooDeep) {
			t.Errorf("%v, not too deep", err)
		}
		_, err := d.store.Prepare(ctx, "a", "k", "2")
		granted(t, err)
		_, err = d.store.Discard(ctx, "a", "k")
		granted(t, err)
		granted(t, d.store.Close())
		d, _ = p.open(t, other+tenant("a", 100, 100))
	}
}

// The daemon ends with its store, and says of what.
func TestStoreIsKilled(t *testing.T) {
	p := newPlace(t)
	p.configure(t, tenant("a", 1, 1))
	it := p.start(t)
	granted(t, syscall.Kill(childOf(t, it.Process.Pid), syscall.SIGKILL))
	equal(t, it.status(t), storeEnded)
	if lines := strings.Count(it.said.String(), "level=error"); lines != 1 ||
		!strings.Contains(it.said.String(), "the store has ended") || !strings.Contains(it.said.String(), "killed") {
		t.Errorf("it said %s", it.said)
	}
}

// A daemon whose store doesn't answer any more ends all the same, though calls wait for it by each door.
func TestStoppedStore(t *testing.T) {
	if os.Getenv("PIBROULEZ_KILLS") == "" {
		t.Skip("it takes some ten seconds: before a release alone")
	}
	endpoint := etcdtest.Start(t)
	_, err := cluster.NewOperator(etcdtest.Client(t, endpoint), "").SetLimit(ctx, "containerd", usage(20, 20))
	granted(t, err)
	p := newPlace(t)
	p.configure(t, strings.ReplaceAll(p.clustered(endpoint, "one", ""), "[lines]", "[lines]\npatience = \"1s\"")+p.containerd())
	it := p.start(t)
	granted(t, syscall.Kill(childOf(t, it.Process.Pid), syscall.SIGSTOP))
	store, s := p.connect(t), p.snapshotter(t)
	answered := make(chan error, 2)
	go func() {
		_, err := store.Prepare(ctx, "a", "k", "")
		answered <- err
	}()
	go func() {
		_, err := s.Prepare(namespaces.WithNamespace(ctx, "test"), "k", "")
		answered <- err
	}()
	it.end(t)
	for i := 0; i < 2; i++ {
		if err := <-answered; err == nil {
			t.Error("a call of a stopped store was granted")
		}
	}
}

// Nothing is served where the file isn't there or has faults, or another daemon has the store.
func TestNoService(t *testing.T) {
	p := newPlace(t)
	log := quiet()
	serving := func(want string) {
		t.Helper()
		if err := serve(ctx, log, p.path("pibroulezd.toml"), nil); err == nil || !strings.Contains(err.Error(), want) {
			t.Errorf("%v, not %s", err, want)
		}
	}
	serving("no such file")
	d, _ := p.open(t, tenant("a", 1, 1)+tenant("b", 1, 1))
	serving("resource temporarily unavailable")
	granted(t, d.store.Close())
	p.configure(t, "slots = true")
	serving("slots: ")
	ended, cancel := context.WithCancel(ctx)
	cancel()
	p.configure(t, tenant("a", 1, 1)+tenant("b", 1, 1))
	granted(t, serve(ended, log, p.path("pibroulezd.toml"), nil))
}

// A limit of the file is given where it is another one than was given last. In between that of somebody else stays, over
// starts too.
func TestLimits(t *testing.T) {
	p := newPlace(t)
	small, large := pibroulez.Usage{Blocks: 10, Inodes: 10}, pibroulez.Usage{Blocks: 90, Inodes: 90}
	d, said := p.open(t, tenant("a", 10, 10))
	equal(t, d.limitOf(t, "a"), small)
	granted(t, d.store.Limit(ctx, "a", large))
	d.readAgain(ctx)
	equal(t, d.limitOf(t, "a"), large)
	granted(t, d.store.Close())

	d, _ = p.open(t, tenant("a", 10, 10))
	equal(t, d.limitOf(t, "a"), large)
	granted(t, d.store.Close())
	d, said = p.open(t, tenant("a", 20, 20))
	equal(t, d.limitOf(t, "a"), pibroulez.Usage{Blocks: 20, Inodes: 20})

	// One below the charge is refused, and given once the charge allows it.
	_, err := d.store.Prepare(ctx, "a", "k", "")
	granted(t, err)
	_, err = d.store.Charge(ctx, "a", "k", pibroulez.Usage{Blocks: 5, Inodes: 5})
	granted(t, err)
	p.configure(t, tenant("a", 4, 4))
	d.readAgain(ctx)
	equal(t, d.limitOf(t, "a"), pibroulez.Usage{Blocks: 20, Inodes: 20})
	if !strings.Contains(said.String(), "the old limit stays") || !strings.Contains(said.String(), "BelowCharge") {
		t.Errorf("it said %s", said)
	}
	_, err = d.store.Discard(ctx, "a", "k")
	granted(t, err)
	granted(t, d.store.Close())
	d, _ = p.open(t, tenant("a", 4, 4))
	equal(t, d.limitOf(t, "a"), pibroulez.Usage{Blocks: 4, Inodes: 4})
	granted(t, d.store.Limit(ctx, "a", large))
	granted(t, d.store.Close())

	// Without what was given, or with what is none, all are given anew.
	for _, break_ := range []func() error{
		func() error { return os.Remove(p.path("root/limits.json")) },
		func() error { return os.WriteFile(p.path("root/limits.json"), []byte("{\"a\""), 0o600) },
	} {
		granted(t, break_())
		d, _ = p.open(t, tenant("a", 4, 4))
		equal(t, d.limitOf(t, "a"), pibroulez.Usage{Blocks: 4, Inodes: 4})
		granted(t, d.store.Limit(ctx, "a", large))
		granted(t, d.store.Close())
	}
}
