package main

import (
	"context"
	"fmt"
	"os"
	"path/filepath"
	"strings"
	"syscall"
	"testing"
	"time"

	snapshotsapi "github.com/containerd/containerd/api/services/snapshots/v1"
	"github.com/containerd/containerd/errdefs"
	"github.com/containerd/containerd/namespaces"
	"github.com/containerd/containerd/snapshots"
	"github.com/containerd/containerd/snapshots/proxy"
	"google.golang.org/grpc"

	"pibroulez.example/pibroulez"
	"pibroulez.example/pibroulez/containerd"
	"pibroulez.example/pibroulez/pibroulezd/configuration"
)

func (p place) containerd() string { return fmt.Sprintf("[containerd]\nsocket = %q\n", p.path("grpc")) }

// containerd's own client of a snapshotter, over the socket.
func (p place) snapshotter(t *testing.T) snapshots.Snapshotter {
	t.Helper()
	dialled, cancel := context.WithTimeout(ctx, time.Minute)
	defer cancel()
	connection, err := grpc.DialContext(dialled, "unix://"+p.path("grpc"), grpc.WithInsecure(), grpc.WithBlock())
	granted(t, err)
	t.Cleanup(func() { connection.Close() })
	return proxy.NewSnapshotter(snapshotsapi.NewSnapshotsClient(connection), "pibroulez")
}

// containerd and a builder have one store at once, each its namespace, and find it again after the daemon's end.
func TestContainerd(t *testing.T) {
	equal(t, configuration.ContainerdNamespace, containerd.Namespace)
	p := newPlace(t)
	p.configure(t, p.containerd()+p.lines()+roles("operator")+tenant("a", 100, 100))
	it := p.start(t)
	called := namespaces.WithNamespace(ctx, "test")
	s, store := p.snapshotter(t), p.connect(t)
	_, err := s.Prepare(called, "k", "")
	granted(t, err)
	_, err = store.Prepare(ctx, "a", "k", "")
	granted(t, err)
	granted(t, s.Commit(called, "base", "k"))
	mounts, err := s.View(called, "view", "base")
	granted(t, err)
	// The builder's snapshot has the id between the two.
	if len(mounts) != 1 || mounts[0].Source != filepath.Join(p.path("root"), "snapshots", "1", "fs") {
		t.Errorf("%v: mounts of a view", mounts)
	}
	tree, err := store.Tree(ctx, containerd.Namespace)
	granted(t, err)
	if len(tree) != 2 || tree[0].Key != "base" || tree[1].ID != 3 {
		t.Errorf("%+v", tree)
	}
	it.end(t)

	it = p.start(t)
	s, store = p.snapshotter(t), p.connect(t)
	info, err := s.Stat(called, "base")
	granted(t, err)
	equal(t, info.Kind, snapshots.KindCommitted)
	_, err = store.Discard(ctx, "a", "k")
	granted(t, err)
	granted(t, s.Remove(called, "view"))

	// The limit of its namespace is the configuration's.
	p.configure(t, p.containerd()+"blocks = 1\n"+p.lines()+roles("operator")+tenant("a", 100, 100))
	it.readAgain(t)
	quota, err := store.Quota(ctx, containerd.Namespace)
	granted(t, err)
	equal(t, quota.Limit, pibroulez.Usage{Blocks: 1, Inodes: 1 << 40})
	if _, err := s.Prepare(called, "k", "base"); !errdefs.IsUnavailable(err) {
		t.Errorf("%v: a prepare above the limit", err)
	}
	granted(t, syscall.Kill(childOf(t, it.Process.Pid), syscall.SIGKILL))
	equal(t, it.status(t), storeEnded)
}

// containerd's namespaces that are tenants have their limits: what one of them has no room for is refused, with its name and
// what is free, and others go on. Nobody calls on them by lines but operators and quota services.
func TestTenantsOfContainerd(t *testing.T) {
	p := newPlace(t)
	p.configure(t, p.containerd()+p.lines()+roles("operator")+"[tenants.a]\nblocks = 3\ninodes = 3\ncontainerd = true\n"+tenant("b", 100, 100))
	it := p.start(t)
	called := namespaces.WithNamespace(ctx, "test")
	s, store := p.snapshotter(t), p.connect(t)
	_, err := s.Prepare(called, "a/1/k", "", snapshots.WithLabels(map[string]string{containerd.ReserveLabel: "3/3"}))
	granted(t, err)
	_, err = s.Prepare(called, "b/1/k", "")
	granted(t, err)
	_, err = s.Prepare(called, "a/2/k", "")
	if !errdefs.IsUnavailable(err) || !strings.Contains(err.Error(), `free 0 blocks, 0 inodes of tenant "a"`) {
		t.Errorf("%v", err)
	}
	info, err := s.Stat(called, "b/1/k")
	granted(t, err)
	mounts, err := s.Mounts(called, "a/1/k")
	granted(t, err)
	granted(t, os.WriteFile(filepath.Join(mounts[0].Source, "f"), make([]byte, 4096), 0o600))
	granted(t, s.Commit(called, "a/3/base", "a/1/k"))
	usage, err := s.Usage(called, "a/3/base")
	granted(t, err)
	equal(t, usage, snapshots.Usage{Size: 2 * 4096, Inodes: 2})
	for namespace, want := range map[string]int{"a": 1, "b": 0, containerd.Namespace: 1} {
		nodes, err := store.Tree(ctx, namespace)
		granted(t, err)
		equal(t, len(nodes), want)
	}
	granted(t, s.Remove(called, info.Name))
	it.end(t)
	it = p.start(t)
	_, err = p.snapshotter(t).Stat(called, "a/3/base")
	granted(t, err)
	it.end(t)
}

// A store gets the door for containerd, and its tenants, at a start, and loses them there where they have nothing.
func TestContainerdOfAStart(t *testing.T) {
	p := newPlace(t)
	called := namespaces.WithNamespace(ctx, "test")
	d, _ := p.open(t, tenant("b", 1, 1))
	granted(t, d.store.Close())
	whole := p.containerd() + "[tenants.a]\nblocks = 3\ninodes = 3\ncontainerd = true\n"
	for _, it := range []struct{ file, key string }{{p.containerd(), "k"}, {whole, "a/1/k"}} {
		p.configure(t, it.file)
		daemon := p.start(t)
		s := p.snapshotter(t)
		_, err := s.Prepare(called, it.key, "")
		granted(t, err)
		p.configure(t, "")
		daemon.readAgain(t)
		granted(t, s.Remove(called, it.key))
		daemon.end(t)
	}
	d, _ = p.open(t, whole)
	equal(t, d.tenants(t), []string{"a", containerd.Namespace})
	granted(t, d.store.Close())
	d, _ = p.open(t, "")
	equal(t, d.tenants(t), []string{})
}

// A store that isn't that of the directories isn't served.
func TestOtherDirectories(t *testing.T) {
	p := newPlace(t)
	p.configure(t, p.containerd())
	it := p.start(t)
	called := namespaces.WithNamespace(ctx, "test")
	_, err := p.snapshotter(t).Prepare(called, "k", "")
	granted(t, err)
	it.end(t)
	store, err := pibroulez.Open(ctx, program(), p.path("root/calls.jsonl"))
	granted(t, err)
	nodes, err := store.Tree(ctx, containerd.Namespace)
	granted(t, err)
	equal(t, len(nodes), 1)
	granted(t, store.Close())
	p.configure(t, fmt.Sprintf("log = %q\n", p.path("other"))+p.containerd())
	isError(t, serve(ctx, quiet(), p.path("pibroulezd.toml"), nil), containerd.ErrMismatch)
}

// A container that has more than its tenant's limit covers is told by its label, and by metrics until it has less.
func TestOverLimit(t *testing.T) {
	p := newPlace(t)
	watched := fmt.Sprintf("[watch]\naddress = %q\n", "unix:"+p.path("watch"))
	p.configure(t, p.containerd()+watched+"[tenants.a]\nblocks = 3\ninodes = 3\ncontainerd = true\n")
	it := p.start(t)
	called := namespaces.WithNamespace(ctx, "test")
	s := p.snapshotter(t)
	mounts, err := s.Prepare(called, "a/1/k", "")
	granted(t, err)
	ask := func(blocks int, label string, wants ...string) {
		t.Helper()
		granted(t, os.WriteFile(filepath.Join(mounts[0].Source, "f"), make([]byte, blocks*4096), 0o600))
		usage, err := s.Usage(called, "a/1/k")
		granted(t, err)
		equal(t, usage, snapshots.Usage{Size: int64(1+blocks) * 4096, Inodes: 2})
		info, err := s.Stat(called, "a/1/k")
		granted(t, err)
		equal(t, info.Labels[containerd.OverLabel], label)
		metrics := p.get(t, "/metrics")
		for _, want := range wants {
			if !strings.Contains(metrics, want+"\n") {
				t.Errorf("no %s in %s", want, metrics)
			}
		}
		equal(t, strings.Contains(metrics, "pibroulez_over{"), label != "")
	}
	ask(7, "5/0", `pibroulez_over{quantity="blocks",tenant="a"} 5`, `pibroulez_snapshots_over{tenant="a"} 1`, `pibroulez_tenant_free{quantity="blocks",tenant="a"} 0`)
	if err := s.Commit(called, "a/2/base", "a/1/k"); !errdefs.IsUnavailable(err) {
		t.Error(err)
	}
	ask(1, "", "pibroulez_scans_total 2", `pibroulez_tenant_charged{quantity="blocks",tenant="a"} 2`)
	it.end(t)
}

const each = "[containerd.each]\nblocks = 9\ninodes = 9\n"

// The tenants that the store has, with their limits.
func (p place) quotas(t *testing.T) map[string]pibroulez.Usage {
	t.Helper()
	quotas, err := p.connect(t).Quotas(ctx)
	granted(t, err)
	limits := map[string]pibroulez.Usage{}
	for name, it := range quotas {
		limits[name] = it.Limit
	}
	delete(limits, containerd.Namespace)
	return limits
}

// Each namespace of containerd is a tenant while it has a snapshot, with the limit of the file: also after a start, after kills
// between the two that belong together, and where the file changes. A limit that somebody else has set stays.
func TestEachNamespace(t *testing.T) {
	p := newPlace(t)
	whole := p.containerd() + each + p.lines() + roles("operator")
	p.configure(t, whole+"[tenants.listed]\nblocks = 5\ninodes = 5\ncontainerd = true\n"+tenant("b", 3, 3))
	it := p.start(t)
	called := namespaces.WithNamespace(ctx, "test")
	s := p.snapshotter(t)
	want := map[string]pibroulez.Usage{"listed": usage(5, 5), "b": usage(3, 3)}
	expect := func() {
		t.Helper()
		equal(t, p.quotas(t), want)
	}
	prepare := func(key string) {
		t.Helper()
		_, err := s.Prepare(called, key, "")
		granted(t, err)
	}
	expect()
	for _, key := range []string{"x/1/k", "y/1/k", "b/1/k", "listed/1/k"} {
		prepare(key)
	}
	want["x"], want["y"] = usage(9, 9), usage(9, 9)
	expect()
	granted(t, p.connect(t).Limit(ctx, "y", usage(77, 77)))
	want["y"] = usage(77, 77)

	// The file takes one in, leaves one out, has other limits, and a name that is containerd's for another.
	p.configure(t, strings.Replace(whole, "blocks = 9", "blocks = 8", 1)+"[tenants.x]\nblocks = 6\ninodes = 6\ncontainerd = true\n"+tenant("y", 1, 1)+"users = [7]\n"+tenant("b", 3, 3))
	it.readAgain(t)
	want["x"], want["listed"] = usage(6, 6), usage(8, 9)
	expect()
	granted(t, s.Remove(called, "x/1/k"))
	granted(t, s.Remove(called, "listed/1/k"))
	delete(want, "listed")
	expect()
	it.end(t)
	for _, words := range []string{`"the tenant stays containerd's, and has no members" error="namespace \"y\": snapshots of this name are another's" tenant=y`, `"tenant made" limit=9/9 tenant=x`, `"tenant removed" tenant=listed`} {
		if !strings.Contains(it.said.String(), words) {
			t.Errorf("not told: %s in %s", words, it.said)
		}
	}

	// What a kill leaves: a tenant without its first snapshot, or with none any more. And one that was unlisted meanwhile.
	store, err := pibroulez.Open(ctx, program(), p.path("root/calls.jsonl"))
	granted(t, err)
	granted(t, store.NamespaceCreate(ctx, "killed", usage(9, 9)))
	granted(t, store.NamespaceCreate(ctx, "pibroulez-store-x", usage(9, 9)))
	granted(t, store.Close())
	p.configure(t, whole+tenant("b", 3, 3))
	it = p.start(t)
	s = p.snapshotter(t)
	delete(want, "x")
	expect()
	prepare("x/1/k")
	granted(t, it.Process.Kill())
	<-it.ended
	it = p.start(t)
	s = p.snapshotter(t)
	want["x"] = usage(9, 9)
	expect()
	granted(t, s.Remove(called, "x/1/k"))
	granted(t, s.Remove(called, "y/1/k"))
	delete(want, "x")
	delete(want, "y")
	expect()
	it.end(t)
}
