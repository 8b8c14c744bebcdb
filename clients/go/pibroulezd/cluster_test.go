package main

import (
	"errors"
	"fmt"
	"strings"
	"testing"
	"time"

	"github.com/containerd/containerd/errdefs"
	"github.com/containerd/containerd/namespaces"
	"go.etcd.io/etcd/clientv3"

	"pibroulez.example/pibroulez"
	"pibroulez.example/pibroulez/cluster"
	"pibroulez.example/pibroulez/cluster/etcdtest"
	"pibroulez.example/pibroulez/told"
)

func usage(blocks, inodes uint64) pibroulez.Usage {
	return pibroulez.Usage{Blocks: blocks, Inodes: inodes}
}

// What a daemon's file says of a cluster, with a door for lines and one tenant.
func (p place) clustered(endpoint, node, rest string) string {
	return fmt.Sprintf("[cluster]\nendpoints = [%q]\nnode = %q\nbatch = \"1/1\"\npatience = \"20s\"\n%s", endpoint, node, rest) +
		p.lines() + roles("operator") + "[tenants.a]\n"
}

// Two daemons have one limit: each charges what it needs of it, what one gives back the other has, and no limit is set by a
// door.
func TestCluster(t *testing.T) {
	endpoint := etcdtest.Start(t)
	operator := cluster.NewOperator(etcdtest.Client(t, endpoint), "")
	_, err := operator.SetLimit(ctx, "a", usage(30, 30))
	granted(t, err)
	one, other := newPlace(t), newPlace(t)
	one.configure(t, one.clustered(endpoint, "one", "")+fmt.Sprintf("[watch]\naddress = %q\n", "unix:"+one.path("watch")))
	other.configure(t, other.clustered(endpoint, "other", ""))
	first, second := one.start(t), other.start(t)
	storeOfOne, storeOfOther := one.connect(t), other.connect(t)
	for store, key := range map[*pibroulez.Store]string{storeOfOne: "k1", storeOfOther: "k2"} {
		_, err := store.Prepare(ctx, "a", key, "")
		granted(t, err)
	}
	_, err = storeOfOne.Put(ctx, "a", "k1", "/f", 20*4096)
	granted(t, err)
	isError(t, storeOfOne.Limit(ctx, "a", usage(1000, 1000)), pibroulez.ErrNotAllowed)
	metrics := one.get(t, "/metrics")
	for _, want := range []string{
		`pibroulez_cluster_charged{quantity="blocks",tenant="a"} 21`, `pibroulez_cluster_state{state="Serving"} 1`,
		`pibroulez_cluster_charge_seconds_count{grant="with"}`, `pibroulez_cluster_raises_total`, `pibroulez_line_seconds_count{do="put"} 1`,
	} {
		if !strings.Contains(metrics, want) {
			t.Errorf("no %s in %s", want, metrics)
		}
	}
	// What the first one gives back is enough for the second one, which waits for it.
	put := make(chan error, 1)
	go func() {
		_, err := storeOfOther.Put(ctx, "a", "k2", "/f", 15*4096)
		put <- err
	}()
	_, err = storeOfOne.Discard(ctx, "a", "k1")
	granted(t, err)
	granted(t, <-put)
	// A line that the limit doesn't cover tells what is free.
	quotas, err := operator.Quota(ctx, "a")
	granted(t, err)
	if quotas.Granted.Blocks > 30 || quotas.Granted.Blocks < 16 {
		t.Errorf("%+v", quotas)
	}
	_, err = operator.SetLimit(ctx, "a", usage(1, 1))
	granted(t, err)
	second.end(t)
	old := strings.ReplaceAll(other.clustered(endpoint, "other", ""), "20s", "50ms")
	other.configure(t, old)
	second = other.start(t)
	storeOfOther = other.connect(t)
	_, err = storeOfOther.Put(ctx, "a", "k2", "/g", 40*4096)
	var refusal *pibroulez.Refusal
	if !errors.As(err, &refusal) || refusal.Reason != pibroulez.ErrOverLimit || refusal.From != "cluster" || !strings.Contains(err.Error(), "limit 1/1") {
		t.Error(err)
	}
	// A limit of the file is one for this node, which stays while it runs.
	other.configure(t, old+"blocks = 5\n")
	second.readAgain(t)
	second.end(t)
	if !strings.Contains(second.said.String(), "tenants.a: in a cluster a node's own limit can't change") {
		t.Error(second.said)
	}
	first.end(t)
}

// A daemon whose store was forgotten ends, and says so.
func TestForgotten(t *testing.T) {
	endpoint := etcdtest.Start(t)
	client := etcdtest.Client(t, endpoint)
	_, err := cluster.NewOperator(client, "").SetLimit(ctx, "a", usage(30, 30))
	granted(t, err)
	p := newPlace(t)
	p.configure(t, p.clustered(endpoint, "one", ""))
	it := p.start(t)
	_, err = p.connect(t).Prepare(ctx, "a", "k", "")
	granted(t, err)
	members, err := cluster.NewOperator(client, "").Nodes(ctx)
	granted(t, err)
	equal(t, len(members), 1)
	// What an operator's word leaves in etcd, which Forget doesn't take while the agent answers.
	_, err = client.Put(ctx, "/pibroulez/f/"+members[0].Store, "{}")
	granted(t, err)
	_, err = client.Delete(ctx, "/pibroulez/j/"+members[0].Store)
	granted(t, err)
	equal(t, it.status(t), outOfCluster)
	if !strings.Contains(it.said.String(), "Forgotten: store "+members[0].Store) {
		t.Error(it.said)
	}
}

// containerd's prepares have room of the cluster, and are refused with what it says where there is none.
func TestContainerdInCluster(t *testing.T) {
	endpoint := etcdtest.Start(t)
	_, err := cluster.NewOperator(etcdtest.Client(t, endpoint), "").SetLimit(ctx, "containerd", usage(2, 2))
	granted(t, err)
	p := newPlace(t)
	p.configure(t, strings.ReplaceAll(p.clustered(endpoint, "one", "share = 1\n"), "20s", "50ms")+p.containerd())
	it := p.start(t)
	s, called := p.snapshotter(t), namespaces.WithNamespace(ctx, "test")
	for _, key := range []string{"k1", "k2"} {
		_, err := s.Prepare(called, key, "")
		granted(t, err)
	}
	if _, err := s.Prepare(called, "k3", ""); !errdefs.IsUnavailable(err) || !strings.Contains(err.Error(), `OverLimit: tenant "containerd" needs 1/1: limit 2/2`) {
		t.Error(err)
	}
	// A tenant without a limit in the cluster has no room.
	_, err = p.connect(t).Prepare(ctx, "a", "k", "")
	isError(t, err, pibroulez.ErrOverLimit)
	it.end(t)
}

// So a daemon does where the keys in etcd are of another format, and says so.
func TestKeysOfAnotherFormat(t *testing.T) {
	endpoint := etcdtest.Start(t)
	client := etcdtest.Client(t, endpoint)
	const key, record = "/pibroulez/t/a", `{"l":[30,30],"s":[0,0]}`
	_, err := client.Put(ctx, key, record)
	granted(t, err)
	p := newPlace(t)
	p.configure(t, strings.ReplaceAll(p.clustered(endpoint, "one", ""), "20s", "1s"))
	it := p.start(t)
	_, err = p.connect(t).Prepare(ctx, "a", "k", "")
	isError(t, err, pibroulez.ErrOverLimit)
	var refusal *pibroulez.Refusal
	for end := time.Now().Add(time.Minute); ; {
		if errors.As(err, &refusal) && strings.Contains(refusal.Words, string(cluster.OtherFormat)) && strings.Contains(refusal.Words, cluster.ErrOtherFormat.Error()) {
			break
		}
		if time.Now().After(end) {
			t.Fatal(err)
		}
		_, err = p.connect(t).Prepare(ctx, "a", "k", "")
	}
	it.end(t)
	found, err := client.Get(ctx, "/pibroulez/", clientv3.WithPrefix())
	granted(t, err)
	for _, it := range found.Kvs {
		if !strings.HasPrefix(string(it.Key), "/pibroulez/a/") && (string(it.Key) != key || string(it.Value) != record) {
			t.Errorf("%s is written: %s", it.Key, it.Value)
		}
	}
}

// In a cluster a tenant of the file is made at a start, with nothing granted, and stays as long as its store.
func TestTenantsInCluster(t *testing.T) {
	endpoint := etcdtest.Start(t)
	operator := cluster.NewOperator(etcdtest.Client(t, endpoint), "")
	p := newPlace(t)
	clustered := strings.ReplaceAll(p.clustered(endpoint, "one", ""), "20s", "1s")
	p.configure(t, clustered)
	p.start(t).end(t)
	_, err := operator.SetLimit(ctx, "b", usage(10, 10))
	granted(t, err)
	p.configure(t, clustered+"[tenants.b]\nblocks = 5\n")
	it := p.start(t)
	store := p.connect(t)
	quotas, err := store.Quotas(ctx)
	granted(t, err)
	equal(t, told.Sorted(quotas)[:2], []string{"a", "b"})
	equal(t, len(quotas), 3)
	equal(t, quotas["b"], pibroulez.Quota{})
	_, err = store.Prepare(ctx, "b", "k", "")
	granted(t, err)
	_, err = store.Discard(ctx, "b", "k")
	granted(t, err)
	isError(t, store.NamespaceCreate(ctx, "c", usage(1, 1)), pibroulez.ErrNotAllowed)
	isError(t, store.NamespaceRemove(ctx, "b"), pibroulez.ErrNotAllowed)
	p.configure(t, clustered+"[tenants.c]\n")
	it.readAgain(t)
	again, err := store.Quotas(ctx)
	granted(t, err)
	equal(t, told.Sorted(again), told.Sorted(quotas))
	it.end(t)
	for _, want := range []string{"tenants.b: in a cluster a tenant stays", "tenants.c: in a cluster a tenant is made at a start"} {
		if !strings.Contains(it.said.String(), want) {
			t.Errorf("not told: %s in %s", want, it.said)
		}
	}
	if err := serve(ctx, quiet(), p.path("pibroulezd.toml"), nil); err == nil || !strings.HasSuffix(err.Error(), `also has "b"`) {
		t.Error(err)
	}
}

// Without etcd a daemon begins, and refuses what needs more than it has.
func TestEtcdIsAway(t *testing.T) {
	p := newPlace(t)
	p.configure(t, strings.ReplaceAll(p.clustered("http://127.0.0.1:1", "one", ""), "20s", "50ms"))
	it := p.start(t)
	k := p.connect(t)
	_, err := k.Prepare(ctx, "a", "k", "")
	isError(t, err, pibroulez.ErrOverLimit)
	_, err = k.Quotas(ctx)
	granted(t, err)
	it.end(t)
	// A store that isn't one of a cluster doesn't become one, nor the other way.
	p.configure(t, p.lines()+tenant("a", 1, 1))
	if err := serve(ctx, quiet(), p.path("pibroulezd.toml"), nil); err == nil || !strings.Contains(err.Error(), `also has "pibroulez-store-`) {
		t.Error(err)
	}
	other := newPlace(t)
	d, _ := other.open(t, tenant("a", 1, 1))
	granted(t, d.store.Close())
	other.configure(t, other.clustered("http://127.0.0.1:1", "one", ""))
	isError(t, serve(ctx, quiet(), other.path("pibroulezd.toml"), nil), cluster.ErrNoIdentity)
}
