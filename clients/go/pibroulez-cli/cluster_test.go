package main

import (
	"context"
	"encoding/json"
	"path/filepath"
	"strings"
	"testing"
	"time"

	"pibroulez.example/pibroulez"
	"pibroulez.example/pibroulez/cluster"
	"pibroulez.example/pibroulez/cluster/etcdtest"
)

// Runs a command on an etcd, and takes its JSON where it has some.
func onEtcd(t *testing.T, endpoint string, value any, args ...string) (out, errs string, status int) {
	t.Helper()
	var printed, said strings.Builder
	args = append([]string{"--endpoints", endpoint, "cluster"}, args...)
	status = run(ctx, args, &printed, &said)
	if value != nil && status == 0 {
		granted(t, json.Unmarshal([]byte(printed.String()), value))
	}
	return printed.String(), said.String(), status
}

// Asks until what is told is so.
func awaitTold[V any](t *testing.T, endpoint string, isSo func(V) bool, args ...string) V {
	t.Helper()
	for end := time.Now().Add(time.Minute); ; {
		var value V
		_, errs, status := onEtcd(t, endpoint, &value, append(args, "--json")...)
		if status == 0 && isSo(value) {
			return value
		}
		if time.Now().After(end) {
			t.Fatalf("%v: %d, %s, %+v", args, status, errs, value)
		}
	}
}

// What an operator does with a cluster of one node, from its first limit to its end.
func TestCluster(t *testing.T) {
	endpoint := etcdtest.Start(t)
	out, _, status := onEtcd(t, endpoint, nil, "limit", "a", "100/60")
	if want := "TENANT  NODE   LIMIT  GRANTED    FREE  CHARGED  IDLE  AGE\na             100/60      0/0  100/60      0/0   0/0\n"; trimmed(out) != want || status != 0 {
		t.Errorf("%d: %s, not %s", status, out, want)
	}
	store, err := cluster.OpenOrNew(ctx, pibroulez.Config{Program: program(), Root: "/r", Log: filepath.Join(t.TempDir(), "log")}, "a")
	granted(t, err)
	defer store.Close()
	agent, err := cluster.New(ctx, cluster.Config{
		Client: etcdtest.Client(t, endpoint), Node: "node\n1", Store: store, Batch: usage(1, 1), Report: 10 * time.Millisecond, Lease: 2 * time.Second,
	})
	granted(t, err)
	<-agent.Settled()
	granted(t, agent.Charge(ctx, "a", usage(1, 1), func(ctx context.Context) error {
		_, err := store.Prepare(ctx, "a", "k", "")
		return err
	}))
	granted(t, agent.Charge(ctx, "a", usage(20, 10), func(ctx context.Context) error {
		_, err := store.Charge(ctx, "a", "k", usage(20, 10))
		return err
	}))
	tenants := awaitTold(t, endpoint, func(it []tenantValue) bool { return len(it[0].Nodes) == 1 && it[0].Nodes[0].Charged == usage(20, 10) }, "quota", "a")
	node := tenants[0].Nodes[0]
	if node.Node != "node\n1" || !node.Answers || node.Age == nil || node.Granted.Blocks < 20 || tenants[0].Limit != usage(100, 60) {
		t.Errorf("%+v", tenants)
	}
	out, _, status = onEtcd(t, endpoint, nil, "quota")
	if status != 0 || !strings.Contains(out, `"node\n1"`) || strings.Contains(out, "node\n1") {
		t.Errorf("%d: %s", status, out)
	}
	members := awaitTold(t, endpoint, func(it []memberValue) bool { return it[0].State == "answers" }, "nodes")
	equal(t, members[0].Store, agent.Identity())

	var divided []tenantValue
	_, _, status = onEtcd(t, endpoint, nil, "shards", "a", "4")
	equal(t, status, 0)
	_, _, status = onEtcd(t, endpoint, &divided, "quota", "a", "--json")
	if status != 0 || divided[0].Shards != 4 || divided[0].Free.Blocks != 100-divided[0].Granted.Blocks {
		t.Errorf("%d: %+v", status, divided)
	}
	// As if etcd had been restored: the store registers.
	_, _, status = onEtcd(t, endpoint, nil, "restored")
	equal(t, status, 0)
	_, errs, status := onEtcd(t, endpoint, nil, "reopen")
	if status != failed || !strings.Contains(errs, "--all-registered says so") {
		t.Errorf("%d: %s", status, errs)
	}
	for end := time.Now().Add(time.Minute); ; {
		_, errs, status = onEtcd(t, endpoint, nil, "reopen", "--all-registered")
		if status == 0 {
			break
		}
		if !strings.Contains(errs, agent.Identity()) || time.Now().After(end) {
			t.Fatalf("%d: %s", status, errs)
		}
	}

	out, _, status = onEtcd(t, endpoint, nil, "limit", "a", "5/5")
	if status != 0 || !strings.Contains(out, "are granted above the limit") {
		t.Errorf("%d: %s", status, out)
	}
	_, _, status = onEtcd(t, endpoint, nil, "drain", "node\n1")
	equal(t, status, 0)
	awaitTold(t, endpoint, func(it []memberValue) bool { return it[0].State == "drained" }, "nodes")
	_, _, status = onEtcd(t, endpoint, nil, "undrain", "node\n1")
	equal(t, status, 0)
	awaitTold(t, endpoint, func(it []memberValue) bool { return it[0].State == "answers" }, "nodes")

	_, errs, status = onEtcd(t, endpoint, nil, "forget", agent.Identity())
	if status != failed || !strings.Contains(errs, "--data-destroyed says so") {
		t.Errorf("%d: %s", status, errs)
	}
	_, errs, status = onEtcd(t, endpoint, nil, "forget", agent.Identity(), "--data-destroyed")
	if status != failed || !strings.Contains(errs, cluster.ErrAnswers.Error()) {
		t.Errorf("%d: %s", status, errs)
	}
	agent.Close()
	awaitTold(t, endpoint, func(it []memberValue) bool { return it[0].State == "no answer" }, "nodes")
	var freed map[string]pibroulez.Usage
	_, errs, status = onEtcd(t, endpoint, &freed, "forget", agent.Identity(), "--data-destroyed", "--json")
	if status != 0 || freed["a"].Blocks < 20 {
		t.Errorf("%d: %s, %v", status, errs, freed)
	}
	_, _, status = onEtcd(t, endpoint, nil, "forget", agent.Identity(), "--data-destroyed")
	equal(t, status, 0)
	out, _, status = onEtcd(t, endpoint, nil, "check")
	if status != 0 || !strings.Contains(out, "1 tenants, 0 faults\n") {
		t.Errorf("%d: %s", status, out)
	}
}

// A cluster in which something doesn't fit, one of another prefix, and what isn't there.
func TestClusterFaults(t *testing.T) {
	endpoint := etcdtest.Start(t)
	_, _, status := onEtcd(t, endpoint, nil, "limit", "a", "10/10", "--prefix", "/other")
	equal(t, status, 0)
	_, errs, status := onEtcd(t, endpoint, nil, "quota", "a")
	if status != failed || !strings.Contains(errs, cluster.ErrNoTenant.Error()) {
		t.Errorf("%d: %s", status, errs)
	}
	_, err := etcdtest.Client(t, endpoint).Put(ctx, "/other/g/"+strings.Repeat("ab", 16)+"/a", `{"grant":[5,5]}`)
	granted(t, err)
	out, errs, status := onEtcd(t, endpoint, nil, "check", "--prefix", "/other")
	if status != failed || !strings.Contains(out, "has grants, and has neither joined nor was forgotten") || !strings.Contains(errs, "doesn't fit") {
		t.Errorf("%d: %s, %s", status, out, errs)
	}
	for want, args := range map[string][]string{
		cluster.ErrNoNode.Error():   {"drain", "nobody"},
		cluster.ErrNoStore.Error():  {"forget", "nobody", "--data-destroyed"},
		cluster.ErrBadLimit.Error(): {"limit", "a", "1099511627777/1"},
		cluster.ErrNoTenant.Error(): {"shards", "nobody", "2"},
		`64: "x"`:                   {"shards", "a", "x"},
		"from 1 to 64: 65":          {"shards", "a", "65"},
		"no such file":              {"nodes", "--cacert", "/no/such/file"},
	} {
		if _, errs, status := onEtcd(t, endpoint, nil, args...); status != failed || !strings.Contains(errs, want) {
			t.Errorf("%v: %d, %s", args, status, errs)
		}
	}
	// Nothing is written over keys of another format.
	_, err = etcdtest.Client(t, endpoint).Put(ctx, "/old/t/a", `{"l":[30,30],"s":[0,0]}`)
	granted(t, err)
	for _, args := range [][]string{
		{"quota"}, {"limit", "a", "1/1"}, {"shards", "a", "2"}, {"nodes"}, {"check"}, {"restored"}, {"reopen", "--all-registered"}, {"drain", "one"},
		{"forget", strings.Repeat("ab", 16), "--data-destroyed"},
	} {
		_, errs, status := onEtcd(t, endpoint, nil, append(args, "--prefix", "/old")...)
		if status != failed || !strings.Contains(errs, cluster.ErrOtherFormat.Error()) {
			t.Errorf("%v: %d, %s", args, status, errs)
		}
	}
	for _, args := range [][]string{{"nodes", "--socket", "x"}, {"other"}, {}, {"drain"}} {
		if _, errs, status := onEtcd(t, endpoint, nil, args...); status != wrongWords {
			t.Errorf("%v: %d, %s", args, status, errs)
		}
	}
}

// The command asks an etcd that takes clients with a certificate alone.
func TestClusterOverTLS(t *testing.T) {
	config := etcdtest.StartTLS(t)
	of := []string{"--cacert", config.Authority, "--cert", config.Certificate, "--key", config.Key}
	out, errs, status := onEtcd(t, config.Endpoints[0], nil, append(of, "limit", "a", "1/2")...)
	if status != 0 || !strings.Contains(out, "1/2") {
		t.Errorf("%d: %s, %s", status, out, errs)
	}
}

// An etcd that doesn't answer is told.
func TestEtcdAway(t *testing.T) {
	defer func(was time.Duration) { patience = was }(patience)
	patience = 200 * time.Millisecond
	_, errs, status := onEtcd(t, "http://127.0.0.1:1", nil, "nodes")
	if status != failed || !strings.Contains(errs, "etcd at http://127.0.0.1:1: no answer") {
		t.Errorf("%d: %s", status, errs)
	}
}
