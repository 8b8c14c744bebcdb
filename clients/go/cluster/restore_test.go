package cluster

import (
	"context"
	"encoding/json"
	"errors"
	"fmt"
	"net"
	"os"
	"os/exec"
	"path/filepath"
	"strings"
	"testing"

	"pibroulez.example/pibroulez"
)

// An etcd of one member that is backed up and restored, as operators do it, by etcdctl.

type solo struct {
	t            testing.TB
	folder       string
	client, peer string
	// The member's data, and the token of its cluster, of which the id is made.
	data, token string
	process     *exec.Cmd
}

func newSolo(t testing.TB) *solo {
	t.Helper()
	for _, it := range []string{"etcd", "etcdctl"} {
		if _, err := exec.LookPath(it); err != nil {
			t.Skip(err)
		}
	}
	s := &solo{t: t, folder: t.TempDir(), token: "first"}
	var free [2]net.Listener
	for i := range free {
		free[i] = must(net.Listen("tcp", "127.0.0.1:0"))(t)
	}
	s.client, s.peer = "http://"+free[0].Addr().String(), "http://"+free[1].Addr().String()
	for _, it := range free {
		it.Close()
	}
	s.data = filepath.Join(s.folder, "data")
	s.start()
	t.Cleanup(s.stop)
	return s
}

func (s *solo) start() {
	s.t.Helper()
	s.process = exec.Command("etcd", "--name", "m", "--data-dir", s.data, "--listen-client-urls", s.client, "--advertise-client-urls", s.client,
		"--listen-peer-urls", s.peer, "--initial-advertise-peer-urls", s.peer, "--initial-cluster", "m="+s.peer,
		"--initial-cluster-token", s.token, "--unsafe-no-fsync", "--logger", "zap", "--log-level", "panic")
	must(0, startProcess(s.process))(s.t)
	e := &etcd{members: []*member{{client: s.client}}}
	must(0, e.awaitAnswer(patience))(s.t)
}

func (s *solo) stop() {
	s.process.Process.Kill()
	s.process.Wait()
}

func (s *solo) control(args ...string) []byte {
	s.t.Helper()
	command := exec.Command("etcdctl", append([]string{"--endpoints", s.client}, args...)...)
	command.Env = append(os.Environ(), "ETCDCTL_API=3")
	out, err := command.CombinedOutput()
	if err != nil {
		s.t.Fatalf("etcdctl %v: %v: %s", args, err, out)
	}
	return out
}

// Saves a backup. The revision that it is of.
func (s *solo) save() int64 {
	s.t.Helper()
	path := filepath.Join(s.folder, "backup")
	s.control("snapshot", "save", path)
	var status struct{ Revision int64 }
	must(0, json.Unmarshal(s.control("snapshot", "status", path, "--write-out", "json"), &status))(s.t)
	return status.Revision
}

// Goes on from the backup, in a cluster of this token. One of another token has another id.
func (s *solo) restore(token string) {
	s.t.Helper()
	s.stop()
	s.data, s.token = filepath.Join(s.folder, "restored-"+token), token
	s.control("snapshot", "restore", filepath.Join(s.folder, "backup"), "--name", "m", "--data-dir", s.data,
		"--initial-cluster", "m="+s.peer, "--initial-advertise-peer-urls", s.peer, "--initial-cluster-token", token)
	s.start()
}

func (s *solo) world() *world {
	s.t.Helper()
	must(os.Stat(program()))(s.t)
	client := must(dialEtcd([]string{s.client}))(s.t)
	s.t.Cleanup(func() { client.Close() })
	return &world{t: s.t, client: client, operator: NewOperator(client, "/test"), prefix: "/test", from: 1}
}

func (n *node) awaitState(state State) {
	n.world.t.Helper()
	until(n.world.t, fmt.Sprint(n.name, " to be ", state), func() bool { return n.Status().State == state })
}

// Three nodes, of which the last one ends before the restore. Of 100 the first has 60 charged in the backup, and then
// nothing, while the second one has 90 since. On the restored etcd the first one's grant would be enough for 60 more.
func restoredWorld(t *testing.T, token string) (s *solo, w *world, nodes []*node, past [][]revision, first int64) {
	t.Helper()
	s = newSolo(t)
	w = s.world()
	w.limit("a", 100, 100)
	must(0, w.operator.SetShards(ctx, "a", 2))(t)
	small := func(c *Config) { c.Batch, c.Lease = usage(1, 1), 2e9 }
	for _, name := range []string{"one", "two", "three"} {
		nodes = append(nodes, w.node(name, small).settle())
	}
	one, two, three := nodes[0], nodes[1], nodes[2]
	must(0, one.take("a", "k", usage(60, 60)))(t)
	must(0, three.take("a", "k", usage(2, 2)))(t)
	first = s.save() + 1
	must(one.st.Discard(ctx, "a", "k"))(t)
	must(0, one.giveBack("a"))(t)
	must(0, two.take("a", "k", usage(60, 60)))(t)
	for i := 0; i < 15; i++ {
		must(0, two.take("a", fmt.Sprint(i), usage(2, 2)))(t)
	}
	must(0, two.giveBack("a"))(t)
	three.close()
	past = append(past, w.history())
	s.restore(token)
	return s, w, nodes, past, first
}

// Each history by itself, and all as one walk.
func (w *world) checkRestored(past [][]revision, first int64) {
	w.t.Helper()
	for _, n := range w.nodes {
		n.close()
	}
	w.from = first
	histories := append(past, w.history())
	s := newSnapshot()
	w.checkFrom(s, histories[0])
	s = newSnapshot()
	for i := range histories[0] {
		if it := &histories[0][i]; it.number < first {
			must(0, s.putAll(w.operator.keys, it))(w.t)
		}
	}
	kinds := w.checkFrom(s, histories[1])
	if kinds["register"] == 0 || kinds["generation"] < 3 || kinds["grant"] == 0 {
		w.t.Errorf("too little was done: %v", kinds)
	}
	for name, of := range quantities {
		if steps, err := walkAll(w.operator.keys, histories, w.recorded(), "a", of); err != nil || steps < 40 {
			w.t.Errorf("%s: after %d steps: %v", name, steps, err)
		}
	}
}

// Over an etcd that was restored from a backup nothing is raised until all stores have registered and an operator has
// reopened it, and then what is charged is counted. It is known by another id of the cluster.
func TestRestored(t *testing.T) {
	t.Parallel()
	_, w, nodes, past, first := restoredWorld(t, "second")
	one, two, three := nodes[0], nodes[1], nodes[2]
	// Who asks etcd finds it out.
	isError(t, one.take("a", "l", usage(60, 60)), pibroulez.ErrOverLimit)
	one.awaitState(Restored)
	two.awaitState(Restored)
	isError(t, one.take("a", "l", usage(60, 60)), Restored)
	equal(t, one.quota("a").Limit, Usage{})
	// Within its own limit a node goes on.
	must(two.st.Discard(ctx, "a", "0"))(t)
	must(0, two.take("a", "l", usage(2, 2)))(t)

	_, err := w.operator.SetLimit(ctx, "a", usage(200, 200))
	isError(t, err, ErrRestored)
	isError(t, w.operator.SetShards(ctx, "a", 1), ErrRestored)
	isError(t, w.operator.Reopen(ctx, Reopening{}), ErrNotConfirmed)
	until(t, "that both have registered", func() bool {
		var missing *NotRegistered
		err := w.operator.Reopen(ctx, Reopening{AllRegistered: true})
		return errors.As(err, &missing) && fmt.Sprint(missing.Stores) == fmt.Sprint([]string{three.identity()})
	})
	checked := must(w.operator.Check(ctx))(t)
	if len(checked.Faults) != 1 || !strings.Contains(checked.Faults[0], three.identity()) {
		t.Errorf("%q", checked.Faults)
	}
	three.open()
	three.awaitState(Restored)
	until(t, "that it is reopened", func() bool { return w.operator.Reopen(ctx, Reopening{AllRegistered: true}) == nil })
	for _, n := range nodes {
		n.awaitState(Serving)
	}
	equal(t, must(w.operator.Quota(ctx, "a"))(t).Free, usage(7, 7))
	isError(t, one.take("a", "m", usage(8, 8)), pibroulez.ErrOverLimit)
	must(0, one.take("a", "m", usage(7, 7)))(t)
	sum := Usage{}
	for _, n := range nodes {
		sum = plus(sum, n.quota("a").Charged)
	}
	equal(t, sum, usage(99, 99))
	equal(t, len(must(w.operator.Check(ctx))(t).Faults), 0)
	must(0, w.operator.Reopen(ctx, Reopening{}))(t)
	w.checkRestored(past, first)
}

// An etcd of the same id as before is known by its revision, which an agent has seen pass.
func TestRestoredWithTheSameID(t *testing.T) {
	t.Parallel()
	_, w, nodes, past, first := restoredWorld(t, "first")
	one, two, three := nodes[0], nodes[1], nodes[2]
	isError(t, one.take("a", "l", usage(60, 60)), pibroulez.ErrOverLimit)
	one.awaitState(Restored)
	two.awaitState(Restored)
	equal(t, one.quota("a").Limit, Usage{})
	// Its data are destroyed.
	store := three.identity()
	until(t, "that three is forgotten", func() bool {
		_, err := w.operator.Forget(ctx, Forgetting{Store: store, DataDestroyed: true})
		return err == nil
	})
	until(t, "that it is reopened", func() bool { return w.operator.Reopen(ctx, Reopening{AllRegistered: true}) == nil })
	one.awaitState(Serving)
	equal(t, must(w.operator.Quota(ctx, "a"))(t).Free, usage(10, 10))
	must(0, one.take("a", "m", usage(10, 10)))(t)
	isError(t, one.take("a", "n", usage(1, 1)), pibroulez.ErrOverLimit)
	w.checkRestored(past, first)
	three.open()
	until(t, "its end", func() bool { return three.Status().State == Forgotten })
}

// Where no agent can know it, an operator says it. A store that has joined since the backup was made, and comes back after
// the cluster was reopened without it, ends.
func TestRestoredByAnOperator(t *testing.T) {
	t.Parallel()
	s := newSolo(t)
	w := s.world()
	w.limit("a", 100, 100)
	small := func(c *Config) { c.Batch, c.Lease = usage(1, 1), 2e9 }
	one := w.node("one", small).settle()
	s.save()
	must(0, one.take("a", "k", usage(50, 50)))(t)
	w.limit("b", 10, 10)
	late := w.node("late", small, "a", "b").settle()
	must(0, late.take("a", "k", usage(20, 20)))(t)
	one.close()
	late.close()
	s.restore("first")
	operator := NewOperator(must(dialEtcd([]string{s.client}))(t), "/test")
	must(0, operator.Restored(ctx))(t)
	must(0, operator.Restored(ctx))(t)
	one.open()
	one.awaitState(Restored)
	until(t, "that it is reopened", func() bool { return operator.Reopen(ctx, Reopening{AllRegistered: true}) == nil })
	one.awaitState(Serving)
	equal(t, must(operator.Quota(ctx, "a"))(t).Granted, usage(51, 51))
	late.open("a", "b")
	until(t, "its end", func() bool { return late.Status().State == LimitAboveGrant })
	until(t, "the limit at what is charged", func() bool { return late.quota("a").Limit == usage(20, 20) })
}

// The identity of a store, also of one that is closed.
func (n *node) identity() string {
	n.world.t.Helper()
	store, _, err := identityOf(must(lastOf(n.log))(n.world.t))
	return must(store, err)(n.world.t)
}

// A tenant that the backup lacks gets a limit of 0, and what is granted as its debt.
func TestRestoredTenant(t *testing.T) {
	t.Parallel()
	s := newSolo(t)
	w := s.world()
	w.limit("a", 100, 100)
	one := w.node("one", func(c *Config) { c.Batch = usage(1, 1) }, "a", "b").settle()
	s.save()
	w.limit("b", 30, 30)
	must(0, one.take("b", "k", usage(20, 20)))(t)
	must(0, one.take("b", "l", usage(10, 10)))(t)
	s.restore("second")
	isError(t, one.take("b", "m", usage(1, 1)), pibroulez.ErrOverLimit)
	one.awaitState(Restored)
	until(t, "that it is reopened", func() bool { return w.operator.Reopen(ctx, Reopening{AllRegistered: true}) == nil })
	one.awaitState(Serving)
	quota := must(w.operator.Quota(ctx, "b"))(t)
	equal(t, []Usage{quota.Limit, quota.Granted, quota.Above}, []Usage{{}, usage(30, 30), usage(30, 30)})
	equal(t, w.limit("b", 31, 31).Free, usage(1, 1))
	must(0, one.take("b", "n", usage(1, 1)))(t)
	bounded, cancel := context.WithTimeout(ctx, patience)
	defer cancel()
	equal(t, len(must(w.operator.Check(bounded))(t).Faults), 0)
}
