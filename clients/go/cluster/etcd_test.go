package cluster

import (
	"bytes"
	"context"
	"fmt"
	"net"
	"net/url"
	"os"
	"os/exec"
	"path/filepath"
	"reflect"
	"runtime"
	"strings"
	"sync"
	"syscall"
	"testing"
	"time"

	"go.etcd.io/etcd/clientv3"
	"go.uber.org/zap"

	"pibroulez.example/pibroulez"
)

// An etcd of three members on the loopback interface, and stores of the program. Where etcd isn't there, tests that need
// it are skipped.

var ctx = context.Background()

func program() string {
	if named := os.Getenv("PIBROULEZ_PROGRAM"); named != "" {
		return named
	}
	return "../../../crates/snap_replay/out/snap_replay"
}

// Whether tests are to be long, as with many kills.
func isLong() bool { return os.Getenv("PIBROULEZ_KILLS") != "" }

func TestMain(m *testing.M) {
	if folder := os.Getenv("PIBROULEZ_TEST_NODE"); folder != "" {
		os.Exit(workNode(folder))
	}
	code := m.Run()
	if shared.etcd != nil {
		shared.etcd.stop()
	}
	os.Exit(code)
}

// Starts processes that are ended with this one. A thread of its own has started them all, since the kernel ends them
// with that thread.
var starts = func() chan func() {
	starts := make(chan func())
	go func() {
		runtime.LockOSThread()
		for start := range starts {
			start()
		}
	}()
	return starts
}()

func startProcess(command *exec.Cmd) error {
	command.SysProcAttr = &syscall.SysProcAttr{Setpgid: true, Pdeathsig: syscall.SIGKILL}
	started := make(chan error)
	starts <- func() { started <- command.Start() }
	return <-started
}

type member struct {
	name         string
	client, peer string
	process      *exec.Cmd
}

type etcd struct {
	folder  string
	members []*member
}

var shared struct {
	sync.Once
	etcd *etcd
	err  error
}

// How long something may take on a machine that has much else to do.
const patience = time.Minute

// The etcd of all tests.
func sharedEtcd(t testing.TB) *etcd {
	t.Helper()
	if _, err := exec.LookPath("etcd"); err != nil {
		t.Skip(err)
	}
	shared.Do(func() { shared.etcd, shared.err = startEtcd() })
	if shared.err != nil {
		t.Fatal(shared.err)
	}
	return shared.etcd
}

func startEtcd() (*etcd, error) {
	folder, err := os.MkdirTemp("", "pibroulez-etcd-")
	if err != nil {
		return nil, err
	}
	e := &etcd{folder: folder}
	var listeners []net.Listener
	for i := 0; i < 6; i++ {
		l, err := net.Listen("tcp", "127.0.0.1:0")
		if err != nil {
			return nil, err
		}
		listeners = append(listeners, l)
	}
	for i := 0; i < 3; i++ {
		e.members = append(e.members, &member{
			name: fmt.Sprintf("m%d", i), client: "http://" + listeners[2*i].Addr().String(), peer: "http://" + listeners[2*i+1].Addr().String(),
		})
	}
	for _, it := range listeners {
		it.Close()
	}
	for _, it := range e.members {
		if err := e.start(it); err != nil {
			return e, err
		}
	}
	return e, e.awaitAnswer(patience)
}

func (e *etcd) start(m *member) error {
	var all []string
	for _, it := range e.members {
		all = append(all, it.name+"="+it.peer)
	}
	m.process = exec.Command("etcd", "--name", m.name, "--data-dir", filepath.Join(e.folder, m.name),
		"--listen-client-urls", m.client, "--advertise-client-urls", m.client,
		"--listen-peer-urls", m.peer, "--initial-advertise-peer-urls", m.peer,
		"--initial-cluster", strings.Join(all, ","), "--initial-cluster-token", filepath.Base(e.folder), "--initial-cluster-state", "new",
		"--quota-backend-bytes", "4294967296", "--logger", "zap", "--log-level", "error", "--log-outputs", "stderr")
	return startProcess(m.process)
}

func (e *etcd) kill(m *member) {
	m.process.Process.Kill()
	m.process.Wait()
}

func (e *etcd) stop() {
	for _, it := range e.members {
		if it.process != nil && it.process.Process != nil {
			e.kill(it)
		}
	}
	os.RemoveAll(e.folder)
}

func (e *etcd) awaitAnswer(patience time.Duration) error {
	client, err := e.dial()
	if err != nil {
		return err
	}
	defer client.Close()
	bounded, cancel := context.WithTimeout(ctx, patience)
	defer cancel()
	for {
		once, cancelOnce := context.WithTimeout(bounded, 2*time.Second)
		_, err := client.Get(once, "any")
		cancelOnce()
		if err == nil || bounded.Err() != nil {
			return err
		}
		time.Sleep(50 * time.Millisecond)
	}
}

func (e *etcd) dial(endpoints ...string) (*clientv3.Client, error) {
	if len(endpoints) == 0 {
		for _, it := range e.members {
			endpoints = append(endpoints, it.client)
		}
	}
	return dialEtcd(endpoints)
}

func dialEtcd(endpoints []string) (*clientv3.Client, error) {
	quiet := zap.NewProductionConfig()
	quiet.Level = zap.NewAtomicLevelAt(zap.FatalLevel)
	return clientv3.New(clientv3.Config{
		Endpoints: endpoints, DialTimeout: 3 * time.Second, LogConfig: &quiet,
		DialKeepAliveTime: 2 * time.Second, DialKeepAliveTimeout: 2 * time.Second,
	})
}

// A cluster of stores of one test: a prefix of its own, and the revision at which the test began.
type world struct {
	t        testing.TB
	etcd     *etcd
	client   *clientv3.Client
	operator *Operator
	prefix   string
	from     int64
	nodes    []*node
}

func newWorld(t testing.TB) *world {
	t.Helper()
	e := sharedEtcd(t)
	must(os.Stat(program()))(t)
	client := must(e.dial())(t)
	t.Cleanup(func() { client.Close() })
	prefix := fmt.Sprintf("/test-%s-%d", url.PathEscape(t.Name()), time.Now().UnixNano())
	r := must(client.Get(ctx, prefix))(t)
	return &world{t, e, client, NewOperator(client, prefix), prefix, r.Header.Revision + 1, nil}
}

func must[A any](answer A, err error) func(testing.TB) A {
	return func(t testing.TB) A {
		t.Helper()
		if err != nil {
			t.Fatal(err)
		}
		return answer
	}
}

// A store with its agent, and what the agent notes.
type node struct {
	*Agent
	world  *world
	name   string
	log    string
	st     *pibroulez.Store
	config Config

	mutex sync.Mutex
	notes []event
}

// Patient enough for a machine that has much else to do.
func (w *world) config(name string) Config {
	return Config{
		Client: w.client, Prefix: w.prefix, Node: name, Idle: -1, Patience: -1, Timeout: 5 * time.Second, Report: 50 * time.Millisecond,
	}
}

// A node on the log of this name, with a store of 4096 slots where it is new.
func (w *world) node(name string, change func(*Config), tenants ...string) *node {
	w.t.Helper()
	n := &node{world: w, name: name, log: filepath.Join(w.t.TempDir(), name), config: w.config(name)}
	if change != nil {
		change(&n.config)
	}
	w.nodes = append(w.nodes, n)
	n.open(tenants...)
	w.t.Cleanup(n.close)
	return n
}

func (n *node) open(tenants ...string) {
	t := n.world.t
	t.Helper()
	if len(tenants) == 0 {
		tenants = []string{"a"}
	}
	n.st = must(OpenOrNew(ctx, pibroulez.Config{Program: program(), Root: "/r", Log: n.log, Slots: 4096}, tenants...))(t)
	n.config.Store = n.st
	n.config.note = n.note
	n.Agent = must(New(ctx, n.config))(t)
}

func (n *node) note(it event) {
	n.mutex.Lock()
	defer n.mutex.Unlock()
	if it.Kind == begun {
		lines, err := os.ReadFile(n.log)
		if err != nil {
			panic(err)
		}
		it.Lines = bytes.Count(linesIn(lines), []byte("\n"))
	}
	n.notes = append(n.notes, it)
}

func (n *node) close() {
	if n.Agent != nil {
		n.Agent.Close()
		n.st.Close()
		n.Agent = nil
	}
}

// Waits until all tenants are settled.
func (n *node) settle() *node {
	n.world.t.Helper()
	select {
	case <-n.Settled():
	case <-n.Ended():
		n.world.t.Fatal(n.Status().Err)
	case <-time.After(patience):
		n.world.t.Fatalf("%s doesn't settle: %v", n.name, n.Status())
	}
	return n
}

// Makes a snapshot that is charged these blocks and inodes, or none.
func (n *node) take(tenant, key string, all Usage) error { return n.takeUntil(ctx, tenant, key, all) }

func (n *node) takeUntil(ctx context.Context, tenant, key string, all Usage) error {
	return n.Charge(ctx, tenant, all, func(ctx context.Context) error {
		if _, err := n.st.Prepare(ctx, tenant, key, ""); err != nil {
			return err
		}
		_, err := n.st.Charge(ctx, tenant, key, all)
		if err != nil {
			n.st.Discard(ctx, tenant, key)
		}
		return err
	})
}

func (n *node) quota(tenant string) pibroulez.Quota {
	n.world.t.Helper()
	return must(n.st.Quota(ctx, tenant))(n.world.t)
}

func equal(t testing.TB, got, want any) {
	t.Helper()
	if !reflect.DeepEqual(got, want) {
		t.Errorf("%+v, not %+v", got, want)
	}
}

func until(t testing.TB, what string, is func() bool) {
	t.Helper()
	for begin := time.Now(); !is(); time.Sleep(5 * time.Millisecond) {
		if time.Since(begin) > patience {
			t.Fatal("it doesn't come: " + what)
		}
	}
}

func usage(blocks, inodes uint64) Usage { return Usage{Blocks: blocks, Inodes: inodes} }

func (w *world) limit(tenant string, blocks, inodes uint64) TenantQuota {
	w.t.Helper()
	return must(w.operator.SetLimit(ctx, tenant, usage(blocks, inodes)))(w.t)
}
