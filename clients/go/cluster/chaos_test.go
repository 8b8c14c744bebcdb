package cluster

import (
	"bufio"
	"bytes"
	"context"
	"encoding/json"
	"errors"
	"fmt"
	"math/rand"
	"os"
	"os/exec"
	"os/signal"
	"path/filepath"
	"strconv"
	"strings"
	"sync"
	"syscall"
	"testing"
	"time"
	"unsafe"

	"pibroulez.example/pibroulez"
)

// Agents, stores and members of etcd are killed and stopped at random, disks are lost and limits changed, while nodes
// charge as much as they can. It is looked at from outside: all of etcd's revisions, frozen moments, each moment by what
// the nodes have noted, and the whole run as a walk in the model.

// What a node's process is told.
type chaosConfig struct {
	Endpoints []string
	Prefix    string
	Name      string
	Tenants   []string
	Workers   int
	Pause     time.Duration
}

// Statuses of a node's process.
const (
	hasNoStart = 3
	lostStore  = 4
	cameToEnd  = 9
)

// CLOCK_MONOTONIC in nanoseconds: one clock for all processes of a machine.
func monotonic() int64 {
	var now syscall.Timespec
	syscall.Syscall(syscall.SYS_CLOCK_GETTIME, 1, uintptr(unsafe.Pointer(&now)), 0)
	return now.Nano()
}

// A note of a node's process, a line of its file. Beside events of the agent it is of a call, before and after.
type chaosNote struct {
	event
	Tag string `json:"tag,omitempty"`
	At  int64  `json:"at"`
}

const (
	calling = "calling"
	called  = "called"
)

type worker struct {
	config chaosConfig
	folder string
	notes  *os.File
	agent  *Agent
	st     *pibroulez.Store
	serial string

	mutex sync.Mutex
	held  map[string][]string
}

func (w *worker) note(it chaosNote) {
	it.At = monotonic()
	line, err := json.Marshal(it)
	if err != nil {
		panic(err)
	}
	w.notes.Write(append(line, '\n'))
}

// A call between its two notes. A store that died has answered nothing.
func (w *worker) noted(tag string, call func() error) error {
	w.note(chaosNote{event: event{Kind: calling}, Tag: tag})
	err := call()
	if !errors.Is(err, pibroulez.ErrDied) {
		w.note(chaosNote{event: event{Kind: called}, Tag: tag})
	}
	return err
}

// The process of a node, until it is killed.
func workNode(folder string) int {
	signal.Ignore(syscall.SIGINT)
	w := &worker{folder: folder, held: map[string][]string{}, serial: fmt.Sprint(monotonic())}
	text, err := os.ReadFile(filepath.Join(folder, "config"))
	if err == nil {
		err = json.Unmarshal(text, &w.config)
	}
	if err == nil {
		err = w.begin()
	}
	if errors.Is(err, pibroulez.ErrDied) {
		return lostStore
	}
	if err != nil {
		fmt.Println(err)
		return hasNoStart
	}
	rand.Seed(time.Now().UnixNano() + int64(os.Getpid()))
	for i := 0; i < w.config.Workers; i++ {
		go w.work(i)
	}
	select {
	case <-w.agent.Ended():
		fmt.Println(w.agent.Status().Err)
		return cameToEnd
	case <-w.st.Ended():
		return lostStore
	}
}

func (w *worker) begin() (err error) {
	client, err := dialEtcd(w.config.Endpoints)
	for errors.Is(err, context.DeadlineExceeded) {
		// The process stood still meanwhile.
		client, err = dialEtcd(w.config.Endpoints)
	}
	if err != nil {
		return err
	}
	if w.notes, err = os.OpenFile(filepath.Join(w.folder, "notes"), os.O_APPEND|os.O_CREATE|os.O_WRONLY, 0o600); err != nil {
		return err
	}
	log := filepath.Join(w.folder, "log")
	w.st, err = OpenOrNew(ctx, pibroulez.Config{Program: program(), Root: "/r", Log: log, Slots: 4096, Journal: 1 << 20}, w.config.Tenants...)
	if err != nil {
		return err
	}
	w.st.RollWhenFull(1 << 20)
	w.agent, err = New(ctx, Config{
		Client: client, Prefix: w.config.Prefix, Node: w.config.Name, Store: w.st, Batch: usage(64, 64), Patience: time.Second,
		Lease: 2 * time.Second, Report: time.Second,
		note: func(it event) {
			if it.Kind == begun {
				lines, _ := os.ReadFile(log)
				it.Lines = bytes.Count(linesIn(lines), []byte("\n"))
			}
			w.note(chaosNote{event: it})
		},
	})
	if err != nil {
		return err
	}
	pids := fmt.Sprint(os.Getpid(), " ", w.st.PID())
	if err := os.WriteFile(filepath.Join(w.folder, "pids"), []byte(pids), 0o600); err != nil {
		return err
	}
	return w.inherit()
}

// What earlier processes left: committed snapshots are ours, and active ones are discarded.
func (w *worker) inherit() error {
	for _, tenant := range w.config.Tenants {
		nodes, err := w.st.Tree(ctx, tenant)
		if err != nil {
			return err
		}
		for _, it := range nodes {
			if it.Kind == pibroulez.KindCommitted {
				w.held[tenant] = append(w.held[tenant], it.Key)
				continue
			}
			err := w.noted("discard/"+tenant+"/"+it.Key, func() error { _, err := w.st.Discard(ctx, tenant, it.Key); return err })
			if err != nil {
				return err
			}
		}
	}
	return nil
}

// Makes snapshots and removes some, more of them at times, so that nodes fill and empty at different moments.
func (w *worker) work(number int) {
	for i := 0; ; i++ {
		tenant := w.config.Tenants[rand.Intn(len(w.config.Tenants))]
		isEmptying := (time.Now().Unix()/7+int64(w.config.Name[len(w.config.Name)-1]))%3 == 0
		key := ""
		if rand.Intn(3) == 0 || isEmptying && rand.Intn(2) == 0 {
			key = w.drop(tenant)
		}
		var err error
		if key != "" {
			err = w.noted("remove/"+tenant+"/"+key, func() error { _, err := w.st.Remove(ctx, tenant, key); return err })
		} else {
			err = w.make(tenant, fmt.Sprintf("%s-%d-%d", w.serial, number, i), uint64(1+rand.Intn(20)))
		}
		if errors.Is(err, pibroulez.ErrDied) {
			return
		}
		time.Sleep(w.config.Pause)
	}
}

// One of the snapshots, which is nobody's then.
func (w *worker) drop(tenant string) string {
	w.mutex.Lock()
	defer w.mutex.Unlock()
	all := w.held[tenant]
	if len(all) == 0 {
		return ""
	}
	at := rand.Intn(len(all))
	key := all[at]
	w.held[tenant] = append(all[:at], all[at+1:]...)
	return key
}

// A snapshot with a file of this many blocks: first what it may need is charged, then the rest of that goes back.
func (w *worker) make(tenant, key string, blocks uint64) error {
	more := func(do string, need Usage, call func(context.Context) error) error {
		return w.agent.Charge(ctx, tenant, need, func(ctx context.Context) error {
			return w.noted(do+"/"+tenant+"/"+key, func() error { return call(ctx) })
		})
	}
	err := more("prepare", usage(1, 1), func(ctx context.Context) error { _, err := w.st.Prepare(ctx, tenant, key, ""); return err })
	if err != nil {
		return err
	}
	err = more("charge", usage(blocks+2, 1), func(ctx context.Context) error {
		_, err := w.st.Charge(ctx, tenant, key, usage(blocks+3, 2))
		return err
	})
	if err == nil {
		_, err = w.st.Put(ctx, tenant, key, "/f", blocks*4096)
	}
	if errors.Is(err, pibroulez.ErrDied) {
		return err
	}
	if err != nil {
		return w.noted("discard/"+tenant+"/"+key, func() error { _, err := w.st.Discard(ctx, tenant, key); return err })
	}
	err = w.noted("commit/"+tenant+"/"+key, func() error { _, err := w.st.Commit(ctx, tenant, key, "c"+key); return err })
	if err == nil {
		w.mutex.Lock()
		w.held[tenant] = append(w.held[tenant], "c"+key)
		w.mutex.Unlock()
	}
	return err
}

// The nodes of a run, and what is done to them.
type chaos struct {
	*world
	folder  string
	tenants []string
	// The limit of the first `fixed` tenants, which doesn't change.
	fixed  int
	limit  Usage
	nodes  []*chaosNode
	lost   []string // folders of what was on lost disks
	forget []string
	counts map[string]int
	random *rand.Rand
	pause  time.Duration

	down, stopped map[*member]time.Time
	share         float64
	greatest      Usage
}

type chaosNode struct {
	name, folder string
	process      *exec.Cmd
	ended        chan int
	notBefore    time.Time
}

func chaosSize(t *testing.T) (how time.Duration, nodes, tenants int) {
	seconds, err := strconv.Atoi(os.Getenv("PIBROULEZ_CHAOS_SECONDS"))
	switch {
	case err == nil && seconds <= 60 || err != nil && !isLong():
		if err != nil {
			seconds = 9
		}
		return time.Duration(seconds) * time.Second, 4, 3
	case err != nil:
		seconds = 1800
	}
	return time.Duration(seconds) * time.Second, 10, 6
}

func TestChaos(t *testing.T) {
	how, nodes, tenants := chaosSize(t)
	seed := time.Now().UnixNano()
	t.Logf("%v, %d nodes, %d tenants, seed %d", how, nodes, tenants, seed)
	c := &chaos{
		world: newWorld(t), folder: t.TempDir(), fixed: (tenants + 1) / 2, limit: usage(100*uint64(nodes), 30*uint64(nodes)),
		counts: map[string]int{}, random: rand.New(rand.NewSource(seed)), pause: 5 * time.Millisecond,
		down: map[*member]time.Time{}, stopped: map[*member]time.Time{},
	}
	for i := 0; i < tenants; i++ {
		c.tenants = append(c.tenants, fmt.Sprint("t", i))
		c.world.limit(c.tenants[i], c.limit.Blocks, c.limit.Inodes)
		// The pools of a half are in one shard, and of the others in several.
		must(0, c.operator.SetShards(ctx, c.tenants[i], 1+i%2*(1+i)))(t)
	}
	for i := 0; i < nodes; i++ {
		c.nodes = append(c.nodes, &chaosNode{name: fmt.Sprint("n", i), folder: filepath.Join(c.folder, fmt.Sprint("n", i))})
		c.start(c.nodes[i])
	}
	defer c.stop()
	c.run(how)
	c.heal()
	for frozen, try := c.counts["frozen"], 0; try < 5 && c.counts["frozen"] == frozen; try++ {
		c.freeze()
	}
	c.stop()
	ended := time.Now()
	lives := c.lives()
	var stores []*recorded
	for _, it := range lives {
		stores = append(stores, it.recorded)
	}
	kinds := c.checkRun(stores)
	c.checkMoments(lives)
	t.Logf("looked at in %v", time.Since(ended))
	t.Logf("%v; frozen moments use %.2f of the limits; greatest sum at any moment %v of %v; history %v", c.counts, c.share/float64(1+c.counts["frozen"]), c.greatest, c.limit, kinds)
	if c.counts["frozen"] == 0 || kinds["grant"] < 30 || kinds["steps"] < 300 || c.counts["agent"]+c.counts["store"]+c.counts["etcd"] == 0 {
		t.Errorf("too little was done: %v, %v", c.counts, kinds)
	}
}

func (c *chaos) start(n *chaosNode) {
	must(0, os.MkdirAll(n.folder, 0o700))(c.t)
	os.Remove(filepath.Join(n.folder, "pids"))
	config := chaosConfig{Prefix: c.prefix, Name: n.name, Tenants: c.tenants, Workers: 4, Pause: c.pause}
	for _, it := range c.etcd.members {
		config.Endpoints = append(config.Endpoints, it.client)
	}
	must(0, os.WriteFile(filepath.Join(n.folder, "config"), must(json.Marshal(config))(c.t), 0o600))(c.t)
	output := must(os.OpenFile(filepath.Join(n.folder, "output"), os.O_APPEND|os.O_CREATE|os.O_WRONLY, 0o600))(c.t)
	defer output.Close()
	process := exec.Command(os.Args[0])
	process.Env = append(os.Environ(), "PIBROULEZ_TEST_NODE="+n.folder)
	process.Stdout, process.Stderr = output, output
	must(0, startProcess(process))(c.t)
	ended := make(chan int, 1)
	n.process, n.ended = process, ended
	go func() {
		process.Wait()
		ended <- process.ProcessState.ExitCode()
	}()
	c.counts["starts"]++
}

// The processes of a node: its own, and its store's once that is there.
func (n *chaosNode) pids() (pids []int) {
	text, _ := os.ReadFile(filepath.Join(n.folder, "pids"))
	for _, it := range strings.Fields(string(text)) {
		pid, err := strconv.Atoi(it)
		if err != nil || len(pids) == 0 && pid != n.process.Process.Pid {
			return nil
		}
		pids = append(pids, pid)
	}
	return pids
}

func isRunning(pid int) bool {
	_, err := os.Stat(fmt.Sprint("/proc/", pid))
	return err == nil
}

// Kills a node, and waits until its store has ended, which has lost its input.
func (c *chaos) kill(n *chaosNode) {
	pids := n.pids()
	n.process.Process.Kill()
	<-n.ended
	n.ended <- -1
	c.awaitStore(pids)
}

func (c *chaos) awaitStore(pids []int) {
	if len(pids) > 1 {
		until(c.t, "the end of a store", func() bool { return !isRunning(pids[1]) })
	}
}

func (c *chaos) run(how time.Duration) {
	end := time.Now().Add(how)
	// The longer a look at all logs takes, the rarer.
	look := time.Now().Add(3 * time.Second)
	for time.Now().Before(end) && !c.t.Failed() {
		time.Sleep(time.Duration(100+c.random.Intn(400)) * time.Millisecond)
		c.restart()
		c.act()
		c.forgetLost()
		if begin := time.Now(); begin.After(look) && len(c.down)+len(c.stopped) == 0 {
			c.freeze()
			look = time.Now().Add(3*time.Second + 10*time.Since(begin))
		}
	}
}

// Starts what has ended.
func (c *chaos) restart() {
	for _, n := range c.nodes {
		select {
		case status := <-n.ended:
			if status == cameToEnd || status == hasNoStart || status == 2 {
				output, _ := os.ReadFile(filepath.Join(n.folder, "output"))
				c.t.Errorf("%s ended with status %d: %s", n.name, status, output)
			}
			c.awaitStore(n.pids())
			if time.Now().Before(n.notBefore) {
				n.ended <- -1
				continue
			}
			c.start(n)
		default:
		}
	}
	for it, when := range c.down {
		if time.Now().After(when) {
			must(0, c.etcd.start(it))(c.t)
			delete(c.down, it)
		}
	}
	for it, when := range c.stopped {
		if time.Now().After(when) {
			it.process.Process.Signal(syscall.SIGCONT)
			delete(c.stopped, it)
		}
	}
}

func (c *chaos) act() {
	n := c.nodes[c.random.Intn(len(c.nodes))]
	pids := n.pids()
	isUp := len(pids) == 2 && len(n.ended) == 0
	isCalm := len(c.down)+len(c.stopped) == 0
	switch dice := c.random.Intn(100); {
	case dice < 22 && isUp:
		c.kill(n)
		n.notBefore = time.Now().Add([]time.Duration{0, 0, time.Second, 3 * time.Second}[c.random.Intn(4)])
		c.counts["agent"]++
	case dice < 44 && isUp:
		syscall.Kill(pids[1], syscall.SIGKILL)
		c.counts["store"]++
	case dice < 54 && isCalm:
		for _, it := range c.someMembers() {
			c.etcd.kill(it)
			c.down[it] = time.Now().Add(c.seconds(1, 4))
			c.counts["etcd"]++
		}
	case dice < 62 && c.fixed < len(c.tenants):
		c.changeLimit()
	case dice < 66 && isUp:
		n.process.Process.Signal(syscall.SIGSTOP)
		time.Sleep(c.seconds(0, 2))
		n.process.Process.Signal(syscall.SIGCONT)
		c.counts["pause"]++
	case dice < 70 && isUp:
		c.loseDisk(n)
	case dice < 80 && isCalm:
		for _, it := range c.someMembers() {
			it.process.Process.Signal(syscall.SIGSTOP)
			c.stopped[it] = time.Now().Add(c.seconds(1, 3))
			c.counts["etcd pause"]++
		}
	}
}

func (c *chaos) seconds(least, most int) time.Duration {
	return time.Duration(least)*time.Second + time.Duration(c.random.Int63n(int64(time.Duration(most-least)*time.Second)))
}

// One member, or now and then a majority.
func (c *chaos) someMembers() []*member {
	count := 1
	if c.random.Intn(10) < 3 {
		count = 2
		c.counts["majority"]++
	}
	var some []*member
	for _, at := range c.random.Perm(3)[:count] {
		some = append(some, c.etcd.members[at])
	}
	return some
}

func (c *chaos) changeLimit() {
	tenant := c.tenants[c.fixed+c.random.Intn(len(c.tenants)-c.fixed)]
	part := []uint64{1, 5, 10, 15}[c.random.Intn(4)]
	bounded, cancel := context.WithTimeout(ctx, 3*time.Second)
	defer cancel()
	if _, err := c.operator.SetLimit(bounded, tenant, usage(c.limit.Blocks*part/10, c.limit.Inodes*part/10)); err == nil {
		c.counts["limit"]++
	}
}

// A node's disk is lost: it comes back empty, and an operator forgets the store that it had.
func (c *chaos) loseDisk(n *chaosNode) {
	c.kill(n)
	last, err := lastOf(filepath.Join(n.folder, "log"))
	if err != nil || last == nil {
		c.t.Fatal(err)
	}
	store, _, err := identityOf(last)
	if err != nil {
		c.t.Fatal(err)
	}
	gone := filepath.Join(c.folder, fmt.Sprint("lost", len(c.lost)))
	must(0, os.Rename(n.folder, gone))(c.t)
	c.lost, c.forget = append(c.lost, gone), append(c.forget, store)
	note, err := os.OpenFile(filepath.Join(gone, "notes"), os.O_APPEND|os.O_WRONLY, 0o600)
	if err != nil {
		c.t.Fatal(err)
	}
	fmt.Fprintf(note, "{\"e\":%q,\"at\":%d}\n", lostDisk, monotonic())
	note.Close()
	c.counts["lost disk"]++
}

// That a disk is lost, with all that was charged there.
const lostDisk = "lost disk"

func (c *chaos) forgetLost() {
	if len(c.forget) == 0 || len(c.down)+len(c.stopped) > 0 {
		return
	}
	bounded, cancel := context.WithTimeout(ctx, 3*time.Second)
	defer cancel()
	_, err := c.operator.Forget(bounded, Forgetting{Store: c.forget[0], DataDestroyed: true})
	// A store that never joined has nothing to be forgotten.
	if err == nil || errors.Is(err, ErrNoStore) {
		c.forget = c.forget[1:]
		c.counts["forgotten"]++
	}
}

// Has all run again, for a while.
func (c *chaos) heal() {
	for it := range c.down {
		must(0, c.etcd.start(it))(c.t)
		delete(c.down, it)
	}
	for it := range c.stopped {
		it.process.Process.Signal(syscall.SIGCONT)
		delete(c.stopped, it)
	}
	must(0, c.etcd.awaitAnswer(time.Minute))(c.t)
	for begin := time.Now(); time.Since(begin) < 3*time.Second || len(c.forget) > 0; time.Sleep(100 * time.Millisecond) {
		c.restart()
		c.forgetLost()
	}
}

func (c *chaos) stop() {
	for _, n := range c.nodes {
		if len(n.ended) == 0 {
			c.kill(n)
		}
	}
}

// A moment at which agents and stores stand still: each store within its own limit, that within its grant, and the sums
// within the limits.
func (c *chaos) freeze() {
	var stopped []int
	stop := func(pid int) {
		if syscall.Kill(pid, syscall.SIGSTOP) == nil {
			stopped = append(stopped, pid)
		}
	}
	for _, n := range c.nodes {
		if len(n.ended) == 0 {
			stop(n.process.Process.Pid)
		}
	}
	defer func() {
		for _, pid := range stopped {
			syscall.Kill(pid, syscall.SIGCONT)
		}
	}()
	time.Sleep(20 * time.Millisecond)
	// Stores that were started meanwhile too.
	for _, pid := range append([]int(nil), stopped...) {
		children, _ := filepath.Glob(fmt.Sprintf("/proc/%d/task/*/children", pid))
		for _, path := range children {
			text, _ := os.ReadFile(path)
			for _, it := range strings.Fields(string(text)) {
				child, _ := strconv.Atoi(it)
				stop(child)
			}
		}
	}
	time.Sleep(20 * time.Millisecond)
	bounded, cancel := context.WithTimeout(ctx, 5*time.Second)
	defer cancel()
	now, err := c.operator.transactions.snapshot(bounded)
	if err != nil {
		c.counts["not frozen"]++
		return
	}
	c.compare(now)
	c.counts["frozen"]++
}

func (c *chaos) compare(now *snapshot) {
	if faults := now.faults(); len(faults) > 0 {
		c.t.Errorf("frozen: %v", faults)
	}
	charged, bounds := map[string]Usage{}, map[string]Usage{}
	for _, n := range c.nodes {
		quotas, err := lastOf(filepath.Join(n.folder, "log"))
		if errors.Is(err, os.ErrNotExist) || quotas == nil && err == nil {
			continue
		}
		store, tenants, err := identityOf(quotas)
		if err != nil {
			c.t.Error(n.name, err)
			continue
		}
		for _, tenant := range tenants {
			quota, grant := quotas[tenant], now.grants[store][tenant].Grant
			if !covers(quota.Limit, quota.Charged) || !covers(grant, quota.Limit) {
				c.t.Errorf("frozen: store %s, tenant %s: charged %v, limit %v, grant %v", store, tenant, quota.Charged, quota.Limit, grant)
			}
			charged[tenant], bounds[tenant] = plus(charged[tenant], quota.Charged), plus(bounds[tenant], quota.Limit)
		}
	}
	for i, tenant := range c.tenants {
		if !covers(bounds[tenant], charged[tenant]) || !covers(now.grantedOf(tenant), bounds[tenant]) {
			c.t.Errorf("frozen: tenant %s: charged %v, limits %v, %+v", tenant, charged[tenant], bounds[tenant], now.tenants[tenant])
		}
		if i < c.fixed {
			if !covers(c.limit, charged[tenant]) {
				c.t.Errorf("frozen: tenant %s is charged %v of %v", tenant, charged[tenant], c.limit)
			}
			c.share += float64(charged[tenant].Blocks) / float64(c.limit.Blocks) / float64(c.fixed)
		}
	}
}

func (c *chaos) folders() []string {
	folders := append([]string(nil), c.lost...)
	for _, n := range c.nodes {
		folders = append(folders, n.folder)
	}
	return folders
}

// The notes of a folder. What a killed process wrote last may be torn.
func notesOf(folder string) ([]chaosNote, error) {
	file, err := os.Open(filepath.Join(folder, "notes"))
	if err != nil {
		return nil, err
	}
	defer file.Close()
	var all []chaosNote
	lines := bufio.NewScanner(file)
	for lines.Scan() {
		var it chaosNote
		if json.Unmarshal(lines.Bytes(), &it) == nil {
			all = append(all, it)
		}
	}
	return all, lines.Err()
}

// A store's run, and all that its node has noted.
type lived struct {
	*recorded
	all []chaosNote
}

func (c *chaos) lives() []lived {
	var lives []lived
	for _, folder := range c.folders() {
		if _, err := os.Stat(filepath.Join(folder, "notes")); err != nil {
			continue
		}
		notes := must(notesOf(folder))(c.t)
		var events []event
		for _, it := range notes {
			if it.Kind != calling && it.Kind != called && it.Kind != lostDisk {
				events = append(events, it.event)
			}
		}
		// A node that ended before its agent began has charged nothing.
		if len(events) > 0 {
			lives = append(lives, lived{c.recordedOf(filepath.Join(folder, "log"), events), notes})
		}
	}
	return lives
}
