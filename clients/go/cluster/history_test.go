package cluster

import (
	"bytes"
	"context"
	"encoding/json"
	"fmt"
	"io"
	"os"
	"os/exec"
	"sort"
	"strings"

	"go.etcd.io/etcd/clientv3"
	"go.etcd.io/etcd/mvcc/mvccpb"

	"pibroulez.example/pibroulez"
	"pibroulez.example/pibroulez/cluster/model"
)

// What etcd's history and the logs say of a run: at each revision the invariant I1, and all together a walk in the
// model, for each tenant in each quantity.

// What one revision of etcd has changed. A deleted key has a nil value.
type revision struct {
	number  int64
	changes map[string][]byte
}

// The whole history of a world, up to now.
func (w *world) history() []revision {
	w.t.Helper()
	last := must(w.client.Put(ctx, w.prefix+"/w/end/end", "{}"))(w.t).Header.Revision
	found := map[int64]*revision{}
	bounded, end := context.WithCancel(ctx)
	defer end()
	for told := range w.client.Watch(bounded, w.prefix+"/", clientv3.WithPrefix(), clientv3.WithRev(w.from)) {
		if err := told.Err(); err != nil {
			w.t.Fatal(err)
		}
		for _, it := range told.Events {
			at := it.Kv.ModRevision
			if found[at] == nil {
				found[at] = &revision{at, map[string][]byte{}}
			}
			value := it.Kv.Value
			if it.Type == mvccpb.DELETE {
				value = nil
			}
			found[at].changes[string(it.Kv.Key)] = value
		}
		if found[last] != nil {
			break
		}
	}
	var all []revision
	for _, it := range found {
		all = append(all, *it)
	}
	sort.Slice(all, func(i, j int) bool { return all[i].number < all[j].number })
	return all
}

// What a revision may change: one of the transactions, or hints. A shard of a tenant's pool is "s".
var shapes = map[string]string{
	"+j": "join", "+g +s": "grant", "+g +t": "grant", "+g +s +t": "grant", "+t": "still", "+s +t": "limit", "+s +t -s": "limit", "+f -j": "mark",
	"+s -g": "free", "+t -g": "free", "+s +t -g": "free", "-g": "drop", "+e": "generation", "+g +j": "register",
	"+a": "", "-a": "", "+w": "", "-w": "", "+d": "", "-d": "", "-a -w": "",
}

// How many keys of grants, and of tenants, a revision of each kind may change.
var mostKeys = map[string][2]int{
	"grant": {1, 1}, "limit": {0, 1}, "still": {0, 1}, "free": {1, 1}, "drop": {1, 0}, "register": {MostShards, 0},
}

func (r *revision) kind(keys keys) (string, error) {
	letters, grants, tenants, others := map[string]bool{}, 0, map[string]bool{}, 0
	for key, value := range r.changes {
		letter, parts := keys.parts(key)
		switch letter {
		case "t":
			if tenants[parts[0]] = true; len(parts) == 2 {
				letter = "s"
			}
		case "g":
			grants++
		case "j", "f", "e":
			others++
		}
		sign := "+"
		if value == nil {
			sign = "-"
		}
		letters[sign+letter] = true
	}
	kind, isKnown := shapes[strings.Join(sorted(letters), " ")]
	if !isKnown || grants > mostKeys[kind][0] || len(tenants) > mostKeys[kind][1] || others > 2 {
		return "", fmt.Errorf("revision %d: no transaction writes %v", r.number, sorted(r.changes))
	}
	return kind, nil
}

// At each revision the sums are those of the grants, a sum that was raised is within the limit, and nothing but the four
// transactions has written what grants depend on. How many revisions had a raise, and how many of each kind there are.
func (w *world) checkHistory(history []revision) (kinds map[string]int) {
	w.t.Helper()
	return w.checkFrom(newSnapshot(), history)
}

// From what etcd had before.
func (w *world) checkFrom(s *snapshot, history []revision) (kinds map[string]int) {
	w.t.Helper()
	kinds = map[string]int{}
	for at, it := range history {
		kind, err := it.kind(w.operator.keys)
		if err != nil {
			w.t.Fatal(err)
		}
		kinds[kind]++
		before, records := map[string]Usage{}, map[string]tenantRecord{}
		for key := range it.changes {
			if letter, parts := w.operator.keys.parts(key); letter == "t" {
				before[parts[0]], records[parts[0]] = s.grantedOf(parts[0]), s.tenants[parts[0]]
			}
		}
		wasOpen := s.isOpen()
		if isOpenAlone, isClosedAlone := phases(kind); isOpenAlone && !wasOpen || isClosedAlone && wasOpen {
			w.t.Fatalf("revision %d: a %s in phase %q", it.number, kind, s.generation.Phase)
		}
		must(0, s.putAll(w.operator.keys, &it))(w.t)
		// All sums now and then, and those that have changed each time.
		faults := []string(nil)
		if at%100 == 0 || at == len(history)-1 || wasOpen != s.isOpen() {
			faults = s.faults()
		}
		for tenant := range before {
			faults = append(faults, s.faultsOf(tenant, s.sumOf(tenant))...)
		}
		if len(faults) > 0 && s.isOpen() {
			w.t.Fatalf("revision %d: %v", it.number, faults)
		}
		for tenant, old := range before {
			if kind == "still" && s.tenants[tenant] != records[tenant] {
				w.t.Fatalf("revision %d: tenant %s: the record alone is written, and has changed", it.number, tenant)
			}
			if why := overgranted(old, s.grantedOf(tenant), s.tenants[tenant].Limit); why != "" && wasOpen {
				w.t.Fatalf("revision %d: tenant %s: %s", it.number, tenant, why)
			}
		}
	}
	return kinds
}

// In which phases a revision of this kind may be: an open one alone, or any other alone.
func phases(kind string) (isOpenAlone, isClosedAlone bool) {
	return kind == "grant" || kind == "join" || kind == "free", kind == "register" || kind == "drop"
}

// The sum of a tenant's grants.
func (s *snapshot) sumOf(tenant string) (sum Usage) {
	for _, grants := range s.grants {
		sum = plus(sum, grants[tenant].Grant)
	}
	return sum
}

// All that a revision has changed.
func (s *snapshot) putAll(keys keys, it *revision) error {
	for key, value := range it.changes {
		if err := s.put(keys, key, value); err != nil {
			return err
		}
	}
	return nil
}

func overgranted(old, now, limit Usage) string {
	isOver := func(old, now, limit uint64) bool { return now > old && now > limit }
	if isOver(old.Blocks, now.Blocks, limit.Blocks) || isOver(old.Inodes, now.Inodes, limit.Inodes) {
		return fmt.Sprintf("the sum was raised from %v to %v above the limit %v", old, now, limit)
	}
	return ""
}

// A line of a log, and what its tenant has after it.
type logLine struct {
	do, tenant, key string
	// To is the limit that a `limit` asks for.
	to             Usage
	charged, bound Usage
	// That the journal was full: the client has rolled it, and made the call once more.
	isFull bool
}

// What counts of the bytes of a log: its lines up to the first that doesn't begin with a brace.
func linesIn(text []byte) []byte {
	end := 0
	for end < len(text) && text[end] == '{' {
		length := bytes.IndexByte(text[end:], '\n') + 1
		if length == 0 {
			break
		}
		end += length
	}
	return text[:end]
}

// The lines of a log, by the program's own replay, with a question after each. Each line changes its own tenant alone.
// And all that the store has at the end, or nil where there is no line.
func linesOf(path string) (lines []logLine, last map[string]pibroulez.Quota, err error) {
	text, err := os.ReadFile(path)
	if err != nil {
		return nil, nil, err
	}
	text = linesIn(text)
	if len(text) == 0 {
		return nil, nil, nil
	}
	var script bytes.Buffer
	for _, line := range bytes.Split(text[:len(text)-1], []byte("\n")) {
		var it struct {
			Do, Ns, Key    string
			Blocks, Inodes uint64
		}
		if err := json.Unmarshal(line, &it); err != nil {
			return nil, nil, err
		}
		lines = append(lines, logLine{do: it.Do, tenant: it.Ns, key: it.Key, to: usage(it.Blocks, it.Inodes)})
		fmt.Fprintf(&script, "%s\n", line)
		if it.Ns != "" {
			fmt.Fprintf(&script, "{\"do\":\"quota\",\"ns\":%q}\n", it.Ns)
		}
	}
	script.WriteString("{\"do\":\"quota\"}\n")
	run := exec.Command(program(), "run")
	run.Stdin = &script
	output, err := run.Output()
	if err != nil {
		return nil, nil, fmt.Errorf("%s: %w", path, err)
	}
	answers := bytes.Split(bytes.TrimSuffix(output, []byte("\n")), []byte("\n"))
	quota := func(text []byte) (map[string]pibroulez.Quota, error) {
		var told struct{ Quota map[string]pibroulez.Quota }
		err := json.Unmarshal(text, &told)
		return told.Quota, err
	}
	at := 0
	for i := range lines {
		lines[i].isFull = bytes.HasPrefix(answers[at], []byte(`{"error":"JournalFull"`))
		at++
		if lines[i].tenant == "" {
			continue
		}
		told, err := quota(answers[at])
		if err != nil {
			return nil, nil, err
		}
		lines[i].charged, lines[i].bound = told[lines[i].tenant].Charged, told[lines[i].tenant].Limit
		at++
	}
	last, err = quota(answers[at])
	return lines, last, err
}

// What a log's store has at its end, or nil where there is no line.
func lastOf(path string) (map[string]pibroulez.Quota, error) {
	text, err := os.ReadFile(path)
	if err != nil {
		return nil, err
	}
	text = linesIn(text)
	if len(text) == 0 {
		return nil, nil
	}
	run := exec.Command(program(), "run")
	run.Stdin = io.MultiReader(bytes.NewReader(text), strings.NewReader("{\"do\":\"quota\"}\n"))
	output, err := run.Output()
	if err != nil {
		return nil, fmt.Errorf("%s: %w", path, err)
	}
	output = bytes.TrimSuffix(output, []byte("\n"))
	var told struct{ Quota map[string]pibroulez.Quota }
	err = json.Unmarshal(output[bytes.LastIndexByte(output, '\n')+1:], &told)
	return told.Quota, err
}

// A store's run: its log and what its agents have noted, one after the other.
type recorded struct {
	store   string
	tenants []string
	lines   []logLine
	notes   []event
}

// What was seen of a store, for one tenant, in an order that it had.
type moment struct {
	kind string
	id   string
	to   Usage
}

// Kinds of moments beside those of events.
const (
	charging = "charging"
	bounding = "bounding"
	ending   = "ending"
)

// Puts the lines and the notes of a tenant in one order: each `limit` that was noted is a line of the log, unless it
// wasn't answered.
func (r *recorded) moments(tenant string) ([]moment, error) {
	var all []moment
	at := 0
	var charged, bound Usage
	pass := func(to int) {
		for ; at < to; at++ {
			now := &r.lines[at]
			if now.tenant != tenant {
				continue
			}
			if now.charged != charged {
				all = append(all, moment{kind: charging, to: now.charged})
			}
			if now.bound != bound {
				all = append(all, moment{kind: bounding, to: now.bound})
			}
			charged, bound = now.charged, now.bound
		}
	}
	for begin := 0; begin < len(r.notes); {
		end := begin + 1
		for end < len(r.notes) && r.notes[end].Kind != begun {
			end++
		}
		last := len(r.lines)
		if end < len(r.notes) {
			last = r.notes[end].Lines
		}
		pass(r.notes[begin].Lines)
		all = append(all, moment{kind: begun})
		life := life{tenant, r.notes[begin].By, r.notes[begin+1 : end], r.lines, last}
		if err := life.moments(&at, pass, func(it moment) { all = append(all, it) }); err != nil {
			return nil, fmt.Errorf("store %s: %w", r.store, err)
		}
		pass(last)
		all = append(all, moment{kind: ending})
		begin = end
	}
	return all, nil
}

// One process of an agent.
type life struct {
	tenant, process string
	notes           []event
	lines           []logLine
	last            int
}

func (l *life) moments(at *int, pass func(int), add func(moment)) error {
	var limits []int
	for i := *at; i < l.last; i++ {
		if it := &l.lines[i]; it.do == "limit" && it.tenant == l.tenant && !it.isFull {
			limits = append(limits, i)
		}
	}
	answers := 0
	for _, it := range l.notes {
		if it.Tenant == l.tenant && it.Kind == limited {
			answers++
		}
	}
	for i, it := range l.notes {
		if it.Tenant != l.tenant {
			continue
		}
		id := fmt.Sprintf("%s/%d", l.process, it.Number)
		switch it.Kind {
		case sending, answered:
			add(moment{it.Kind, id, it.To})
		case limiting:
			isAnswered := l.isAnswered(i)
			isKept := len(limits) > 0 && l.lines[limits[0]].to == it.To && (isAnswered || len(limits) > answers)
			if isAnswered && !isKept {
				return fmt.Errorf("a limit of %v for tenant %s was answered, and isn't in the log", it.To, l.tenant)
			}
			if isAnswered {
				answers--
			}
			if isKept {
				pass(limits[0] + 1)
				limits = limits[1:]
			}
		}
	}
	if len(limits) > 0 {
		return fmt.Errorf("line %d sets a limit, and no agent has", limits[0]+1)
	}
	return nil
}

// Whether the limit that was noted here has been answered: the tenant's next note is that.
func (l *life) isAnswered(at int) bool {
	for _, it := range l.notes[at+1:] {
		if it.Tenant == l.tenant {
			return it.Kind == limited
		}
	}
	return false
}

// One quantity.
type quantity func(Usage) uint64

var quantities = map[string]quantity{
	"blocks": func(u Usage) uint64 { return u.Blocks },
	"inodes": func(u Usage) uint64 { return u.Inodes },
}

// Takes a run as a walk in the model: each revision of etcd that changes the tenant, and each line of a log. How many
// steps it has.
func walk(keys keys, history []revision, stores []*recorded, tenant string, of quantity) (int, error) {
	return walkAll(keys, [][]revision{history}, stores, tenant, of)
}

// Takes it of several histories of etcd. Each but the last has ended, and the next one goes on from a backup that was made
// at the revision before its first one.
func walkAll(keys keys, histories [][]revision, stores []*recorded, tenant string, of quantity) (int, error) {
	w := &walking{Walk: model.NewWalk(), keys: keys, tenant: tenant, of: of, left: map[string][]moment{}}
	for _, it := range stores {
		moments, err := it.moments(tenant)
		if err != nil {
			return 0, err
		}
		w.left[it.store] = moments
	}
	var past []revision
	for i, history := range histories {
		if i > 0 {
			if err := w.restore(past, history[0].number); err != nil {
				return w.Steps, err
			}
		}
		for _, it := range history {
			if err := w.revision(&it); err != nil {
				return w.Steps, fmt.Errorf("revision %d: %w", it.number, err)
			}
		}
		past = append(past, history...)
	}
	for _, it := range stores {
		if _, err := w.Node(it.store); err != nil {
			continue
		}
		if err := w.advance(it.store, "", model.Change{}); err != nil {
			return w.Steps, err
		}
	}
	return w.Steps, nil
}

// A walk in the model of a tenant in one quantity, and what etcd has at the revision that it is at.
type walking struct {
	*model.Walk
	keys   keys
	tenant string
	of     quantity
	left   map[string][]moment
	now    *snapshot
}

// Goes on from the backup of a history.
func (w *walking) restore(past []revision, until int64) error {
	w.now = newSnapshot()
	for i := range past {
		if past[i].number < until {
			if err := w.now.putAll(w.keys, &past[i]); err != nil {
				return err
			}
		}
	}
	return w.Restore(w.of(w.now.tenants[w.tenant].Limit))
}

// Takes what a store has seen, up to where a transaction was sent, or all.
func (w *walking) advance(store, sent string, change model.Change) error {
	for len(w.left[store]) > 0 {
		it := w.left[store][0]
		w.left[store] = w.left[store][1:]
		if err := w.moment(store, it, sent, change); err != nil {
			return err
		}
		if it.kind == sending && it.id == sent {
			return nil
		}
	}
	if sent != "" {
		return fmt.Errorf("store %s has a grant by %s, which no agent has sent", store, sent)
	}
	return nil
}

func (w *walking) moment(store string, it moment, sent string, change model.Change) error {
	switch it.kind {
	case begun:
		return w.Begin(store)
	case ending:
		return w.End(store)
	case charging:
		return w.Charged(store, w.of(it.to))
	case bounding:
		return w.Bound(store, w.of(it.to))
	case sending:
		// Of the others none was carried out.
		if it.id == sent {
			return w.Send(store, it.id, w.of(it.to), change)
		}
	case answered:
		return w.Answer(store, it.id)
	}
	return nil
}

// What is free in the first shard, and in all others together.
func (w *walking) free() (free model.Shards) {
	for number, it := range w.now.shards[w.tenant] {
		if number == 0 {
			free[0] = w.of(it.Free)
		} else {
			free[1] += w.of(it.Free)
		}
	}
	return free
}

func (w *walking) revision(it *revision) error {
	if w.now == nil {
		w.now = newSnapshot()
	}
	kind, err := it.kind(w.keys)
	if err != nil {
		return err
	}
	before, wasOpen := w.free(), w.now.isOpen()
	if err := w.now.putAll(w.keys, it); err != nil {
		return err
	}
	after := w.free()
	var change model.Change
	for i := range before {
		if before[i] > after[i] {
			change.Takes[i] = before[i] - after[i]
		} else if before[i] < after[i] {
			change.Back = uint8(i)
		}
	}
	if err := w.take(kind, it, change, wasOpen); err != nil {
		return err
	}
	record, state := w.now.tenants[w.tenant], w.State()
	isAsEtcd := state.Limit == w.of(record.Limit) && state.Free == after && state.Debt == w.of(record.Debt)
	if !state.IsClosed && !isAsEtcd {
		err = fmt.Errorf("the model is at limit %d, debt %d, free %d, and etcd at %+v, %d free", state.Limit, state.Debt, state.Free, record, after)
	}
	return err
}

// Takes a revision of this kind.
func (w *walking) take(kind string, it *revision, change model.Change, wasOpen bool) error {
	var store string
	var grant *grantRecord
	isOfTenant := false
	for key := range it.changes {
		letter, parts := w.keys.parts(key)
		switch letter {
		case "j":
			store = parts[0]
		case "g":
			store = parts[0]
			if its, isThere := w.now.grants[store][w.tenant]; isThere && parts[1] == w.tenant {
				grant = &its
			}
		}
		isOfTenant = isOfTenant || (letter == "t" || letter == "g") && parts[len(parts)-1] == w.tenant || letter == "t" && parts[0] == w.tenant
	}
	switch {
	case kind == "join":
		return w.joinOnce(store)
	case kind == "mark":
		err := w.advance(store, "", model.Change{})
		if err == nil && w.State().IsClosed {
			err = w.Forget(store, 0)
		}
		return err
	case kind == "generation":
		return w.opened(wasOpen)
	case kind == "register":
		if err := w.joinOnce(store); err != nil || grant == nil {
			return err
		}
		return w.granted(store, grant, model.Change{})
	case kind == "" || !isOfTenant:
		return nil
	case (kind == "limit" || kind == "still") && wasOpen:
		return w.SetLimit(w.of(w.now.tenants[w.tenant].Limit), w.free())
	case w.State().IsClosed:
		// What a restored etcd has carried out before the next generation began is answered to nobody, and counts for
		// nothing.
		return nil
	case kind == "free":
		return w.Forget(store, change.Back)
	case kind == "grant":
		return w.granted(store, grant, change)
	}
	return nil
}

func (w *walking) joinOnce(store string) error {
	if _, err := w.Node(store); err == nil {
		return nil
	}
	return w.Join(store)
}

func (w *walking) granted(store string, grant *grantRecord, change model.Change) error {
	id := fmt.Sprintf("%s/%d", grant.By, grant.Number)
	if err := w.advance(store, id, change); err != nil {
		return err
	}
	return w.Apply(store, id)
}

// The sums were made anew where the cluster is open again. A backup that was made while it was closed is as any other.
func (w *walking) opened(wasOpen bool) error {
	if !w.State().IsClosed || wasOpen || !w.now.isOpen() {
		return nil
	}
	return w.Reopen(w.free())
}

// The stores of a world as they were recorded.
func (w *world) recorded() []*recorded {
	w.t.Helper()
	var all []*recorded
	for _, n := range w.nodes {
		n.mutex.Lock()
		notes := append([]event(nil), n.notes...)
		n.mutex.Unlock()
		all = append(all, w.recordedOf(n.log, notes))
	}
	return all
}

func (w *world) recordedOf(log string, notes []event) *recorded {
	w.t.Helper()
	lines, last, err := linesOf(log)
	if err != nil {
		w.t.Fatal(err)
	}
	store, tenants, err := identityOf(last)
	if err != nil {
		w.t.Fatal(err)
	}
	return &recorded{store, tenants, lines, notes}
}

// Closes all nodes, checks etcd's history at each revision, and takes the run as a walk.
func (w *world) check() map[string]int {
	w.t.Helper()
	for _, n := range w.nodes {
		n.close()
	}
	return w.checkRun(w.recorded())
}

func (w *world) checkRun(stores []*recorded) map[string]int {
	w.t.Helper()
	history := w.history()
	kinds := w.checkHistory(history)
	tenants := map[string]bool{}
	for _, it := range stores {
		for _, tenant := range it.tenants {
			tenants[tenant] = true
		}
	}
	for _, tenant := range sorted(tenants) {
		for name, of := range quantities {
			steps, err := walk(w.operator.keys, history, stores, tenant, of)
			if err != nil {
				w.t.Errorf("tenant %s, %s: after %d steps: %v", tenant, name, steps, err)
			}
			kinds["steps"] += steps
		}
	}
	return kinds
}
