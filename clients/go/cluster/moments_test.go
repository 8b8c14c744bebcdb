package cluster

import (
	"container/heap"
	"fmt"
	"math"
	"sort"
	"testing"
)

// At each moment of a run: the sum over all nodes of the most that may have been charged is within the limit.
//
// A node's log has the order of its calls, and what is charged after each. Its notes have when a call was about to be
// made and when it was answered. The state after line k was the node's within [E(k), L(k')], where E(k) is when the last
// of the calls up to k was about to be made, k' is the tenant's next line, and L(k') when the first of the calls from k'
// on was answered. At a moment a node counts with the greatest of its possible states.

// A call, as it was noted.
type chaosCall struct {
	made, answered int64
	isAnswered     bool
}

// Later than each moment.
const never = math.MaxInt64

// The calls by their tags, each in the order in which they were made, and when the node's disk was lost.
func callsOf(notes []chaosNote) (calls map[string][]*chaosCall, end int64) {
	calls, end = map[string][]*chaosCall{}, never
	open := map[string]*chaosCall{}
	for _, it := range notes {
		tag := it.Tag
		if it.Kind == limiting || it.Kind == limited {
			tag = limitTag(it.Tenant, it.To)
		}
		switch it.Kind {
		case calling, limiting:
			open[tag] = &chaosCall{made: it.At, answered: never}
			calls[tag] = append(calls[tag], open[tag])
		case called, limited:
			if call := open[tag]; call != nil {
				call.answered, call.isAnswered = it.At, true
				delete(open, tag)
			}
		case begun:
			// What the process before had no answer to is over.
			for _, call := range open {
				call.answered = it.At
			}
			open = map[string]*chaosCall{}
		case lostDisk:
			end = it.At
		}
	}
	return calls, end
}

func limitTag(tenant string, to Usage) string { return fmt.Sprintf("limit/%s/%v", tenant, to) }

func (l *logLine) tag() string {
	switch {
	case l.isFull:
	case l.do == "limit":
		return limitTag(l.tenant, l.to)
	case l.do == "prepare" || l.do == "charge" || l.do == "commit" || l.do == "discard" || l.do == "remove":
		return l.do + "/" + l.tenant + "/" + l.key
	}
	return ""
}

// The call of each line, or nil of one that changes no charge. Of calls without an answer as many are in the log as it
// has lines more.
func callsOfLines(lines []logLine, calls map[string][]*chaosCall) ([]*chaosCall, error) {
	count := map[string]int{}
	for i := range lines {
		count[lines[i].tag()]++
	}
	delete(count, "")
	for tag, want := range count {
		var kept, rest []*chaosCall
		for _, it := range calls[tag] {
			if it.isAnswered {
				kept = append(kept, it)
			} else {
				rest = append(rest, it)
			}
		}
		more := want - len(kept)
		if more < 0 || more > len(rest) {
			return nil, fmt.Errorf("%s: %d lines, %d calls answered and %d not", tag, want, len(kept), len(rest))
		}
		kept = append(kept, rest[:more]...)
		sort.Slice(kept, func(i, j int) bool { return kept[i].made < kept[j].made })
		calls[tag] = kept
	}
	for tag, all := range calls {
		if count[tag] == 0 {
			for _, it := range all {
				if it.isAnswered {
					return nil, fmt.Errorf("%s was answered, and isn't in the log", tag)
				}
			}
		}
	}
	ofLines := make([]*chaosCall, len(lines))
	for i := range lines {
		if tag := lines[i].tag(); tag != "" {
			ofLines[i] = calls[tag][0]
			calls[tag] = calls[tag][1:]
		}
	}
	return ofLines, nil
}

// When a store may have been charged this much.
type interval struct {
	from, to int64
	charged  Usage
}

func intervalsOf(lines []logLine, calls []*chaosCall, end int64, tenant string) []interval {
	latest := make([]int64, len(lines)+1)
	latest[len(lines)] = end
	for i := len(lines) - 1; i >= 0; i-- {
		latest[i] = latest[i+1]
		if calls[i] != nil && calls[i].answered < latest[i] {
			latest[i] = calls[i].answered
		}
	}
	var all []interval
	made := int64(0)
	for i := range lines {
		if calls[i] != nil && calls[i].made > made {
			made = calls[i].made
		}
		if lines[i].tenant != tenant {
			continue
		}
		if len(all) > 0 {
			all[len(all)-1].to = latest[i]
		}
		all = append(all, interval{made, end, lines[i].charged})
	}
	return all
}

// The greatest sum of the greatest charges that the stores may have had at one moment.
func greatestSum(stores [][]interval, of quantity) uint64 {
	type start struct {
		at    int64
		store int
	}
	var starts []start
	for store, all := range stores {
		for _, it := range all {
			starts = append(starts, start{it.from, store})
		}
	}
	sort.SliceStable(starts, func(i, j int) bool { return starts[i].at < starts[j].at })
	next, tops, possible := make([]int, len(stores)), make([]uint64, len(stores)), make([]most, len(stores))
	var ends ends
	sum, greatest := uint64(0), uint64(0)
	renew := func(store int, now int64) {
		for len(possible[store]) > 0 && possible[store][0].to < now {
			heap.Pop(&possible[store])
		}
		top := uint64(0)
		if len(possible[store]) > 0 {
			top = possible[store][0].charged
		}
		sum = sum - tops[store] + top
		tops[store] = top
	}
	for i, it := range starts {
		now := stores[it.store][next[it.store]]
		next[it.store]++
		heap.Push(&possible[it.store], chargedUntil{of(now.charged), now.to, it.store})
		heap.Push(&ends, chargedUntil{of(now.charged), now.to, it.store})
		renew(it.store, it.at)
		for ends.Len() > 0 && ends.most[0].to < it.at {
			renew(heap.Pop(&ends).(chargedUntil).store, it.at)
		}
		if (i+1 == len(starts) || starts[i+1].at > it.at) && sum > greatest {
			greatest = sum
		}
	}
	return greatest
}

type chargedUntil struct {
	charged uint64
	to      int64
	store   int
}

// The greatest charge first.
type most []chargedUntil

func (m most) Len() int           { return len(m) }
func (m most) Less(i, j int) bool { return m[i].charged > m[j].charged }
func (m most) Swap(i, j int)      { m[i], m[j] = m[j], m[i] }
func (m *most) Push(it any)       { *m = append(*m, it.(chargedUntil)) }
func (m *most) Pop() any {
	last := (*m)[len(*m)-1]
	*m = (*m)[:len(*m)-1]
	return last
}

// The first end first.
type ends struct{ most }

func (e ends) Less(i, j int) bool { return e.most[i].to < e.most[j].to }

// The tenants whose limit never changed.
func (c *chaos) checkMoments(lives []lived) {
	var all []func(tenant string) []interval
	for _, it := range lives {
		lines := it.lines
		calls, end := callsOf(it.all)
		ofLines, err := callsOfLines(lines, calls)
		if err != nil {
			c.t.Errorf("store %s: %v", it.store, err)
			continue
		}
		c.counts["lines"] += len(lines)
		all = append(all, func(tenant string) []interval { return intervalsOf(lines, ofLines, end, tenant) })
	}
	for _, tenant := range c.tenants[:c.fixed] {
		var stores [][]interval
		for _, it := range all {
			stores = append(stores, it(tenant))
		}
		sum := usage(greatestSum(stores, quantities["blocks"]), greatestSum(stores, quantities["inodes"]))
		if !covers(c.limit, sum) {
			c.t.Errorf("tenant %s may have been charged %v of %v at one moment", tenant, sum, c.limit)
		}
		c.greatest = greater(c.greatest, sum)
	}
}

func greater(a, b Usage) Usage { return plus(minus(a, b), b) }

// The check finds what is over: a charge that was made before the room it takes was given back elsewhere.
func TestMoments(t *testing.T) {
	log := []logLine{
		{do: "charge", tenant: "a", key: "k", charged: usage(60, 1)},
		{do: "prepare", tenant: "b", key: "k", charged: usage(1, 1)},
		{do: "discard", tenant: "a", key: "k"},
	}
	call := func(made, answered int64) *chaosCall { return &chaosCall{made, answered, true} }
	given := intervalsOf(log, []*chaosCall{call(10, 20), call(25, 27), call(30, 40)}, never, "a")
	equal(t, given, []interval{{10, 40, usage(60, 1)}, {30, never, Usage{}}})
	for _, it := range []struct {
		made int64
		want uint64
	}{{41, 60}, {40, 110}, {5, 110}} {
		taken := intervalsOf(log[:1], []*chaosCall{call(it.made, it.made+5)}, never, "a")
		taken[0].charged = usage(50, 1)
		got := greatestSum([][]interval{given, taken}, quantities["blocks"])
		equal(t, got, it.want)
	}
	// Of two calls without an answer one was carried out: the log has it once.
	calls, _ := callsOf([]chaosNote{
		{event: event{Kind: calling}, Tag: "charge/a/k", At: 1}, {event: event{Kind: begun}, At: 5}, {event: event{Kind: calling}, Tag: "charge/a/k", At: 6},
	})
	ofLines, err := callsOfLines(log[:1], calls)
	if err != nil {
		t.Fatal(err)
	}
	equal(t, *ofLines[0], chaosCall{1, 5, false})
	calls, _ = callsOf([]chaosNote{{event: event{Kind: calling}, Tag: "charge/a/l"}, {event: event{Kind: called}, Tag: "charge/a/l"}})
	if _, err := callsOfLines(nil, calls); err == nil {
		t.Error("an answered call that isn't in the log is taken")
	}
}

// The checks of a run find a sum above the limit, a writer that isn't one of the four, and notes that aren't those of the
// log.
func TestChecksFind(t *testing.T) {
	for _, it := range []struct {
		old, now, limit uint64
		isOver          bool
	}{{9, 11, 10, true}, {9, 10, 10, false}, {11, 10, 5, false}, {10, 11, 5, true}} {
		if why := overgranted(usage(it.old, 0), usage(it.now, 0), usage(it.limit, 0)); (why != "") != it.isOver {
			t.Errorf("%+v: %q", it, why)
		}
	}
	keys := keys{"/p"}
	for _, it := range []struct {
		changes map[string][]byte
		kind    string
		isNone  bool
	}{
		{map[string][]byte{"/p/t/a/0": {1}, "/p/g/s/a": {1}}, "grant", false},
		{map[string][]byte{"/p/t/a": {1}, "/p/t/a/0": {1}, "/p/t/a/1": {1}, "/p/g/s/a": {1}}, "grant", false},
		{map[string][]byte{"/p/t/a": {1}, "/p/t/a/0": {1}, "/p/t/a/1": nil}, "limit", false},
		{map[string][]byte{"/p/t/a/0": {1}, "/p/g/s/a": nil}, "free", false}, {map[string][]byte{"/p/a/s": {1}}, "", false},
		{map[string][]byte{"/p/j/s": {1}, "/p/g/s/a": {1}, "/p/g/s/b": {1}}, "register", false},
		{map[string][]byte{"/p/g/s/a": {1}}, "", true}, {map[string][]byte{"/p/t/a": nil}, "", true}, {map[string][]byte{"/p/t/a": {1}}, "still", false},
		{map[string][]byte{"/p/j/s": nil}, "", true}, {map[string][]byte{"/p/t/a/0": {1}, "/p/t/b/0": {1}, "/p/g/s/a": {1}}, "", true},
		{map[string][]byte{"/p/t/a/0": {1}, "/p/g/r/a": {1}, "/p/g/s/a": {1}}, "", true},
	} {
		revision := revision{1, it.changes}
		if kind, err := revision.kind(keys); kind != it.kind || (err != nil) != it.isNone {
			t.Errorf("%v: %q, %v", it.changes, kind, err)
		}
	}
	limits := []logLine{{do: "limit", tenant: "a", to: usage(5, 5), bound: usage(5, 5)}}
	begin := event{Kind: begun}
	limit := []event{{Kind: limiting, Tenant: "a", To: usage(5, 5)}, {Kind: limited, Tenant: "a", To: usage(5, 5)}}
	for name, it := range map[string]struct {
		run   recorded
		isBad bool
	}{
		"answered and there":         {recorded{lines: limits, notes: append([]event{begin}, limit...)}, false},
		"answered and not there":     {recorded{notes: append([]event{begin}, limit...)}, true},
		"not answered and there":     {recorded{lines: limits, notes: []event{begin, limit[0]}}, false},
		"not answered and not there": {recorded{notes: []event{begin, limit[0]}}, false},
		"there and by nobody":        {recorded{lines: limits, notes: []event{begin}}, true},
		"another value":              {recorded{lines: limits, notes: []event{begin, {Kind: limiting, Tenant: "a"}}}, true},
	} {
		if _, err := it.run.moments("a"); (err != nil) != it.isBad {
			t.Errorf("%s: %v", name, err)
		}
	}
}
