package model

import (
	"strings"
	"testing"

	"pibroulez.example/pibroulez/cluster/rules"
)

// A call of a walk.
type seen struct {
	call, store, id string
	to              uint64
}

// A change of the first shard alone.
func changeOf(w *Walk, store string, to uint64) (change Change) {
	if n, err := w.Node(store); err == nil && to > n.Grant && !w.state.IsClosed {
		change.Takes[0] = to - n.Grant
	}
	return change
}

func take(w *Walk, it seen) error {
	switch it.call {
	case "join":
		return w.Join(it.store)
	case "begin":
		return w.Begin(it.store)
	case "end":
		return w.End(it.store)
	case "limit":
		free, _ := rules.Limited(it.to, w.state.Granted())
		return w.SetLimit(it.to, Shards{free})
	case "restore":
		return w.Restore(it.to)
	case "reopen":
		free, _ := rules.Limited(w.state.Limit, w.state.grants())
		return w.Reopen(Shards{free})
	case "send":
		return w.Send(it.store, it.id, it.to, changeOf(w, it.store, it.to))
	case "apply":
		return w.Apply(it.store, it.id)
	case "answer":
		return w.Answer(it.store, it.id)
	case "bound":
		return w.Bound(it.store, it.to)
	case "charged":
		return w.Charged(it.store, it.to)
	}
	return w.Forget(it.store, 0)
}

// The first store is granted 100 of 100, and has 60 charged.
var begun = []seen{
	{"limit", "", "", 100},
	{"join", "one", "", 0}, {"begin", "one", "", 0}, {"join", "two", "", 0}, {"begin", "two", "", 0},
	{"send", "one", "1", 100}, {"apply", "one", "1", 0}, {"answer", "one", "1", 0}, {"bound", "one", "", 100},
	{"charged", "one", "", 60},
}

func TestWalks(t *testing.T) {
	for name, it := range map[string]struct {
		more []seen
		// A part of the words of the last call's error, or empty.
		why string
	}{
		"given back and taken by the other": {[]seen{
			{"bound", "one", "", 60}, {"send", "one", "2", 60}, {"apply", "one", "2", 0}, {"answer", "one", "2", 0},
			{"send", "two", "1", 40}, {"apply", "two", "1", 0}, {"answer", "two", "1", 0}, {"bound", "two", "", 40}, {"charged", "two", "", 40},
			{"charged", "one", "", 10}, {"limit", "", "", 20},
		}, ""},
		"a crash between the answer and the limit": {[]seen{
			{"bound", "one", "", 60}, {"send", "one", "2", 60}, {"apply", "one", "2", 0},
			{"send", "two", "1", 40}, {"apply", "two", "1", 0}, {"end", "two", "", 0}, {"begin", "two", "", 0},
			{"send", "two", "2", 0}, {"apply", "two", "2", 0}, {"send", "one", "3", 100}, {"apply", "one", "3", 0},
		}, ""},
		"forgotten": {[]seen{{"end", "one", "", 0}, {"forget", "one", "", 0}, {"send", "two", "1", 100}, {"apply", "two", "1", 0}}, ""},
		"a late lowering, and a limit that is raised without a write": {[]seen{
			{"bound", "one", "", 60}, {"send", "one", "2", 60}, {"bound", "one", "", 100},
		}, "no step of the protocol: set 100"},
		"a raise before its answer": {[]seen{
			{"bound", "one", "", 60}, {"send", "one", "2", 60}, {"apply", "one", "2", 0},
			{"send", "two", "1", 40}, {"apply", "two", "1", 0}, {"bound", "two", "", 40},
		}, "no step of the protocol: set 40"},
		"lowered in etcd first":         {[]seen{{"send", "one", "2", 60}}, "no step of the protocol: settle 60"},
		"granted above the limit":       {[]seen{{"send", "two", "1", 1}}, "no step of the protocol: raise 1"},
		"charged above the limit":       {[]seen{{"charged", "one", "", 101}}, "no step of the protocol: charge 41"},
		"limited below the charge":      {[]seen{{"bound", "one", "", 59}}, "no step of the protocol: lower 59"},
		"an answer that never came":     {[]seen{{"send", "one", "2", 100}, {"answer", "one", "2", 0}}, "wasn't carried out"},
		"a transaction that nobody has": {[]seen{{"apply", "one", "2", 0}}, "isn't under way"},
		"forgotten while it runs":       {[]seen{{"forget", "one", "", 0}}, "no step of the protocol: lose disk"},
		"restored, registered and reopened": {[]seen{
			{"restore", "", "", 80}, {"send", "one", "2", 100}, {"apply", "one", "2", 0}, {"send", "two", "1", 0}, {"apply", "two", "1", 0},
			{"reopen", "", "", 0}, {"bound", "one", "", 60}, {"send", "one", "3", 60}, {"apply", "one", "3", 0},
			{"send", "two", "2", 20}, {"apply", "two", "2", 0}, {"answer", "two", "2", 0}, {"bound", "two", "", 20},
		}, ""},
		"restored, forgotten and reopened": {[]seen{
			{"restore", "", "", 100}, {"send", "two", "1", 0}, {"apply", "two", "1", 0}, {"end", "one", "", 0}, {"forget", "one", "", 0},
			{"reopen", "", "", 0}, {"send", "two", "2", 100}, {"apply", "two", "2", 0}, {"answer", "two", "2", 0}, {"bound", "two", "", 100},
		}, ""},
		"reopened without all":          {[]seen{{"restore", "", "", 100}, {"reopen", "", "", 0}}, "no step of the protocol: reopen"},
		"raised after a restore":        {[]seen{{"restore", "", "", 200}, {"send", "two", "1", 40}}, "no step of the protocol: raise 40"},
		"granted before, applied after": {[]seen{{"send", "one", "2", 100}, {"restore", "", "", 100}, {"apply", "one", "2", 0}}, "isn't under way"},
		"raised while there is a debt":  {[]seen{{"limit", "", "", 50}, {"bound", "one", "", 60}, {"send", "one", "2", 60}, {"apply", "one", "2", 0}, {"send", "two", "1", 1}}, "no step of the protocol: raise 1"},
		"not joined":                    {[]seen{{"charged", "three", "", 1}}, "has not joined"},
	} {
		t.Run(name, func(t *testing.T) {
			w := NewWalk()
			all := append(append([]seen(nil), begun...), it.more...)
			for i, call := range all {
				err := take(w, call)
				isLast := i == len(all)-1
				if err == nil && (!isLast || it.why == "") {
					continue
				}
				if !isLast || it.why == "" || err == nil || !strings.Contains(err.Error(), it.why) {
					t.Fatalf("%+v: %v, not %q", call, err, it.why)
				}
			}
			if it.why == "" && w.Steps < len(begun) {
				t.Errorf("%d steps", w.Steps)
			}
		})
	}
}
