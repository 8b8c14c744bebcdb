package door

import (
	"bytes"
	"encoding/json"
	"sync"
	"sync/atomic"

	"pibroulez.example/pibroulez"
)

// Counts are a door's, since it began, and what it has now.
type Counts struct {
	// Connections are those that are open, and Lines those that were read.
	Connections int
	Lines       uint64
	// Refusals are the store's and the door's, by their names. Faults are lines that the store took for no command.
	Refusals map[pibroulez.Reason]uint64
	Faults   uint64
}

type counters struct {
	lines, faults atomic.Uint64
	mutex         sync.Mutex
	refusals      map[pibroulez.Reason]uint64
}

func newCounters() counters { return counters{refusals: map[pibroulez.Reason]uint64{}} }

func (c *counters) refuse(name pibroulez.Reason) {
	c.mutex.Lock()
	defer c.mutex.Unlock()
	c.refusals[name]++
}

// Counts what an answer of the store refuses.
func (c *counters) answer(text []byte) {
	if bytes.HasPrefix(text, []byte(`{"fault":`)) {
		c.faults.Add(1)
	}
	var refusal struct {
		Error pibroulez.Reason `json:"error"`
	}
	if bytes.HasPrefix(text, []byte(`{"error":`)) && json.Unmarshal(text, &refusal) == nil {
		c.refuse(refusal.Error)
	}
}

// Counts tells the counts.
func (d *Door) Counts() Counts {
	counts := Counts{Lines: d.counters.lines.Load(), Faults: d.counters.faults.Load(), Refusals: map[pibroulez.Reason]uint64{}}
	d.mutex.Lock()
	counts.Connections = len(d.open)
	d.mutex.Unlock()
	d.counters.mutex.Lock()
	defer d.counters.mutex.Unlock()
	for name, count := range d.counters.refusals {
		counts.Refusals[name] = count
	}
	return counts
}
