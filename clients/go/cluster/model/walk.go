package model

import "fmt"

// A Walk takes what was seen of a run as steps of the machine, one after the other, for one tenant and one quantity of
// any amounts. Each of its calls is an error where what was seen is no step from where the walk is, or breaks an
// invariant; the walk is at its end then.
//
// Of transactions only those are given that etcd has carried out: one that was lost or void has changed nothing.
type Walk struct {
	// Steps is how many steps of the machine were taken.
	Steps  int
	model  Model
	state  State
	stores map[string]*walker
}

// Where a store is in the state, and its last transaction that was carried out.
type walker struct {
	at                    int
	sent                  string
	isApplied, isAnswered bool
}

// NewWalk begins where there is no store, and a limit of 0. Of a pool in more than MostShards those after the first ones
// are counted as one.
func NewWalk() *Walk {
	return &Walk{
		model: Model{MostSent: MostSent, Rewrites: true, Restores: true}, state: State{Shards: MostShards}, stores: map[string]*walker{},
	}
}

// State is where the walk is, with the stores in the order in which they have joined.
func (w *Walk) State() *State { return &w.state }

// Node is a store.
func (w *Walk) Node(store string) (*Node, error) {
	it := w.stores[store]
	if it == nil {
		return nil, fmt.Errorf("store %s has not joined", store)
	}
	return &w.state.Nodes[it.at], nil
}

func (w *Walk) step(step Step) error {
	if !w.model.May(&w.state, step) {
		return fmt.Errorf("no step of the protocol: %v, with limit %d, granted %d, %+v", step, w.state.Limit, w.state.Granted(), w.node(step))
	}
	granted := w.state.Granted()
	w.model.Do(&w.state, step)
	w.Steps++
	if w.state.isOvergranted(granted) {
		return fmt.Errorf("%v has %d granted above the limit %d in force (I1)", step, w.state.Granted(), w.state.Limit)
	}
	if broken := w.model.Broken(&w.state); broken != "" {
		return fmt.Errorf("after %v: %s", step, broken)
	}
	return nil
}

func (w *Walk) node(step Step) Node {
	if step.Kind == SetLimit || step.Kind == Restore || step.Kind == Reopen {
		return Node{}
	}
	return w.state.Nodes[step.Node]
}

func (w *Walk) at(store string, do func(it *walker, n *Node) error) error {
	it := w.stores[store]
	if it == nil {
		return fmt.Errorf("store %s has not joined", store)
	}
	if err := do(it, &w.state.Nodes[it.at]); err != nil {
		return fmt.Errorf("store %s: %w", store, err)
	}
	return nil
}

func (w *Walk) stepAt(store string, kind Kind, to uint64) error {
	return w.at(store, func(it *walker, n *Node) error { return w.step(Step{Kind: kind, Node: it.at, To: to}) })
}

// Join: a store has joined. It is empty, and not running yet.
func (w *Walk) Join(store string) error {
	if w.stores[store] != nil {
		return fmt.Errorf("store %s has joined before", store)
	}
	w.stores[store] = &walker{at: len(w.state.Nodes)}
	w.state.Nodes = append(w.state.Nodes, Node{})
	return nil
}

// SetLimit: an operator has set the tenant's limit, and divided so what is free.
func (w *Walk) SetLimit(limit uint64, free Shards) error {
	return w.step(Step{Kind: SetLimit, To: limit, Shards: free})
}

// Restore: etcd was restored from a backup, in which the tenant has this limit.
func (w *Walk) Restore(limit uint64) error { return w.step(Step{Kind: Restore, To: limit}) }

// Reopen: an operator has made the sum anew, and divided so what is free.
func (w *Walk) Reopen(free Shards) error { return w.step(Step{Kind: Reopen, Shards: free}) }

// Begin and End: an agent and its store have begun, or ended in any way.
func (w *Walk) Begin(store string) error { return w.stepAt(store, Restart, 0) }

// End is of one that runs.
func (w *Walk) End(store string) error {
	return w.at(store, func(it *walker, n *Node) error {
		it.sent = ""
		return w.step(Step{Kind: Crash, Node: it.at})
	})
}

// A Change is what a transaction takes from each shard, and the shard that gets what it gives back.
type Change struct {
	Takes Shards
	Back  uint8
}

// Send: a transaction of this id was sent, for this grant.
func (w *Walk) Send(store, id string, to uint64, change Change) error {
	return w.at(store, func(it *walker, n *Node) error {
		if err := w.rest(it, n); err != nil {
			return err
		}
		if !n.IsKnown {
			if err := w.step(Step{Kind: Read, Node: it.at}); err != nil {
				return err
			}
		}
		it.sent, it.isApplied, it.isAnswered = id, false, false
		kind := Raise
		if to <= n.Bound {
			kind = Settle
		}
		return w.step(Step{Kind: kind, Node: it.at, To: to, Shards: change.Takes, Back: change.Back})
	})
}

// Apply: etcd has carried it out.
func (w *Walk) Apply(store, id string) error {
	return w.at(store, func(it *walker, n *Node) error {
		if it.sent != id || n.Sents != 1 {
			return fmt.Errorf("transaction %s isn't under way, but %q", id, it.sent)
		}
		it.isApplied = true
		return w.step(Step{Kind: Apply, Node: it.at})
	})
}

// Answer: the agent was told so.
func (w *Walk) Answer(store, id string) error {
	return w.at(store, func(it *walker, n *Node) error {
		if it.sent != id || !it.isApplied {
			return fmt.Errorf("an answer to transaction %s, which wasn't carried out", id)
		}
		it.isAnswered = true
		return nil
	})
}

// Ends the wait for an answer that leads to nothing more.
func (w *Walk) rest(it *walker, n *Node) error {
	switch {
	case n.Phase == Settling && it.isAnswered:
		return w.step(Step{Kind: Answer, Node: it.at})
	case n.Phase == Raising || n.Phase == Settling:
		return w.step(Step{Kind: GiveUp, Node: it.at})
	}
	return nil
}

// Bound: the store's own limit is this now, by its log.
func (w *Walk) Bound(store string, to uint64) error {
	return w.at(store, func(it *walker, n *Node) error {
		switch {
		case to == n.Bound:
			return nil
		case to < n.Bound:
			if err := w.rest(it, n); err != nil {
				return err
			}
			return w.step(Step{Kind: Lower, Node: it.at, To: to})
		case n.Phase == Raising && it.isAnswered:
			if err := w.step(Step{Kind: Answer, Node: it.at}); err != nil {
				return err
			}
		}
		return w.step(Step{Kind: Set, Node: it.at, To: to})
	})
}

// Charged: the store is charged this much now, by its log.
func (w *Walk) Charged(store string, to uint64) error {
	return w.at(store, func(it *walker, n *Node) error {
		switch {
		case to > n.Charged:
			return w.step(Step{Kind: Charge, Node: it.at, To: to - n.Charged})
		case to < n.Charged:
			return w.step(Step{Kind: Remove, Node: it.at, To: n.Charged - to})
		}
		return nil
	})
}

// Forget: an operator has forgotten a store that has ended, and its grant is free in this shard. In a closed tenant the
// empty store that the machine has in its place registers.
func (w *Walk) Forget(store string, back uint8) error {
	return w.at(store, func(it *walker, n *Node) error {
		steps := []Step{{Kind: LoseDisk, Node: it.at}}
		if n.Grant > 0 {
			steps = append(steps, Step{Kind: Forget, Node: it.at, Back: back})
		}
		if w.state.IsClosed {
			for _, kind := range []Kind{Restart, Read, Settle, Apply, Answer, Crash} {
				steps = append(steps, Step{Kind: kind, Node: it.at})
			}
		}
		for _, it := range steps {
			if err := w.step(it); err != nil {
				return err
			}
		}
		return nil
	})
}
