package model

import "fmt"

// A Search is of all states that a few stores and small limits have.
type Search struct {
	Model  Model
	Nodes  int
	Limits []uint64
	// Shards is how many the pool has: one where it is 0.
	Shards uint8
}

// A Found is what a search has found.
type Found struct {
	States, Steps int
	// Kinds is how many steps of each kind there are.
	Kinds map[Kind]int
	// Broken is the invariant that the last state of Path breaks, or empty.
	Broken string
	// Path leads from the first state there, in words.
	Path []string
	// The states in the order in which they were found.
	states []reached
	seen   map[key]struct{}
}

// MostNodes is how many stores a search may have, and MostAmount the greatest limit.
const (
	MostNodes  = 4
	MostAmount = 7
)

// A state in few bits, its stores in one order: states that differ in their order are one.
type key [1 + MostNodes]uint64

// A state, and by which step of which state before it was found.
type reached struct {
	key
	from int
	step Step
}

// Run goes through all states, or until one breaks an invariant.
func (s *Search) Run() (*Found, error) {
	if s.Nodes > MostNodes || s.Model.MostSent > 2 || s.most() > MostAmount {
		return nil, fmt.Errorf("a search of %d stores with limits to %d is too large", s.Nodes, s.most())
	}
	shards := s.Shards
	if shards == 0 {
		shards = 1
	}
	first := State{Limit: s.most(), Shards: shards, Nodes: make([]Node, s.Nodes)}
	first.Free = first.Divided(s.most(), 0)
	for i := range first.Nodes {
		first.Nodes[i] = NewNode()
	}
	begin := keyOf(&first)
	found := &Found{Kinds: map[Kind]int{}, states: []reached{{key: begin}}, seen: map[key]struct{}{begin: {}}}
	state, after := State{Nodes: make([]Node, s.Nodes)}, State{Nodes: make([]Node, s.Nodes)}
	for from := 0; from < len(found.states) && found.Broken == ""; from++ {
		found.states[from].state(&state)
		s.steps(&state, func(step Step) bool {
			nodes := after.Nodes
			copy(nodes, state.Nodes)
			after = state
			after.Nodes = nodes
			s.Model.Do(&after, step)
			s.look(found, from, &state, step, &after)
			return found.Broken == ""
		})
	}
	found.States = len(found.states)
	return found, nil
}

// Looks at where a step leads to.
func (s *Search) look(found *Found, from int, state *State, step Step, after *State) {
	found.Steps++
	found.Kinds[step.Kind]++
	to := keyOf(after)
	if _, isSeen := found.seen[to]; !isSeen {
		found.seen[to] = struct{}{}
		found.states = append(found.states, reached{to, from, step})
		found.Broken = s.Model.Broken(after)
	}
	if after.isOvergranted(state.Granted()) {
		found.Broken = "more is granted than the limit in force (I1)"
	}
	if found.Broken != "" {
		found.Path = found.path(from, step, after)
	}
}

func (s *Search) most() uint64 {
	most := uint64(0)
	for _, it := range s.Limits {
		if it > most {
			most = it
		}
	}
	return most
}

// Calls a function with each step that a state has, until it answers false.
func (s *Search) steps(state *State, do func(Step) bool) {
	try := func(step Step) bool { return !s.Model.May(state, step) || do(step) }
	for i := range state.Nodes {
		if i > 0 && state.Nodes[i] == state.Nodes[i-1] {
			continue
		}
		if !s.nodeSteps(state, i, try) {
			return
		}
	}
	for _, limit := range s.Limits {
		free := state.Divided(limit, state.Granted())
		if !try(Step{Kind: SetLimit, To: limit, Shards: free}) || !try(Step{Kind: Restore, To: limit}) {
			return
		}
	}
	if s.Model.Rewrites && !try(Step{Kind: SetLimit, To: state.Limit, Shards: state.Free}) {
		return
	}
	try(Step{Kind: Reopen, Shards: state.Divided(state.Limit, state.grants())})
}

func (s *Search) nodeSteps(state *State, i int, try func(Step) bool) bool {
	n := &state.Nodes[i]
	for _, kind := range []Kind{Crash, Restart, LoseDisk, Read, GiveUp, Answer, ForgetLive} {
		if !try(Step{Kind: kind, Node: i}) {
			return false
		}
	}
	for back := uint8(0); back < state.Shards; back++ {
		if !try(Step{Kind: Forget, Node: i, Back: back}) {
			return false
		}
	}
	for _, kind := range []Kind{Charge, Remove} {
		if !try(Step{Kind: kind, Node: i, To: 1}) {
			return false
		}
	}
	for to := uint64(0); to <= s.most()+n.Grant; to++ {
		if !try(Step{Kind: Lower, Node: i, To: to}) || !s.raises(state, i, to, try) {
			return false
		}
		for back := uint8(0); back < state.Shards; back++ {
			if !try(Step{Kind: Settle, Node: i, To: to, Back: back}) {
				return false
			}
		}
		if s.Model.Wrong == Unwritten && n.Phase == Idle && !try(Step{Kind: Set, Node: i, To: to}) {
			return false
		}
	}
	if n.Phase == Raised && !try(Step{Kind: Set, Node: i, To: n.To}) {
		return false
	}
	if n.Bound < s.most() && !try(Step{Kind: OldLog, Node: i, To: n.Bound + 1}) {
		return false
	}
	for index := 0; index < int(n.Sents); index++ {
		if index > 0 && n.Sent[index] == n.Sent[index-1] {
			continue
		}
		if !try(Step{Kind: Lose, Node: i, Index: index}) || !try(Step{Kind: Apply, Node: i, Index: index}) {
			return false
		}
	}
	return true
}

// Each way to take what a raise needs from the shards, or to give back what it doesn't.
func (s *Search) raises(state *State, i int, to uint64, try func(Step) bool) bool {
	grant := state.Nodes[i].Grant
	if to <= grant {
		for back := uint8(0); back < state.Shards; back++ {
			if !try(Step{Kind: Raise, Node: i, To: to, Back: back}) {
				return false
			}
		}
		return true
	}
	most := uint64(0)
	if state.Shards > 1 {
		most = to - grant
	}
	for second := uint64(0); second <= most; second++ {
		if !try(Step{Kind: Raise, Node: i, To: to, Shards: Shards{to - grant - second, second}}) {
			return false
		}
	}
	return true
}

func (n *Node) code() uint64 {
	code := bit(n.IsUp) | n.Charged<<1 | n.Bound<<4 | n.Grant<<7 | n.Lost<<10 | uint64(n.Phase)<<13 | n.To<<15
	code |= bit(n.IsKnown)<<18 | bit(n.IsReplied)<<19 | bit(n.IsRegistered)<<20
	for i, it := range n.Sent[:n.Sents] {
		sent := 1 | it.Grant<<1 | bit(it.IsAwaited)<<4 | bit(it.IsOfLost)<<5 | it.Sum<<6 | it.Takes[0]<<12 | it.Takes[1]<<15 | uint64(it.Back)<<18
		code |= sent << (firstSent + sentBits*i)
	}
	return code
}

// Where the transactions of a node are in its code, and how many bits each has.
const (
	firstSent = 21
	sentBits  = 19
)

func (n *Node) decode(code uint64) {
	has := func(at int) bool { return code>>at&1 == 1 }
	amount := func(at int) uint64 { return code >> at & MostAmount }
	*n = Node{
		IsUp: has(0), Charged: amount(1), Bound: amount(4), Grant: amount(7), Lost: amount(10),
		Phase: Phase(code >> 13 & 3), To: amount(15), IsKnown: has(18), IsReplied: has(19), IsRegistered: has(20),
	}
	for at := firstSent; has(at); at += sentBits {
		n.Sent[n.Sents] = Transaction{
			Grant: amount(at + 1), IsAwaited: has(at + 4), IsOfLost: has(at + 5), Sum: code >> (at + 6) & 63,
			Takes: Shards{amount(at + 12), amount(at + 15)}, Back: uint8(code >> (at + 18) & 1),
		}
		n.Sents++
	}
}

func keyOf(s *State) key {
	k := key{s.Limit | s.Debt<<8 | s.Before<<16 | s.Free[0]<<24 | s.Free[1]<<32 | bit(s.IsClosed)<<40 | uint64(s.Shards)<<41}
	for i := range s.Nodes {
		code := s.Nodes[i].code()
		at := i + 1
		for ; at > 1 && k[at-1] > code; at-- {
			k[at] = k[at-1]
		}
		k[at] = code
	}
	return k
}

func (k key) state(s *State) {
	amount := func(at int) uint64 { return k[0] >> at & 0xff }
	s.Limit, s.Debt, s.Before, s.Free = amount(0), amount(8), amount(16), Shards{amount(24), amount(32)}
	s.IsClosed, s.Shards = k[0]>>40&1 == 1, uint8(k[0]>>41)
	for i := range s.Nodes {
		s.Nodes[i].decode(k[i+1])
	}
}

// The way to a state, from the first one.
func (f *Found) path(from int, last Step, after *State) []string {
	words := []string{wordsOf(last, after)}
	state := State{Nodes: make([]Node, len(after.Nodes))}
	for at := f.states[from]; at.step != (Step{}); at = f.states[at.from] {
		at.state(&state)
		words = append([]string{wordsOf(at.step, &state)}, words...)
	}
	return words
}

func wordsOf(step Step, s *State) string {
	text := fmt.Sprintf("%-10s limit %d, granted %d", step.Kind, s.Limit, s.Granted())
	if s.IsClosed {
		text += ", closed"
	}
	for i := range s.Nodes {
		n := &s.Nodes[i]
		text += fmt.Sprintf("; charged %d of %d, grant %d, lost %d, sent", n.Charged, n.Bound, n.Grant, n.Lost)
		for _, it := range n.Sent[:n.Sents] {
			text += fmt.Sprintf(" %d", it.Grant)
		}
	}
	return text
}
