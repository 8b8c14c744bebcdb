package model

import (
	"os"
	"testing"

	"pibroulez.example/pibroulez/cluster/rules"
)

func search(t *testing.T, model Model, nodes int, limits ...uint64) *Found {
	t.Helper()
	return searchShards(t, model, 1, nodes, limits...)
}

func searchShards(t *testing.T, model Model, shards uint8, nodes int, limits ...uint64) *Found {
	t.Helper()
	if model.MostSent == 0 {
		model.MostSent = 2
	}
	search := Search{model, nodes, limits, shards}
	found, err := search.Run()
	if err != nil {
		t.Fatal(err)
	}
	return found
}

// No state breaks an invariant. The counts of states and of steps are those of a model of the same steps that was written
// apart, in another language.
func TestAllStates(t *testing.T) {
	t.Parallel()
	for _, it := range []struct {
		nodes         int
		limits        []uint64
		sent          uint8
		states, steps int
		isLong        bool
	}{
		{2, []uint64{1, 2}, 2, 20_589, 188_501, false},
		{2, []uint64{1, 2, 3}, 2, 195_661, 2_154_068, false},
		{3, []uint64{1, 2}, 2, 286_889, 3_869_381, false},
		{3, []uint64{1, 2, 3}, 1, 589_356, 0, true},
		{4, []uint64{1, 2}, 1, 246_585, 0, true},
	} {
		if it.isLong && os.Getenv("PIBROULEZ_KILLS") == "" {
			continue
		}
		found := search(t, Model{MostSent: it.sent}, it.nodes, it.limits...)
		if found.Broken != "" || found.States != it.states || it.steps > 0 && found.Steps != it.steps {
			t.Errorf("%+v: %d states, %d steps, %s", it, found.States, found.Steps, found.Broken)
		}
		hasAllKinds(t, found, false)
	}
}

// Whether there is a step of each kind.
func hasAllKinds(t *testing.T, found *Found, restores bool) {
	t.Helper()
	for kind := Charge; kind <= Set; kind++ {
		if isOfRestores := kind == Restore || kind == Reopen; found.Kinds[kind] == 0 && (restores || !isOfRestores) {
			t.Errorf("no step is %q", kind)
		}
	}
}

// Nor of a pool in two shards.
func TestShards(t *testing.T) {
	t.Parallel()
	for _, it := range []struct {
		nodes  int
		limits []uint64
		sent   uint8
		isLong bool
	}{
		{2, []uint64{1, 2}, 1, false}, {2, []uint64{1, 2}, 2, true}, {2, []uint64{1, 2, 3}, 2, true}, {3, []uint64{1, 2}, 1, true},
	} {
		if it.isLong && os.Getenv("PIBROULEZ_KILLS") == "" {
			continue
		}
		found := searchShards(t, Model{MostSent: it.sent}, 2, it.nodes, it.limits...)
		t.Logf("%+v: %d states, %d steps", it, found.States, found.Steps)
		if found.Broken != "" {
			t.Errorf("%+v: %s", it, found.Broken)
			for _, line := range found.Path {
				t.Log(line)
			}
		}
		hasAllKinds(t, found, false)
	}
}

// Nor where etcd is restored from a backup, as often as there is.
func TestRestores(t *testing.T) {
	t.Parallel()
	for _, it := range []struct {
		shards uint8
		nodes  int
		limits []uint64
		sent   uint8
		isLong bool
	}{
		{1, 2, []uint64{1, 2}, 1, false}, {2, 2, []uint64{1, 2}, 1, false}, {1, 2, []uint64{1, 2}, 2, true},
		{1, 2, []uint64{1, 2, 3}, 2, true}, {2, 2, []uint64{1, 2}, 2, true}, {1, 3, []uint64{1, 2}, 1, true},
	} {
		if it.isLong && os.Getenv("PIBROULEZ_KILLS") == "" {
			continue
		}
		found := searchShards(t, Model{MostSent: it.sent, Restores: true}, it.shards, it.nodes, it.limits...)
		t.Logf("%+v: %d states, %d steps", it, found.States, found.Steps)
		if found.Broken != "" {
			t.Errorf("%+v: %s", it, found.Broken)
			for _, line := range found.Path {
				t.Log(line)
			}
		}
		hasAllKinds(t, found, true)
	}
}

// Nor where a store settles whose grant is its own limit, as the steps of the other quantity are in a walk.
func TestRewrites(t *testing.T) {
	t.Parallel()
	found := search(t, Model{Rewrites: true}, 2, 1, 2)
	if found.Broken != "" || found.States <= 20_589 {
		t.Errorf("%d states, %s", found.States, found.Broken)
	}
}

// Nor where what is free is divided anew at any time, as by a store that was hindered: as a limit that is set to what it is.
func TestDivisions(t *testing.T) {
	t.Parallel()
	for _, it := range []struct {
		limits   []uint64
		sent     uint8
		restores bool
		isLong   bool
	}{{[]uint64{1, 2}, 1, false, false}, {[]uint64{1, 2}, 2, false, true}, {[]uint64{2, 3}, 1, true, true}} {
		if it.isLong && os.Getenv("PIBROULEZ_KILLS") == "" {
			continue
		}
		found := searchShards(t, Model{MostSent: it.sent, Rewrites: true, Restores: it.restores}, 2, 2, it.limits...)
		t.Logf("%+v: %d states, %d steps", it, found.States, found.Steps)
		divided := 0
		for _, to := range found.states {
			if to.step.Kind == SetLimit && to.from > 0 {
				var before State
				before.Nodes = make([]Node, 2)
				found.states[to.from].state(&before)
				if before.Limit == to.step.To && before.Free != to.step.Shards {
					divided++
				}
			}
		}
		if found.Broken != "" || divided == 0 {
			t.Errorf("%+v: %d divisions, %s", it, divided, found.Broken)
		}
	}
}

// Each variant passes what was granted, on two stores and with limits of 1 and 2.
func TestWrong(t *testing.T) {
	for name, it := range map[string]struct {
		model  Model
		shards uint8
	}{
		"the store's own limit first":         {Model{Wrong: LocalFirst}, 1},
		"no write where the grant suffices":   {Model{Wrong: Unwritten}, 1},
		"lowered in etcd first":               {Model{Wrong: EtcdFirst}, 1},
		"the grant's key alone is compared":   {Model{Wrong: KeyAlone}, 1},
		"a running store is forgotten":        {Model{Wrong: LiveForgotten}, 1},
		"a log goes back in time":             {Model{Wrong: LogGoesBack}, 1},
		"a debt isn't paid first":             {Model{Wrong: DebtUnpaid}, 2},
		"a debt is paid twice":                {Model{Wrong: RecordAlone}, 2},
		"a restore isn't seen":                {Model{Wrong: RestoreUnseen, Restores: true}, 1},
		"reopened before all have registered": {Model{Wrong: ReopenedEarly, Restores: true}, 1},
		"the generation isn't compared":       {Model{Wrong: GenerationAlone, Restores: true}, 1},
	} {
		t.Run(name, func(t *testing.T) {
			found := searchShards(t, it.model, it.shards, 2, 1, 2)
			if found.Broken == "" {
				t.Fatalf("not caught in %d states", found.States)
			}
			t.Logf("caught after %d states: %s", found.States, found.Broken)
			for _, it := range found.Path {
				t.Log(it)
			}
		})
	}
}

// Whatever an agent's decision takes from a state is a step of the machine: each amount that a store could lack, with
// each batch and share.
func TestDecisionsAreSteps(t *testing.T) {
	found, model := searchShards(t, Model{MostSent: 1}, 2, 2, 1, 2), Model{MostSent: 2}
	state := State{Nodes: make([]Node, 2)}
	looked := 0
	for i := range found.states {
		found.states[i].state(&state)
		for i := range state.Nodes {
			n := &state.Nodes[i]
			if !n.IsUp || n.Phase != Idle || !n.IsKnown {
				continue
			}
			for lacks := uint64(1); lacks <= 3; lacks++ {
				for extra := uint64(0); extra <= 2; extra++ {
					to, isThere := model.view(&state, n).Next(lacks, extra, extra)
					if isThere && !model.May(&state, raiseOf(&state, i, to)) {
						t.Fatalf("%+v: %d isn't granted", state, to)
					}
					looked++
				}
			}
			to := rules.Lowered(n.Bound, n.Charged, 0)
			if to != n.Bound && !model.May(&state, Step{Kind: Lower, Node: i, To: to}) {
				t.Fatalf("%+v: not lowered to %d", state, to)
			}
		}
	}
	if looked < 10_000 {
		t.Errorf("only %d decisions", looked)
	}
}

// Where no more faults come and all lost stores are forgotten, stores that all wait for an amount that the limit leaves
// get it, one of them at first. Held is the variant in which they wait with what they don't use in hand.
func TestProgress(t *testing.T) {
	t.Parallel()
	for _, it := range []struct {
		shards uint8
		nodes  int
		limits []uint64
		isLong bool
	}{{1, 2, []uint64{1, 2, 3}, false}, {1, 3, []uint64{1}, false}, {2, 2, []uint64{1, 2}, true}} {
		if it.isLong && os.Getenv("PIBROULEZ_KILLS") == "" {
			continue
		}
		looked, stuck := progress(t, Right, it.shards, it.nodes, it.limits...)
		if looked < 500 || stuck > 0 {
			t.Errorf("%+v: %d of %d states are stuck", it, stuck, looked)
		}
	}
	if looked, stuck := progress(t, Held, 1, 2, 1, 2); stuck == 0 {
		t.Errorf("waiting with idle in hand: none of %d states is stuck", looked)
	}
}

func progress(t *testing.T, wrong Wrong, shards uint8, nodes int, limits ...uint64) (looked, stuck int) {
	t.Helper()
	found, model := searchShards(t, Model{Wrong: wrong}, shards, nodes, limits...), Model{Wrong: wrong, MostSent: 2}
	state := State{Nodes: make([]Node, nodes)}
	for i := range found.states {
		found.states[i].state(&state)
		charged, hasLost := uint64(0), false
		for i := range state.Nodes {
			n := &state.Nodes[i]
			charged += n.Charged
			hasLost = hasLost || n.Lost > 0
			for _, sent := range n.Sent[:n.Sents] {
				hasLost = hasLost || sent.IsOfLost
			}
		}
		if hasLost || charged >= state.Limit {
			continue
		}
		for need := uint64(1); need <= state.Limit-charged; need++ {
			looked++
			s := state
			s.Nodes = append([]Node(nil), state.Nodes...)
			if !isServed(t, &model, &s, need) {
				stuck++
			}
		}
	}
	return looked, stuck
}

func do(t *testing.T, model *Model, s *State, step Step) {
	t.Helper()
	if !model.May(s, step) {
		t.Fatalf("%v is no step of %+v", step, s)
	}
	model.Do(s, step)
	if broken := model.Broken(s); broken != "" {
		t.Fatalf("%v: %s", step, broken)
	}
}

// Has all settle, then give back what they don't use where they do, and then serves the first store that can be.
func isServed(t *testing.T, model *Model, s *State, need uint64) bool {
	t.Helper()
	for i := range s.Nodes {
		if !s.Nodes[i].IsUp {
			do(t, model, s, Step{Kind: Restart, Node: i})
		}
	}
	for i := range s.Nodes {
		for s.Nodes[i].Sents > 0 {
			do(t, model, s, Step{Kind: Apply, Node: i})
		}
	}
	for i := range s.Nodes {
		finish(t, model, s, i)
		if n := &s.Nodes[i]; model.Wrong != Held && n.Bound > n.Charged {
			do(t, model, s, Step{Kind: Lower, Node: i, To: n.Charged})
		}
		if s.Nodes[i].Grant != s.Nodes[i].Bound {
			ask(t, model, s, i, Settle, s.Nodes[i].Bound)
		}
	}
	for i := range s.Nodes {
		n := &s.Nodes[i]
		if free := n.Bound - n.Charged; free >= need {
			return true
		} else if to, isThere := model.view(s, n).Next(need-free, 0, 0); isThere {
			ask(t, model, s, i, Raise, to)
			do(t, model, s, Step{Kind: Charge, Node: i, To: need})
			return true
		}
	}
	return false
}

func finish(t *testing.T, model *Model, s *State, i int) {
	t.Helper()
	n := &s.Nodes[i]
	if n.Phase == Raising || n.Phase == Settling {
		if n.IsReplied {
			do(t, model, s, Step{Kind: Answer, Node: i})
		} else {
			do(t, model, s, Step{Kind: GiveUp, Node: i})
		}
	}
	if n.Phase == Raised {
		do(t, model, s, Step{Kind: Set, Node: i, To: n.To})
	}
}

func ask(t *testing.T, model *Model, s *State, i int, kind Kind, to uint64) {
	t.Helper()
	if !s.Nodes[i].IsKnown {
		do(t, model, s, Step{Kind: Read, Node: i})
	}
	step := raiseOf(s, i, to)
	step.Kind = kind
	do(t, model, s, step)
	do(t, model, s, Step{Kind: Apply, Node: i})
	finish(t, model, s, i)
}

// A raise of a store that takes from the first shard what that has, and from the next one the rest.
func raiseOf(s *State, i int, to uint64) Step {
	step := Step{Kind: Raise, Node: i, To: to}
	if grant := s.Nodes[i].Grant; to > grant {
		step.Shards[0] = to - grant
		if more := step.Shards[0]; more > s.Free[0] {
			step.Shards = Shards{s.Free[0], more - s.Free[0]}
		}
	}
	return step
}
