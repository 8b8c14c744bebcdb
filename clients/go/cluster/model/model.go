// Package model is the protocol of package cluster as a machine of states, for one tenant and one quantity. Its decisions
// are those of package rules, which an agent takes its steps by. Search goes through all states of a few stores and small
// limits, and Walk takes what was seen of a run as steps of the machine.
//
// A transaction compares the revisions of the tenant's record, of the shards of its pool that it takes from or gives back
// to, and of the grant, and writes the grant and those shards, and the record where it pays a debt. So each write voids all
// transactions under way that have one of these in common with it, and a transaction of who has read older revisions can't
// be applied: it is as one that was lost.
//
// Where etcd is restored from a backup, its records are those of some time before. The tenant is closed then: nothing is
// raised until each store has registered its own limit as its grant, and the sum is made anew. The old grants don't count
// for anything meanwhile, so a restored state has none.
package model

import (
	"fmt"

	"pibroulez.example/pibroulez/cluster/rules"
)

// A Phase is how far a store's agent is with a transaction.
type Phase uint8

// The phases.
const (
	// Idle: it waits for no answer.
	Idle Phase = iota
	// Raising: it waits for the answer to a raise of its grant.
	Raising
	// Raised: the raise was answered, and the store's own limit is to follow.
	Raised
	// Settling: it waits for the answer to a grant that is the store's own limit.
	Settling
)

// MostSent is how many transactions of a store may still be applied at one time at most, and MostShards how many shards
// a pool has.
const (
	MostSent   = 4
	MostShards = 2
)

// Shards are amounts in the shards of a pool.
type Shards [MostShards]uint64

func (a Shards) sum() (sum uint64) {
	for _, it := range a {
		sum += it
	}
	return sum
}

// A Transaction may still be applied.
type Transaction struct {
	Grant uint64
	// Takes is what it takes from each shard, and Back the shard that gets what it gives back.
	Takes Shards
	Back  uint8
	// Sum is what a wrong variant keeps of it: of KeyAlone the sum of grants that it writes, of RecordAlone the debt, and
	// what it pays of that, and of GenerationAlone that it is from before a restore.
	Sum uint64
	// IsAwaited says that its sender waits for the answer, and IsOfLost that it is of the store whose disk is lost.
	IsAwaited, IsOfLost bool
}

// A Node is a store with its agent.
type Node struct {
	// Charged, and Bound, the store's own limit, are in its log and outlive a crash.
	Charged, Bound uint64
	// Grant is the store's in etcd, and Lost that of the store that was here before its disk was lost, until it is
	// forgotten.
	Grant, Lost uint64
	// To is what the agent wants the store's own limit to be.
	To uint64
	// Sent has the transactions that may still be applied, in order of their values: the first Sents of them.
	Sent  [MostSent]Transaction
	Sents uint8
	Phase Phase
	// IsUp: agent and store run. IsKnown: what the agent knows of etcd is as etcd is. IsReplied: an answer is on its way.
	IsUp, IsKnown, IsReplied bool
	// IsRegistered: in a closed tenant the grant is the store's own limit, or above it.
	IsRegistered bool
}

// NewNode is a store that has joined.
func NewNode() Node { return Node{IsUp: true} }

// A State is a tenant's limit, its pool, and its stores.
type State struct {
	Limit uint64
	// Free is what no store is granted, in each of the first Shards, and Debt what is granted above the limit.
	Free   Shards
	Debt   uint64
	Shards uint8
	// IsClosed: etcd was restored. Before is what was granted then.
	IsClosed bool
	Before   uint64
	Nodes    []Node
}

// Granted is the sum of grants, as the tenant's record and its pool have it. Of a closed tenant it is what that was when
// etcd was restored.
func (s *State) Granted() uint64 {
	if s.IsClosed {
		return s.Before
	}
	return s.Limit + s.Debt - s.Free.sum()
}

func (s *State) setGranted(to uint64, free Shards) {
	_, s.Debt = rules.Limited(s.Limit, to)
	s.Free = free
}

// Divided is what is free where this much is granted of a limit, divided among the shards.
func (s *State) Divided(limit, granted uint64) (free Shards) {
	left, _ := rules.Limited(limit, granted)
	for i := range free[:s.Shards] {
		free[i] = rules.Part(left, uint64(s.Shards), uint64(i))
	}
	return free
}

// A Kind is what a step does.
type Kind uint8

// The steps of the world.
const (
	// Charge and Remove: the store charges, within its own limit, and gives back.
	Charge Kind = iota
	Remove
	// Crash ends agent and store, and Restart starts them again.
	Crash
	Restart
	// LoseDisk: the disk of a store that is down is gone. Another store, which is empty, comes in its place.
	LoseDisk
	// Forget: an operator says that the lost store is gone for good.
	Forget
	// SetLimit: an operator gives the tenant another limit.
	SetLimit
	// Restore: etcd is restored from a backup, in which the tenant has some limit.
	Restore
	// Reopen: all stores have registered, and the sum is made anew.
	Reopen
	// Lose: a transaction is lost.
	Lose
	// Apply: etcd carries a transaction out.
	Apply
)

// The steps of an agent.
const (
	// Read: it reads the tenant's key and its grant's.
	Read Kind = iota + Apply + 1
	// Lower: the store's own limit is lowered.
	Lower
	// Raise and Settle: a transaction is sent for a grant above the store's own limit, or for one that is that limit. In a
	// closed tenant a settle registers the store.
	Raise
	Settle
	// GiveUp: the answer doesn't come.
	GiveUp
	// Answer: it does.
	Answer
	// Set: the store's own limit is raised.
	Set
	// ForgetLive, OldLog: what operators must not do.
	ForgetLive
	OldLog
)

var kindNames = [...]string{
	"charge", "remove", "crash", "restart", "lose disk", "forget", "set limit", "restore", "reopen", "lose", "apply",
	"read", "lower", "raise", "settle", "give up", "answer", "set", "forget a running store", "an old log",
}

func (k Kind) String() string { return kindNames[k] }

// A Step is what one node does, or what is done to it.
type Step struct {
	Kind Kind
	// Node is the number of the node, and Index that of its transaction, of Lose and Apply.
	Node, Index int
	// To is the new value, and of Charge and Remove how much.
	To uint64
	// Shards is what a Raise takes from each, and what is free in each after SetLimit and Reopen. Back is where a Raise, a
	// Settle or a Forget gives back.
	Shards Shards
	Back   uint8
}

func (s Step) String() string { return fmt.Sprintf("%s %d at node %d", s.Kind, s.To, s.Node) }

// A Wrong is a variant of the protocol that passes the limit.
type Wrong uint8

// The variants.
const (
	// Right is none.
	Right Wrong = iota
	// LocalFirst raises the store's own limit before the grant is there.
	LocalFirst
	// Unwritten raises the store's own limit without a write where the grant is seen to be enough.
	Unwritten
	// EtcdFirst lowers the grant before the store's own limit.
	EtcdFirst
	// KeyAlone compares the grant's key and not the tenant's.
	KeyAlone
	// LiveForgotten takes the grants of a store that runs: an operator's error, or a lease that ends.
	LiveForgotten
	// LogGoesBack lets a log go back in time.
	LogGoesBack
	// DebtUnpaid has what is given back free at once, and raises while there is a debt.
	DebtUnpaid
	// RecordAlone pays a debt without comparing the tenant's record.
	RecordAlone
	// RestoreUnseen goes on over an etcd that was restored from a backup.
	RestoreUnseen
	// ReopenedEarly makes the sum anew before all stores have registered.
	ReopenedEarly
	// GenerationAlone lets a transaction from before a restore be applied.
	GenerationAlone
	// Held waits for others with what it doesn't use in hand: the limit isn't passed, but stores wait for each other.
	Held
)

// A Model says which steps there are.
type Model struct {
	Wrong Wrong
	// MostSent is how many transactions of a store may still be applied at one time; one more is lost.
	MostSent uint8
	// Rewrites lets a store settle where its grant is its own limit, and the limit that there is be set, with what is free
	// divided anew or as it is. In a run of two quantities the other one's steps are that; so do agents divide a pool, and
	// operators have a tenant stand still.
	Rewrites bool
	// Restores lets etcd be restored.
	Restores bool
}

func (m *Model) view(s *State, n *Node) rules.View {
	view := rules.View{Free: s.Free.sum(), Debt: s.Debt, Grant: n.Grant, Bound: n.Bound}
	if m.Wrong == DebtUnpaid {
		view.Debt = 0
	}
	return view
}

// What etcd has answered to be written since the store last lowered its own limit.
func (m *Model) written(n *Node) uint64 {
	switch {
	case n.Phase == Raised:
		return n.To
	case m.Wrong == Unwritten && n.Phase == Idle && n.IsKnown:
		return n.Grant
	}
	return 0
}

// May says whether a step is one of the machine's in a state.
func (m *Model) May(s *State, step Step) bool {
	switch step.Kind {
	case SetLimit:
		free, _ := rules.Limited(step.To, s.Granted())
		return (step.To != s.Limit || m.Rewrites) && (s.IsClosed || step.Shards.sum() == free)
	case Restore:
		return m.Restores
	case Reopen:
		return s.IsClosed && m.mayReopen(s, step.Shards)
	}
	n := &s.Nodes[step.Node]
	isFree := n.IsUp && n.Phase == Idle
	switch step.Kind {
	case Charge:
		return n.IsUp && step.To > 0 && n.Charged <= n.Bound && step.To <= n.Bound-n.Charged
	case Remove:
		return n.IsUp && step.To > 0 && step.To <= n.Charged
	case Crash:
		return n.IsUp
	case Restart:
		return !n.IsUp
	case LoseDisk:
		return !n.IsUp && n.Lost == 0
	case Forget:
		return n.Lost > 0 && step.Back < s.Shards
	case Lose, Apply:
		return step.Index < int(n.Sents)
	case Read:
		return isFree && !n.IsKnown
	case Lower:
		return isFree && m.Wrong != EtcdFirst && n.Charged <= step.To && step.To < n.Bound
	case Raise:
		return isFree && n.IsKnown && !s.IsClosed && step.To > n.Bound && m.view(s, n).MayGrant(step.To) && areTakes(s, n, step)
	case Settle:
		return isFree && n.IsKnown && step.Back < s.Shards && m.maySettle(s, n, step.To)
	case GiveUp:
		return n.IsUp && (n.Phase == Raising || n.Phase == Settling)
	case Answer:
		return n.IsUp && n.IsReplied && (n.Phase == Raising || n.Phase == Settling)
	case Set:
		isAbove := step.To > n.Bound || m.Wrong == LocalFirst && n.Phase == Raised
		return n.IsUp && isAbove && rules.MayRaise(m.written(n), step.To)
	case ForgetLive:
		return m.Wrong == LiveForgotten && n.IsUp && n.Grant > 0
	case OldLog:
		return m.Wrong == LogGoesBack && !n.IsUp && step.To > n.Bound
	}
	return false
}

// Whether a raise takes what it needs, from shards that have it.
func areTakes(s *State, n *Node, step Step) bool {
	for i, it := range step.Shards {
		if it > s.Free[i] {
			return false
		}
	}
	if step.To <= n.Grant {
		return step.Shards == Shards{} && step.Back < s.Shards
	}
	return step.Shards.sum() == step.To-n.Grant && step.Back == 0
}

func (s *State) grants() (sum uint64) {
	for i := range s.Nodes {
		sum += s.Nodes[i].Grant
	}
	return sum
}

func (m *Model) mayReopen(s *State, free Shards) bool {
	for i := range s.Nodes {
		n := &s.Nodes[i]
		if n.Lost > 0 || !n.IsRegistered && m.Wrong != ReopenedEarly {
			return false
		}
	}
	left, _ := rules.Limited(s.Limit, s.grants())
	return free.sum() == left
}

func (m *Model) maySettle(s *State, n *Node, to uint64) bool {
	if m.Wrong == EtcdFirst {
		return n.Charged <= to && to < n.Bound
	}
	view := m.view(s, n)
	if s.IsClosed {
		return to == view.Settled() && (m.Rewrites || to != n.Grant || !n.IsRegistered)
	}
	return view.IsSound() && to == view.Settled() && view.MayGrant(to) && (m.Rewrites || to != n.Grant)
}

// Do carries out a step that May allows.
func (m *Model) Do(s *State, step Step) {
	switch step.Kind {
	case SetLimit:
		m.wrote(s, all)
		granted := s.Granted()
		if s.Limit = step.To; !s.IsClosed {
			s.setGranted(granted, step.Shards)
		}
		return
	case Restore:
		m.restore(s, step.To)
		return
	case Reopen:
		m.reopen(s, step.Shards)
		return
	}
	n := &s.Nodes[step.Node]
	switch step.Kind {
	case Charge:
		n.Charged += step.To
	case Remove:
		n.Charged -= step.To
	case Crash:
		n.IsUp = false
		n.stopWaiting()
	case Restart:
		n.IsUp = true
	case LoseDisk:
		if s.Shards > 1 {
			// Those of a store that was lost before. In one shard they have no state of their own.
			n.dropOfLost()
		}
		n.Lost, n.Charged, n.Bound, n.Grant, n.IsRegistered = n.Grant, 0, 0, 0, false
		for i := range n.Sent[:n.Sents] {
			n.Sent[i].IsAwaited, n.Sent[i].IsOfLost = false, true
		}
		n.sort()
	case Forget:
		n.dropOfLost()
		m.giveBack(s, n.Lost, step.Back)
		n.Lost = 0
	case ForgetLive:
		m.giveBack(s, n.Grant, step.Back)
		n.Grant = 0
	case OldLog:
		n.Bound = step.To
	case Lose:
		n.drop(step.Index)
	case Apply:
		m.apply(s, n, step.Index)
	case Read:
		n.IsKnown = true
	case Lower:
		n.Bound = step.To
	case Raise, Settle:
		m.send(s, n, step)
	case GiveUp:
		n.stopWaiting()
	case Answer:
		m.answer(n)
	case Set:
		n.Bound, n.Phase, n.To = step.To, Idle, 0
	}
}

// What a transaction writes of a tenant: its record, and shards of its pool.
type written struct {
	isRecord bool
	shards   uint8
}

// Everything.
var all = written{true, 1<<MostShards - 1}

// A write: all that is known is old, and all that is under way is void that compares what is written.
func (m *Model) wrote(s *State, what written) {
	for i := range s.Nodes {
		n := &s.Nodes[i]
		n.IsKnown = false
		for at := int(n.Sents) - 1; at >= 0; at-- {
			if m.isVoid(s, n, &n.Sent[at], what) {
				n.drop(at)
			}
		}
	}
}

func (m *Model) isVoid(s *State, n *Node, it *Transaction, what written) bool {
	switch {
	case m.Wrong == KeyAlone || m.isFromBefore(it):
		return false
	case what.isRecord && m.Wrong != RecordAlone:
		return true
	}
	return m.writes(s, n, it).shards&what.shards != 0
}

// What a transaction under way is to write.
func (m *Model) writes(s *State, n *Node, it *Transaction) written {
	before := n.Grant
	if it.IsOfLost {
		before = n.Lost
	}
	if it.Grant <= before {
		return written{it.Grant < before && s.Debt > 0, 1 << it.Back}
	}
	shards := uint8(0)
	for i, took := range it.Takes {
		if took > 0 {
			shards |= 1 << i
		}
	}
	return written{false, shards}
}

// What is given back pays the debt first.
func (m *Model) giveBack(s *State, amount uint64, shard uint8) {
	if s.IsClosed {
		return
	}
	paid := rules.Paid(s.Debt, amount)
	if m.Wrong == DebtUnpaid {
		paid = 0
	}
	m.wrote(s, written{paid > 0, 1 << shard})
	s.Debt -= paid
	s.Free[shard] += amount - paid
}

// The grants of a backup count for nothing, and nothing that was sent before is carried out.
func (m *Model) restore(s *State, limit uint64) {
	if m.Wrong == RestoreUnseen {
		m.restoreFirst(s)
		return
	}
	s.Before = s.Granted()
	s.Limit, s.Debt, s.Free, s.IsClosed = limit, 0, Shards{}, true
	for i := range s.Nodes {
		n := &s.Nodes[i]
		n.Grant, n.IsRegistered, n.IsKnown = 0, false, false
		n.dropFrom(0)
		if m.Wrong == GenerationAlone {
			n.Sent[0], n.Sents = Transaction{Sum: 1}, 1
		}
	}
}

// Whether it is a lowering of before a restore, which nothing voids: the numbers of revisions come again.
func (m *Model) isFromBefore(it *Transaction) bool { return m.Wrong == GenerationAlone && it.Sum == 1 }

// A backup from before the first grant.
func (m *Model) restoreFirst(s *State) {
	m.wrote(s, all)
	for i := range s.Nodes {
		s.Nodes[i].Grant, s.Nodes[i].Lost = 0, 0
	}
	s.setGranted(0, s.Divided(s.Limit, 0))
}

func (m *Model) reopen(s *State, free Shards) {
	m.wrote(s, all)
	granted := s.grants()
	s.IsClosed, s.Before = false, 0
	s.setGranted(granted, free)
	for i := range s.Nodes {
		s.Nodes[i].IsRegistered, s.Nodes[i].IsKnown = false, false
	}
}

func (m *Model) send(s *State, n *Node, step Step) {
	if m.Wrong == LocalFirst && step.Kind == Raise {
		n.Bound = step.To
	}
	n.To, n.Phase = step.To, Raising
	if step.Kind == Settle {
		n.Phase = Settling
	}
	if n.Sents == m.MostSent {
		return
	}
	sent := Transaction{Grant: step.To, Takes: step.Shards, Back: step.Back, IsAwaited: true}
	switch {
	case m.Wrong == KeyAlone:
		sent.Sum = s.Granted() - n.Grant + step.To
	case m.Wrong == RecordAlone && step.To <= n.Grant:
		paid := rules.Paid(s.Debt, n.Grant-step.To)
		sent.Sum = (s.Debt-paid)<<paidBits | paid
	}
	n.Sent[n.Sents] = sent
	n.Sents++
	n.sort()
}

// How many bits what is paid has beside the debt.
const paidBits = 3

func (m *Model) apply(s *State, n *Node, index int) {
	it := n.Sent[index]
	n.drop(index)
	before := &n.Grant
	if it.IsOfLost {
		before = &n.Lost
	}
	switch {
	case s.IsClosed:
		n.IsRegistered = n.IsRegistered || !it.IsOfLost
	case m.Wrong == KeyAlone:
		m.wrote(s, all)
		s.setGranted(it.Sum, s.Divided(s.Limit, it.Sum))
	case it.Grant > *before:
		m.wrote(s, m.writes(s, n, &it))
		for i := range it.Takes {
			s.Free[i] -= it.Takes[i]
		}
	case m.Wrong == RecordAlone:
		m.wrote(s, m.writes(s, n, &it))
		s.Debt = it.Sum >> paidBits
		s.Free[it.Back] += *before - it.Grant - it.Sum&MostAmount
	default:
		m.giveBack(s, *before-it.Grant, it.Back)
	}
	// Each write of the grant voids all others of the store.
	for at := int(n.Sents) - 1; at >= 0; at-- {
		if n.Sent[at].IsOfLost == it.IsOfLost && !m.isFromBefore(&n.Sent[at]) {
			n.drop(at)
		}
	}
	*before = it.Grant
	if !it.IsOfLost {
		n.IsReplied, n.IsKnown = n.IsReplied || it.IsAwaited, it.IsAwaited
	}
}

func (m *Model) answer(n *Node) {
	n.IsReplied = false
	if n.Phase == Raising {
		n.Phase = Raised
		return
	}
	if m.Wrong == EtcdFirst && n.To >= n.Charged {
		n.Bound = n.To
	}
	n.Phase, n.To = Idle, 0
}

// What is sent stays under way, and nobody waits for it.
func (n *Node) stopWaiting() {
	n.Phase, n.To, n.IsKnown, n.IsReplied = Idle, 0, false, false
	for i := range n.Sent[:n.Sents] {
		n.Sent[i].IsAwaited = false
	}
	n.sort()
}

func (n *Node) drop(index int) {
	copy(n.Sent[index:], n.Sent[index+1:n.Sents])
	n.dropFrom(n.Sents - 1)
}

func (n *Node) dropFrom(count uint8) {
	for i := count; i < n.Sents; i++ {
		n.Sent[i] = Transaction{}
	}
	n.Sents = count
}

func (n *Node) dropOfLost() {
	for i := int(n.Sents) - 1; i >= 0; i-- {
		if n.Sent[i].IsOfLost {
			n.drop(i)
		}
	}
}

// Has what is sent in one order, so that states that differ in nothing else are one.
func (n *Node) sort() {
	for i := 1; i < int(n.Sents); i++ {
		for j := i; j > 0 && n.Sent[j].code() < n.Sent[j-1].code(); j-- {
			n.Sent[j], n.Sent[j-1] = n.Sent[j-1], n.Sent[j]
		}
	}
}

func (t Transaction) code() uint64 {
	code := t.Grant<<8 | t.Sum<<2 | bit(t.IsAwaited)<<1 | bit(t.IsOfLost)
	for _, it := range t.Takes {
		code = code<<3 | it&MostAmount
	}
	return code<<1 | uint64(t.Back)
}

func bit(b bool) uint64 {
	if b {
		return 1
	}
	return 0
}

// Broken says which invariant a state breaks, or nothing.
//
// The last two are of a protocol that isn't wrong: a wrong one breaks them before it passes the limit.
func (m *Model) Broken(s *State) string {
	var grants, bounds, charged uint64
	for i := range s.Nodes {
		n := &s.Nodes[i]
		grants += n.Grant + n.Lost
		bounds += n.Bound
		charged += n.Charged
		if n.Charged > n.Bound && m.Wrong != LocalFirst {
			return "a store is charged above its own limit"
		}
	}
	switch {
	case grants != s.Granted() && !s.IsClosed:
		return "the sum isn't that of the grants (I1)"
	case charged > s.Granted():
		return "more is charged than is granted"
	case s.Debt > 0 && s.Free.sum() > 0 && m.Wrong != DebtUnpaid:
		return "there is a debt, and something is free"
	case m.Wrong != Right && m.Wrong != Held:
		return ""
	case bounds > s.Granted():
		return "the stores' own limits are above what is granted"
	}
	for i := range s.Nodes {
		n := &s.Nodes[i]
		if n.Bound > n.Grant && (!s.IsClosed || n.IsRegistered) {
			return "a store's own limit is above its grant (I2)"
		}
		for _, it := range n.Sent[:n.Sents] {
			if !it.IsOfLost && it.Grant < n.Bound {
				return "a transaction under way takes a grant from under a store's own limit (I2)"
			}
		}
	}
	return ""
}

// Whether a step from that sum of grants has raised it above the limit in force.
func (s *State) isOvergranted(before uint64) bool {
	return s.Granted() > before && s.Granted() > s.Limit
}
