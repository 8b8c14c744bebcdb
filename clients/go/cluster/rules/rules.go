// Package rules has the decisions of the protocol of package cluster, as functions of plain values. An agent takes each
// of its steps by them, and so does package model, which goes through all states.
//
// Each function is of one quantity, blocks or inodes. A tenant has both, and they are decided apart: a raise of one never
// waits for the other.
package rules

// A View is what a store knows of a tenant, in one quantity.
type View struct {
	// Free is what of the tenant's limit no store is granted, in etcd, in some shards of its pool. Debt is what is granted
	// above the limit, after it was lowered.
	Free, Debt uint64
	// Grant is the store's grant, in etcd, and Bound the store's own limit, in its log.
	Grant, Bound uint64
}

// IsSound says that the store's own limit is within its grant, which the protocol keeps always. Where it isn't, the log
// is an older one than the grant, or another store writes this one's grants.
func (v View) IsSound() bool { return v.Bound <= v.Grant }

// Room is what may be granted: nothing while there is a debt.
func (v View) Room() uint64 {
	if v.Debt > 0 {
		return 0
	}
	return v.Free
}

// Pool is how far the store may raise its own limit: what may be granted, and what it is granted and doesn't use.
func (v View) Pool() uint64 { return v.Room() + minus(v.Grant, v.Bound) }

// MayGrant says that a grant may become `to`: it stays at the store's own limit or above it, and it is raised by no more
// than is free. It may be lowered also where there is a debt.
func (v View) MayGrant(to uint64) bool {
	return to >= v.Bound && (to <= v.Grant || to-v.Grant <= v.Room())
}

// Settled is the grant that a store asks for which gives back what it doesn't use, or doesn't know whether it has been
// granted: its own limit. Only a sound view has one.
func (v View) Settled() uint64 { return v.Bound }

// Next is the grant that a store asks for which lacks an amount: that, and at most `extra` of what the pool has beyond it,
// as far as the store's share of the pool goes. It is false where the pool lacks the amount.
func (v View) Next(lacks, extra, share uint64) (to uint64, isThere bool) {
	pool := v.Pool()
	if lacks > pool {
		return v.Bound, false
	}
	return v.Bound + lacks + least(extra, Share(pool-lacks, share)), true
}

// Share is 1/share of what is left of a pool, and all of it where share is 0.
func Share(left, share uint64) uint64 {
	if share == 0 {
		return left
	}
	return left / share
}

// Paid is what of an amount that is given back pays a debt. Only the rest of it is free.
func Paid(debt, back uint64) uint64 { return least(debt, back) }

// Limited is what is free, and what the debt is, where this much is granted and the tenant's limit is this.
func Limited(limit, granted uint64) (free, debt uint64) {
	return minus(limit, granted), minus(granted, limit)
}

// Part is what the shard of a number has of what is divided among this number: each the same, but for one at most.
func Part(free, shards, number uint64) uint64 {
	part := free / shards
	if number < free%shards {
		part++
	}
	return part
}

// MayRaise says that a store may raise its own limit to `to`. written is the grant that etcd has answered to be written
// since the store last lowered its limit, or 0 where it has answered none. That the grant is seen to be enough is not: a
// lowering of the store's own, whose answer never came, could still be applied. The write voids it.
func MayRaise(written, to uint64) bool { return to <= written }

// Lowered is the own limit of a store that gives back what it doesn't use, but for `keep`.
func Lowered(bound, charged, keep uint64) uint64 {
	if minus(bound, charged) <= keep {
		return bound
	}
	return charged + keep
}

// minus is a - b, or 0 where that is less.
func minus(a, b uint64) uint64 {
	if a < b {
		return 0
	}
	return a - b
}

func least(a, b uint64) uint64 {
	if a < b {
		return a
	}
	return b
}
