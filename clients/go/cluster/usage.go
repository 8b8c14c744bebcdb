package cluster

import "pibroulez.example/pibroulez/cluster/rules"

// Arithmetic of both quantities at once.

func plus(a, b Usage) Usage { return Usage{Blocks: a.Blocks + b.Blocks, Inodes: a.Inodes + b.Inodes} }

// a - b, and 0 where that is less.
func minus(a, b Usage) Usage { return each(a, b, less) }

func smaller(a, b Usage) Usage {
	return each(a, b, func(a, b uint64) uint64 {
		if a < b {
			return a
		}
		return b
	})
}

func less(a, b uint64) uint64 {
	if a < b {
		return 0
	}
	return a - b
}

func each(a, b Usage, of func(a, b uint64) uint64) Usage {
	return Usage{Blocks: of(a.Blocks, b.Blocks), Inodes: of(a.Inodes, b.Inodes)}
}

// Whether a is at least b in both.
func covers(a, b Usage) bool { return a.Blocks >= b.Blocks && a.Inodes >= b.Inodes }

// A view of each quantity.
type views struct{ blocks, inodes rules.View }

// What a store knows, where this much is free in the shards that it looks at.
func viewsOf(k *known, free, bound Usage) views {
	debt, grant := k.tenant.Debt, k.grant.Grant
	return views{
		rules.View{Free: free.Blocks, Debt: debt.Blocks, Grant: grant.Blocks, Bound: bound.Blocks},
		rules.View{Free: free.Inodes, Debt: debt.Inodes, Grant: grant.Inodes, Bound: bound.Inodes},
	}
}

func (v views) isSound() bool { return v.blocks.IsSound() && v.inodes.IsSound() }

func (v views) settled() Usage {
	return Usage{Blocks: v.blocks.Settled(), Inodes: v.inodes.Settled()}
}

func (v views) mayGrant(to Usage) bool {
	return v.blocks.MayGrant(to.Blocks) && v.inodes.MayGrant(to.Inodes)
}

// The next grant of a store that lacks an amount, by each quantity. In one of which it lacks nothing it takes nothing.
func (v views) next(lacks, extra Usage, share uint64) (to Usage, blocks, inodes bool) {
	to.Blocks, blocks = v.blocks.Next(lacks.Blocks, ifAny(lacks.Blocks, extra.Blocks), share)
	to.Inodes, inodes = v.inodes.Next(lacks.Inodes, ifAny(lacks.Inodes, extra.Inodes), share)
	return to, blocks, inodes
}

func ifAny(lacks, extra uint64) uint64 {
	if lacks == 0 {
		return 0
	}
	return extra
}

func mayRaise(written, to Usage) bool {
	return rules.MayRaise(written.Blocks, to.Blocks) && rules.MayRaise(written.Inodes, to.Inodes)
}

func lowered(bound, charged, keep Usage) Usage {
	return Usage{
		Blocks: rules.Lowered(bound.Blocks, charged.Blocks, keep.Blocks),
		Inodes: rules.Lowered(bound.Inodes, charged.Inodes, keep.Inodes),
	}
}
