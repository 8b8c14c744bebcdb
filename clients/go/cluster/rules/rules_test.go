package rules

import (
	"math"
	"math/rand"
	"testing"
)

// Every view of small numbers: what Next asks for may be granted, covers what is lacked, and takes no more than is free;
// and Settled may always be granted where the view is sound.
func TestNextMayBeGranted(t *testing.T) {
	const most = 4
	looked := 0
	for free := uint64(0); free <= most; free++ {
		for debt := uint64(0); debt <= most; debt++ {
			for grant := uint64(0); grant <= most; grant++ {
				for bound := uint64(0); bound <= grant; bound++ {
					view := View{free, debt, grant, bound}
					if !view.IsSound() || !view.MayGrant(view.Settled()) || view.Settled() > grant {
						t.Fatalf("%+v can't settle", view)
					}
					for lacks := uint64(0); lacks <= 2*most; lacks++ {
						for extra := uint64(0); extra <= most; extra++ {
							for share := uint64(0); share <= most; share++ {
								looked++
								isNext(t, view, lacks, extra, share)
							}
						}
					}
				}
			}
		}
	}
	if looked < 20_000 {
		t.Errorf("only %d views", looked)
	}
}

func isNext(t *testing.T, view View, lacks, extra, share uint64) {
	t.Helper()
	to, isThere := view.Next(lacks, extra, share)
	switch {
	case isThere != (lacks <= view.Pool()):
		t.Fatalf("%+v lacks %d: %v", view, lacks, isThere)
	case !isThere:
	case !view.MayGrant(to) || to < view.Bound+lacks || to > view.Bound+lacks+extra:
		t.Fatalf("%+v lacks %d: grant %d", view, lacks, to)
	case to > view.Grant && (view.Debt > 0 || to-view.Grant > view.Free):
		t.Fatalf("%+v lacks %d: grant %d takes more than is free", view, lacks, to)
	}
}

// Worked figures of the page: a limit of 100, of which another store has 40.
func TestFigures(t *testing.T) {
	view := View{Free: 30, Grant: 30, Bound: 20}
	for _, it := range []struct{ got, want uint64 }{
		{view.Pool(), 40},
		{Share(30, 4), 7},
		{Share(30, 0), 30},
		{Lowered(20, 5, 4), 9},
		{Lowered(20, 5, 15), 20},
		{Lowered(20, 5, math.MaxUint64), 20},
		{Lowered(20, 20, 0), 20},
		{Paid(5, 3), 3},
		{Paid(5, 8), 5},
		{Paid(0, 8), 0},
	} {
		if it.got != it.want {
			t.Errorf("%d, not %d", it.got, it.want)
		}
	}
	if to, _ := view.Next(10, 16, 4); to != 37 {
		t.Errorf("%d, not 20 and 10 and a fourth of 30", to)
	}
	if view.MayGrant(61) || !view.MayGrant(60) || view.MayGrant(19) {
		t.Error("granted above the limit or below the store's own")
	}
	// A limit that was set below the sum: nothing is raised, and what is given back may be less than enough.
	above := View{Debt: 20, Grant: 30, Bound: 20}
	if above.MayGrant(31) || !above.MayGrant(30) || !above.MayGrant(20) || above.Pool() != 10 {
		t.Error("a sum above the limit is raised, or isn't lowered")
	}
	if MayRaise(0, 1) || !MayRaise(5, 5) || MayRaise(5, 6) {
		t.Error("a limit is raised without a write")
	}
}

// What is free and what is owed are of the limit and of what is granted, and all that is free is divided.
func TestLimits(t *testing.T) {
	for _, it := range []struct{ limit, granted, free, debt uint64 }{{100, 70, 30, 0}, {70, 70, 0, 0}, {50, 70, 0, 20}, {0, 0, 0, 0}} {
		if free, debt := Limited(it.limit, it.granted); free != it.free || debt != it.debt {
			t.Errorf("%+v: %d free, a debt of %d", it, free, debt)
		}
	}
	for free := uint64(0); free < 20; free++ {
		for shards := uint64(1); shards < 6; shards++ {
			sum := uint64(0)
			for number := uint64(0); number < shards; number++ {
				part := Part(free, shards, number)
				if part != free/shards && part != free/shards+1 {
					t.Errorf("%d of %d in %d shards", part, free, shards)
				}
				sum += part
			}
			if sum != free {
				t.Errorf("%d of %d in %d shards in all", sum, free, shards)
			}
		}
	}
}

// Ten stores with loads of 1 to 1/10 share a limit of 100,000, by charges of 1 to 20. Before the first one is refused
// anywhere 99.9 % of the limit is charged, by at most 1/20 of the grants of stores that ask for each charge exactly.
func TestSharesOfThePool(t *testing.T) {
	const limit, stores = 100_000, 10
	charged, grants, exact := fill(limit, stores, limit/400, 2*stores)
	if charged < limit*999/1000 || grants*20 > exact {
		t.Errorf("%d of %d charged, by %d grants for %d", charged, limit, grants, exact)
	}
	// A batch that doesn't shrink with the pool strands what others can't get.
	fixed, _, _ := fill(limit, stores, limit/20, 0)
	shrinking, _, _ := fill(limit, stores, limit/20, 2*stores)
	if fixed > limit*9/10 || shrinking < limit*99/100 {
		t.Errorf("of %d a fixed batch has %d charged, and one that shrinks %d", limit, fixed, shrinking)
	}
}

// What is charged before the first refusal, by how many grants, and how many charges there were.
func fill(limit uint64, stores int, batch, share uint64) (charged uint64, grants, exact int) {
	random := rand.New(rand.NewSource(1))
	granted := uint64(0)
	bounds, charges := make([]uint64, stores), make([]uint64, stores)
	for {
		it := random.Intn(stores)
		if random.Intn(it+1) > 0 {
			continue
		}
		need := uint64(1 + random.Intn(20))
		if free := bounds[it] - charges[it]; need > free {
			left, _ := Limited(limit, granted)
			to, isThere := View{Free: left, Grant: bounds[it], Bound: bounds[it]}.Next(need-free, batch, share)
			if !isThere {
				return charged, grants, exact
			}
			granted, bounds[it] = granted+to-bounds[it], to
			grants++
		}
		charges[it] += need
		charged += need
		exact++
	}
}
