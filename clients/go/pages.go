package pibroulez

import "context"

// How many answers a page has.
const pageSize = 64

// WalkAll calls a function with each snapshot that matches, in byte order of the keys, page by page. It ends at the
// function's first error, and hands it on. The function may make calls: what they change after the place of the walk is
// seen as it is when its page is asked for. It makes no entry but by WithEntry, one for each page.
func (s *Store) WalkAll(
	ctx context.Context, namespace string, filter Filter, visit func(Info) error, options ...Option,
) error {
	after := ""
	return eachOf(visit, func() ([]Info, error) {
		page, err := s.Walk(ctx, namespace, after, pageSize, filter, options...)
		if len(page) > 0 {
			after = page[len(page)-1].Name
		}
		return page, err
	})
}

// TreeAll calls a function with each snapshot of a namespace as a tree has it, in byte order of the keys, as WalkAll does.
func (s *Store) TreeAll(ctx context.Context, namespace string, visit func(Node) error) error {
	after := ""
	return eachOf(visit, func() ([]Node, error) {
		page, err := s.TreePage(ctx, namespace, after, pageSize)
		if len(page) > 0 {
			after = page[len(page)-1].Key
		}
		return page, err
	})
}

// DiffAll calls a function with each path that a snapshot's layer changes, in order of the paths, as WalkAll does.
func (s *Store) DiffAll(ctx context.Context, namespace, key string, visit func(Change) error) error {
	after := ""
	return eachOf(visit, func() ([]Change, error) {
		page, err := s.Diff(ctx, namespace, key, after, pageSize)
		if len(page) > 0 {
			after = page[len(page)-1].Path
		}
		return page, err
	})
}

// JournalAll calls a function with each entry of a namespace with a number above one, in order, or of the whole round
// where the namespace is empty, as WalkAll does. Entries that are made meanwhile are among them.
func (s *Store) JournalAll(ctx context.Context, namespace string, after uint64, visit func(Entry) error) error {
	return eachEntry(after, visit, func(after uint64) ([]Entry, error) {
		return s.Journal(ctx, namespace, after, pageSize)
	})
}

// FullJournalAll does the same with the lines that make the calls of the entries.
func (s *Store) FullJournalAll(ctx context.Context, namespace string, after uint64, visit func(Entry) error) error {
	return eachEntry(after, visit, func(after uint64) ([]Entry, error) {
		return s.FullJournal(ctx, namespace, after, pageSize)
	})
}

// LeasesAll calls a function with each lease of a namespace, in the order in which they were created. It ends at the
// function's first error, and hands it on.
func (s *Store) LeasesAll(ctx context.Context, namespace string, visit func(Lease) error) error {
	leases, err := s.Leases(ctx, namespace)
	for i := 0; err == nil && i < len(leases); i++ {
		err = visit(leases[i])
	}
	return err
}

func eachEntry(after uint64, visit func(Entry) error, pageAfter func(uint64) ([]Entry, error)) error {
	return eachOf(visit, func() ([]Entry, error) {
		page, err := pageAfter(after)
		if len(page) > 0 {
			after = page[len(page)-1].Number
		}
		return page, err
	})
}

// Visits what is on each page, until one isn't full.
func eachOf[T any](visit func(T) error, next func() ([]T, error)) error {
	for {
		page, err := next()
		if err != nil {
			return err
		}
		for _, it := range page {
			if err := visit(it); err != nil {
				return err
			}
		}
		if len(page) < pageSize {
			return nil
		}
	}
}
