package pibroulez

import (
	"context"
	"strings"
)

// An Option gives a call a field that may be left out. One that the call doesn't have is ErrOption: nothing is sent.
type Option struct {
	field string
	// A nil value takes the field away.
	value any
	// The commands that have it; nil is for each.
	of []string
}

// WithSession has the call made in a session of this number, in place of 0. Where no entry is made, it is ignored.
func WithSession(number uint64) Option { return Option{"s", number, nil} }

// WithEntry has Stat, Usage, Mounts or Walk make an entry in the journal. A log then has the question, the session has to
// be open, and where the journal is full it is ErrJournalFull.
func WithEntry() Option { return Option{"quiet", nil, questions} }

// WithLabels gives a new snapshot labels. A committed one has them in place of those of the active one.
func WithLabels(labels map[string]string) Option {
	return Option{"labels", orEmpty(labels), []string{"prepare", "view", "commit"}}
}

// WithWant gives a charge an amount that is charged where it fits.
func WithWant(want Usage) Option { return Option{"want", want, []string{"charge"}} }

// WithLease lets a lease name the snapshot that is committed.
func WithLease(lease string) Option { return Option{"lease", lease, []string{"commit"}} }

// WithUntil gives a lease its last moment.
func WithUntil(moment uint64) Option { return Option{"until", moment, []string{"lease_create"}} }

// WithMode gives a new file or directory its mode.
func WithMode(mode uint32) Option { return Option{"mode", mode, []string{"mkdir", "create", "put"}} }

// WithDigest says by which digest the content of a file of a size is known.
func WithDigest(digest string) Option { return Option{"digest", digest, []string{"put"}} }

// WithExtra has a file command charge this much more, where it makes a charge and that fits.
func WithExtra(extra Usage) Option { return Option{"extra", extra, fileCommands} }

// WithWhole has a batch do all of its operations or none: where one is refused, the layer is as it was.
func WithWhole() Option { return Option{"whole", true, []string{"batch"}} }

// WithPeek lets a lookup be of a committed snapshot too.
func WithPeek() Option { return Option{"peek", true, lookups} }

func (o Option) isOf(do string) bool {
	for _, it := range o.of {
		if it == do {
			return true
		}
	}
	return o.of == nil
}

// The commands that ask for snapshots. They make an entry where they aren't quiet.
var questions = []string{"stat", "usage", "mounts", "walk"}

var fileCommands = []string{
	"mkdir", "create", "put", "write", "truncate", "setmode", "symlink", "link", "rename", "unlink", "rmdir", "opaque",
	"whiteout",
}

var lookups = []string{"look", "list", "read", "resolve", "du"}

// A Filter has the parts that a snapshot must match. Nil parts match each.
type Filter struct {
	Name, Parent *string
	Kind         Kind
	// Labels are the labels with their values, or nil for any value.
	Labels map[string]*string
}

// Session opens a session. Its number.
func (s *Store) Session(ctx context.Context) (uint64, error) {
	var answer struct{ Session uint64 }
	err := s.call(ctx, "session", fields{}, nil, &answer)
	return answer.Session, err
}

// Reopen begins the next round of the journal, of at most this number of entries, or of the default where it is 0.
func (s *Store) Reopen(ctx context.Context, journal uint64) error {
	return s.begin(ctx, "reopen", journal)
}

// Roll begins the next round as Reopen does, and snapshots may be active: they stay as they are.
func (s *Store) Roll(ctx context.Context, journal uint64) error { return s.begin(ctx, "roll", journal) }

// Prepare makes an active snapshot on a committed one, or on none where the parent is empty.
func (s *Store) Prepare(ctx context.Context, namespace, key, parent string, options ...Option) (Prepared, error) {
	var answer Prepared
	err := s.call(ctx, "prepare", fields{"ns": namespace, "key": key, "parent": parent}, options, &answer)
	return answer, err
}

// View makes a view of a committed snapshot, or of none where the parent is empty.
func (s *Store) View(ctx context.Context, namespace, key, parent string, options ...Option) (Viewed, error) {
	var answer Viewed
	err := s.call(ctx, "view", fields{"ns": namespace, "key": key, "parent": parent}, options, &answer)
	return answer, err
}

// Charge charges an active snapshot what is needed, or what WithWant says. What is charged now.
func (s *Store) Charge(ctx context.Context, namespace, key string, need Usage, options ...Option) (Usage, error) {
	var answer struct{ Share Usage }
	err := s.call(ctx, "charge", fields{"ns": namespace, "key": key, "need": need}, options, &answer)
	return answer.Share, err
}

// Trim lowers the charge of an active snapshot to what its layer takes. What is charged now.
func (s *Store) Trim(ctx context.Context, namespace, key string, options ...Option) (Usage, error) {
	var answer struct{ Share Usage }
	err := s.call(ctx, "trim", snapshot(namespace, key), options, &answer)
	return answer.Share, err
}

// Commit commits an active snapshot under a name, with the labels that it has or those of WithLabels. A refusal seals
// the snapshot.
func (s *Store) Commit(ctx context.Context, namespace, key, name string, options ...Option) (Committed, error) {
	var answer Committed
	err := s.call(ctx, "commit", fields{"ns": namespace, "key": key, "name": name}, options, &answer)
	return answer, err
}

// Discard drops an active snapshot. What was charged for it.
func (s *Store) Discard(ctx context.Context, namespace, key string, options ...Option) (Usage, error) {
	var answer struct{ Freed Usage }
	err := s.call(ctx, "discard", snapshot(namespace, key), options, &answer)
	return answer.Freed, err
}

// Remove removes a committed snapshot or a view. What was charged for it.
func (s *Store) Remove(ctx context.Context, namespace, key string, options ...Option) (Usage, error) {
	var answer struct{ Freed Usage }
	err := s.call(ctx, "remove", snapshot(namespace, key), options, &answer)
	return answer.Freed, err
}

// Stat tells a snapshot of any kind. It makes no entry but by WithEntry.
func (s *Store) Stat(ctx context.Context, namespace, key string, options ...Option) (Info, error) {
	var answer struct{ Info Info }
	err := s.ask(ctx, "stat", snapshot(namespace, key), options, &answer)
	return answer.Info, err
}

// Update sets the labels that the paths name (`labels.x`), or all, and removes those that get no value.
func (s *Store) Update(ctx context.Context, namespace, key string, labels map[string]string, paths []string, options ...Option) (Info, error) {
	var answer struct{ Info Info }
	given := fields{"ns": namespace, "key": key, "labels": orEmpty(labels)}
	if len(paths) > 0 {
		given["paths"] = paths
	}
	err := s.call(ctx, "update", given, options, &answer)
	return answer.Info, err
}

// Usage tells what is charged for a snapshot alone. It makes no entry but by WithEntry.
func (s *Store) Usage(ctx context.Context, namespace, key string, options ...Option) (Usage, error) {
	var answer struct{ Usage Usage }
	err := s.ask(ctx, "usage", snapshot(namespace, key), options, &answer)
	return answer.Usage, err
}

// ChainUsage tells what is charged for a snapshot and all its ancestors, each once. It makes no entry.
func (s *Store) ChainUsage(ctx context.Context, namespace, key string) (Usage, error) {
	var answer struct{ Usage Usage }
	given := snapshot(namespace, key)
	given["chain"] = true
	err := s.call(ctx, "usage", given, nil, &answer)
	return answer.Usage, err
}

// Mounts tells how an active snapshot or a view is mounted. It makes no entry but by WithEntry.
func (s *Store) Mounts(ctx context.Context, namespace, key string, options ...Option) ([]Mount, error) {
	var answer struct{ Mounts []Mount }
	err := s.ask(ctx, "mounts", snapshot(namespace, key), options, &answer)
	return answer.Mounts, err
}

// Walk tells a page of the snapshots that match, in byte order of their keys: those after a key, and of these the
// first max, 1 to 64, or 64 where it is 0. It makes no entry but by WithEntry.
func (s *Store) Walk(ctx context.Context, namespace, after string, max int, filter Filter, options ...Option) ([]Info, error) {
	var answer struct{ Infos []Info }
	given := fields{"ns": namespace, "after": after}
	if max != 0 {
		given["max"] = max
	}
	if filter.Name != nil {
		given["name"] = *filter.Name
	}
	if filter.Parent != nil {
		given["parent"] = *filter.Parent
	}
	if filter.Kind != "" {
		given["kind"] = filter.Kind
	}
	if filter.Labels != nil {
		given["labels"] = filter.Labels
	}
	err := s.ask(ctx, "walk", given, options, &answer)
	return answer.Infos, err
}

// LeaseCreate makes a lease, without a last moment but where WithUntil gives one.
func (s *Store) LeaseCreate(ctx context.Context, namespace, lease string, options ...Option) error {
	return s.call(ctx, "lease_create", fields{"ns": namespace, "lease": lease}, options, nil)
}

// LeaseAdd lets a lease name a committed snapshot.
func (s *Store) LeaseAdd(ctx context.Context, namespace, lease, name string, options ...Option) error {
	return s.call(ctx, "lease_add", fields{"ns": namespace, "lease": lease, "name": name}, options, nil)
}

// LeaseDrop takes one name out of a lease. It is ErrNotFound where the lease doesn't have the name.
func (s *Store) LeaseDrop(ctx context.Context, namespace, lease, name string, options ...Option) error {
	return s.call(ctx, "lease_drop", fields{"ns": namespace, "lease": lease, "name": name}, options, nil)
}

// LeaseRelease takes a lease away.
func (s *Store) LeaseRelease(ctx context.Context, namespace, lease string, options ...Option) error {
	return s.call(ctx, "lease_release", fields{"ns": namespace, "lease": lease}, options, nil)
}

// Limit gives a namespace another limit.
func (s *Store) Limit(ctx context.Context, namespace string, limit Usage, options ...Option) error {
	given := fields{"ns": namespace, "blocks": limit.Blocks, "inodes": limit.Inodes}
	return s.call(ctx, "limit", given, options, nil)
}

// NamespaceCreate makes a namespace with its limit, blocks of 4096 bytes and inodes, each 0 to 2^40. It has no snapshot, no
// lease and no charge, whatever an earlier one of this name had.
//
// It is ErrBadArgument where the name isn't 1 to 255 bytes without NUL, or a quantity is above 2^40, else
// ErrNamespaceExists where the store has it, and else ErrTooManyNamespaces where the store has 4096. After a refusal the
// namespaces are as they were.
func (s *Store) NamespaceCreate(ctx context.Context, namespace string, limit Usage, options ...Option) error {
	given := fields{"ns": namespace, "blocks": limit.Blocks, "inodes": limit.Inodes}
	return s.call(ctx, "namespace_create", given, options, nil)
}

// What the name of a namespace begins with that is the identity of a store of a cluster, and no tenant's.
const identityBegin = "pibroulez-store-"

// IsIdentity says whether a namespace of this name is there for the identity of a store of a cluster, and is no tenant.
func IsIdentity(namespace string) bool { return strings.HasPrefix(namespace, identityBegin) }

// NamespaceRemove removes a namespace and its limit. A call on it is ErrNoNamespace then, and no question tells it.
//
// It is ErrNoNamespace where the store doesn't have it, and else ErrNotEmpty where it has a snapshot of any kind or a lease.
// After a refusal it is as it was.
func (s *Store) NamespaceRemove(ctx context.Context, namespace string, options ...Option) error {
	return s.call(ctx, "namespace_remove", fields{"ns": namespace}, options, nil)
}

// Sweep takes the leases that have ended at a moment, and the committed snapshots that nothing in use stands on.
func (s *Store) Sweep(ctx context.Context, namespace string, now uint64, options ...Option) (Swept, error) {
	var answer Swept
	err := s.call(ctx, "sweep", fields{"ns": namespace, "now": now}, options, &answer)
	return answer, err
}

// TrySweep tells what a sweep would take. Nothing goes, and it makes no entry.
func (s *Store) TrySweep(ctx context.Context, namespace string, now uint64) (Swept, error) {
	var answer Swept
	err := s.call(ctx, "sweep", fields{"ns": namespace, "now": now, "try": true}, nil, &answer)
	return answer, err
}

// Mkdir makes a directory.
func (s *Store) Mkdir(ctx context.Context, namespace, key, path string, options ...Option) (Changed, error) {
	return s.change(ctx, "mkdir", file(namespace, key, path), options)
}

// Create makes an empty file.
func (s *Store) Create(ctx context.Context, namespace, key, path string, options ...Option) (Changed, error) {
	return s.change(ctx, "create", file(namespace, key, path), options)
}

// Put makes a file of a size in bytes, which aren't kept.
func (s *Store) Put(ctx context.Context, namespace, key, path string, size uint64, options ...Option) (Changed, error) {
	given := file(namespace, key, path)
	given["size"] = size
	return s.change(ctx, "put", given, options)
}

// WriteText writes a text into a file.
func (s *Store) WriteText(ctx context.Context, namespace, key, path string, offset uint64, text string, options ...Option) (Changed, error) {
	given := file(namespace, key, path)
	given["offset"], given["text"] = offset, text
	return s.change(ctx, "write", given, options)
}

// WriteFill writes a byte a number of times into a file.
func (s *Store) WriteFill(ctx context.Context, namespace, key, path string, offset uint64, fill byte, count uint64, options ...Option) (Changed, error) {
	given := file(namespace, key, path)
	given["offset"], given["fill"] = offset, [2]uint64{uint64(fill), count}
	return s.change(ctx, "write", given, options)
}

// Truncate cuts a file, or fills it with zero bytes, to a size.
func (s *Store) Truncate(ctx context.Context, namespace, key, path string, size uint64, options ...Option) (Changed, error) {
	given := file(namespace, key, path)
	given["size"] = size
	return s.change(ctx, "truncate", given, options)
}

// Setmode sets the mode of a file or directory.
func (s *Store) Setmode(ctx context.Context, namespace, key, path string, mode uint32, options ...Option) (Changed, error) {
	given := file(namespace, key, path)
	given["mode"] = mode
	return s.change(ctx, "setmode", given, options)
}

// Symlink makes a symlink.
func (s *Store) Symlink(ctx context.Context, namespace, key, path, target string, options ...Option) (Changed, error) {
	given := file(namespace, key, path)
	given["target"] = target
	return s.change(ctx, "symlink", given, options)
}

// Link gives a file or symlink one more name.
func (s *Store) Link(ctx context.Context, namespace, key, oldPath, newPath string, options ...Option) (Changed, error) {
	return s.change(ctx, "link", files(namespace, key, oldPath, newPath), options)
}

// Rename moves what is at a path.
func (s *Store) Rename(ctx context.Context, namespace, key, oldPath, newPath string, options ...Option) (Changed, error) {
	return s.change(ctx, "rename", files(namespace, key, oldPath, newPath), options)
}

// Unlink removes a file or symlink.
func (s *Store) Unlink(ctx context.Context, namespace, key, path string, options ...Option) (Changed, error) {
	return s.change(ctx, "unlink", file(namespace, key, path), options)
}

// Rmdir removes an empty directory.
func (s *Store) Rmdir(ctx context.Context, namespace, key, path string, options ...Option) (Changed, error) {
	return s.change(ctx, "rmdir", file(namespace, key, path), options)
}

// Whiteout removes what is at a path, a directory with all that is in it.
func (s *Store) Whiteout(ctx context.Context, namespace, key, path string, options ...Option) (Changed, error) {
	return s.change(ctx, "whiteout", file(namespace, key, path), options)
}

// Opaque hides what the layers below have in a directory.
func (s *Store) Opaque(ctx context.Context, namespace, key, path string, options ...Option) (Changed, error) {
	return s.change(ctx, "opaque", file(namespace, key, path), options)
}

// Look tells what is seen at a path of an active snapshot or a view, and WithPeek of a committed one.
func (s *Store) Look(ctx context.Context, namespace, key, path string, options ...Option) (Seen, error) {
	var answer struct{ Seen Seen }
	err := s.call(ctx, "look", file(namespace, key, path), options, &answer)
	return answer.Seen, err
}

// List tells the names in a directory, in byte order.
func (s *Store) List(ctx context.Context, namespace, key, path string, options ...Option) ([]string, error) {
	var answer struct{ Names []string }
	err := s.call(ctx, "list", file(namespace, key, path), options, &answer)
	return answer.Names, err
}

// Read tells the first bytes of a file, and its size; of one whose bytes aren't kept its size and its digest.
func (s *Store) Read(ctx context.Context, namespace, key, path string, options ...Option) (Content, error) {
	var answer Content
	err := s.call(ctx, "read", file(namespace, key, path), options, &answer)
	return answer, err
}

// ReadPart tells the bytes of a file from an offset on, at most max of them, or all where it is 0, and its size; of one
// whose bytes aren't kept its size and its digest.
func (s *Store) ReadPart(ctx context.Context, namespace, key, path string, offset, max uint64, options ...Option) (Part, error) {
	var answer Part
	given := file(namespace, key, path)
	given["offset"] = offset
	if max != 0 {
		given["max"] = max
	}
	err := s.call(ctx, "read", given, options, &answer)
	return answer, err
}

// Resolve tells where a path leads, its symlinks followed.
func (s *Store) Resolve(ctx context.Context, namespace, key, path string, options ...Option) (string, error) {
	var answer struct{ Path string }
	err := s.call(ctx, "resolve", file(namespace, key, path), options, &answer)
	return answer.Path, err
}

// DiskUsage tells what is taken by what is seen at a path and below it, as du(1) counts it.
func (s *Store) DiskUsage(ctx context.Context, namespace, key, path string, options ...Option) (Usage, error) {
	var answer struct{ Blocks, Inodes uint64 }
	err := s.call(ctx, "du", file(namespace, key, path), options, &answer)
	return Usage{answer.Blocks, answer.Inodes}, err
}

// Quota tells what a namespace may take and what it takes.
func (s *Store) Quota(ctx context.Context, namespace string) (Quota, error) {
	quotas, err := s.quotas(ctx, fields{"ns": namespace})
	return quotas[namespace], err
}

// Quotas tells what each namespace may take and what it takes.
func (s *Store) Quotas(ctx context.Context) (map[string]Quota, error) { return s.quotas(ctx, fields{}) }

func (s *Store) quotas(ctx context.Context, given fields) (map[string]Quota, error) {
	var answer struct{ Quota map[string]Quota }
	err := s.call(ctx, "quota", given, nil, &answer)
	return answer.Quota, err
}

// Leases tells the leases of a namespace, in the order in which they were created.
func (s *Store) Leases(ctx context.Context, namespace string) ([]Lease, error) {
	return s.leases(ctx, fields{"ns": namespace})
}

// Lease tells one lease.
func (s *Store) Lease(ctx context.Context, namespace, lease string) (Lease, error) {
	leases, err := s.leases(ctx, fields{"ns": namespace, "lease": lease})
	if err != nil {
		return Lease{}, err
	}
	return leases[0], nil
}

func (s *Store) leases(ctx context.Context, given fields) ([]Lease, error) {
	var answer struct{ Leases []Lease }
	err := s.call(ctx, "leases", given, nil, &answer)
	return answer.Leases, err
}

// Tree tells all snapshots of a namespace, in byte order of their keys. Other lines wait until it has answered: TreeAll
// asks for a page at a time.
func (s *Store) Tree(ctx context.Context, namespace string) ([]Node, error) {
	var answer struct{ Tree []Node }
	err := s.call(ctx, "tree", fields{"ns": namespace}, nil, &answer)
	return answer.Tree, err
}

// TreePage tells a page of the snapshots of a namespace, in byte order of their keys: of those after a key, or of all
// where it is empty, the first max, 1 to 64, or 64 where it is 0.
func (s *Store) TreePage(ctx context.Context, namespace, after string, max int) ([]Node, error) {
	given := fields{"ns": namespace, "after": after}
	if max != 0 {
		given["max"] = max
	}
	var answer struct{ Tree []Node }
	err := s.call(ctx, "tree", given, nil, &answer)
	return answer.Tree, err
}

// Diff tells a page of what a snapshot's layer changes, in order of the paths: of those after a path, or of all where
// it is empty, the first max, 1 to 64, or 64 where it is 0.
func (s *Store) Diff(ctx context.Context, namespace, key, after string, max int) ([]Change, error) {
	given := fields{"ns": namespace, "key": key, "after": after}
	if max != 0 {
		given["max"] = max
	}
	var answer struct{ Changes []Change }
	err := s.call(ctx, "diff", given, nil, &answer)
	return answer.Changes, err
}

// Journal tells a page of the entries of a namespace since it was last made, or of all entries of the round where it is
// empty, in order: those after a number, and of these the first max, 1 to 64, or 64 where it is 0.
func (s *Store) Journal(ctx context.Context, namespace string, after uint64, max int) ([]Entry, error) {
	return s.journal(ctx, namespace, fields{"after": after}, max)
}

// FullJournal tells the same with the lines that make the calls of the entries.
func (s *Store) FullJournal(ctx context.Context, namespace string, after uint64, max int) ([]Entry, error) {
	return s.journal(ctx, namespace, fields{"after": after, "full": true}, max)
}

func (s *Store) journal(ctx context.Context, namespace string, given fields, max int) ([]Entry, error) {
	var answer struct{ Journal []Entry }
	if namespace != "" {
		given["ns"] = namespace
	}
	if max != 0 {
		given["max"] = max
	}
	err := s.call(ctx, "journal", given, nil, &answer)
	return answer.Journal, err
}

// Report tells the whole store.
func (s *Store) Report(ctx context.Context) (Report, error) {
	var answer Report
	err := s.call(ctx, "report", fields{}, nil, &answer)
	return answer, err
}

// Asks without an entry, where no option wants one.
func (s *Store) ask(ctx context.Context, do string, given fields, options []Option, answer any) error {
	given["quiet"] = true
	return s.call(ctx, do, given, options, answer)
}

func (s *Store) change(ctx context.Context, do string, given fields, options []Option) (Changed, error) {
	var answer Changed
	err := s.call(ctx, do, given, options, &answer)
	return answer, err
}

func snapshot(namespace, key string) fields { return fields{"ns": namespace, "key": key} }

func file(namespace, key, path string) fields {
	return fields{"ns": namespace, "key": key, "path": path}
}

func files(namespace, key, oldPath, newPath string) fields {
	return fields{"ns": namespace, "key": key, "from": oldPath, "to": newPath}
}

// A nil map would be null, which is no labels to the process.
func orEmpty(labels map[string]string) map[string]string {
	if labels == nil {
		return map[string]string{}
	}
	return labels
}
