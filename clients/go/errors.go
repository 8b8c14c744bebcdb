package pibroulez

import (
	"encoding/json"
	"errors"
	"fmt"
	"syscall"
)

// ErrDied is the error of each call once the process has ended. The error tells how, too: errors.As gives the
// *exec.ExitError of a process that has ended itself or was killed.
var ErrDied = errors.New("the process has ended")

// ErrLogFailed is the error, beside ErrDied, of each call once a sync of the log has failed. Whether the log has the calls
// that waited is unknown: Open opens the store again that it tells.
var ErrLogFailed = errors.New("a sync of the log failed")

// ErrClosed is the error of each call once the store is closed.
var ErrClosed = errors.New("the store is closed")

// ErrNotText is the error of a call with a text that is not UTF-8, at any depth of its fields, and of a log whose path is
// not. Nothing is sent.
var ErrNotText = errors.New("a text is not UTF-8")

// ErrOption is the error of a call with an option that it doesn't have. Nothing is sent.
var ErrOption = errors.New("the call doesn't have this option")

// ErrReserved is the error of a Request with a field `do` or `id`, which the client gives. Nothing is sent.
var ErrReserved = errors.New("the client gives this field")

// ErrNotSaved is the error of Restore for a line that is no command `restore`. It isn't sent.
var ErrNotSaved = errors.New("not a line of a saved store")

// ErrNotOfSocket is the error of a Config with a socket and another field.
var ErrNotOfSocket = errors.New("a store behind a socket doesn't have this field")

// A Reason is a refusal's name. errors.Is tells whether an error is a refusal of this name, and errors.As with
// a *Refusal what else it tells.
type Reason string

func (r Reason) Error() string { return string(r) }

// Refusals of the store.
const (
	// ErrBadArgument: a key, name, lease, label, limit or page is malformed, or a field of `open`.
	ErrBadArgument Reason = "BadArgument"
	// ErrNoNamespace: the store doesn't have this namespace.
	ErrNoNamespace Reason = "NoNamespace"
	// ErrNamespaceExists: the store has a namespace of this name.
	ErrNamespaceExists Reason = "NamespaceExists"
	// ErrTooManyNamespaces: the store has 4096 namespaces, and can have no more.
	ErrTooManyNamespaces Reason = "TooManyNamespaces"
	// ErrNotFound: there is no such snapshot or parent, or no such name in a lease; of a file, nothing is seen at a
	// path (ENOENT).
	ErrNotFound Reason = "NotFound"
	// ErrAlreadyExists: the key or name is taken.
	ErrAlreadyExists Reason = "AlreadyExists"
	// ErrNotCommitted: the parent, or what a lease is to name, is active or a view.
	ErrNotCommitted Reason = "NotCommitted"
	// ErrNotActive: the snapshot is committed, or a view where an active one is asked for.
	ErrNotActive Reason = "NotActive"
	// ErrHasChildren: another snapshot stands on it.
	ErrHasChildren Reason = "HasChildren"
	// ErrInUse: it is active, so a commit or a discard ends it.
	ErrInUse Reason = "InUse"
	// ErrLeased: a lease names it.
	ErrLeased Reason = "Leased"
	// ErrNoLease: there is no such lease.
	ErrNoLease Reason = "NoLease"
	// ErrLeaseExists: the lease's name is taken.
	ErrLeaseExists Reason = "LeaseExists"
	// ErrTooDeep: the snapshot would have more committed ancestors than the store allows (Config.Ancestors).
	ErrTooDeep Reason = "TooDeep"
	// ErrTooManyActives: as many snapshots are active as the store was opened for.
	ErrTooManyActives Reason = "TooManyActives"
	// ErrOverLimit: the namespace doesn't have that much free. The Refusal tells what it has.
	ErrOverLimit Reason = "OverLimit"
	// ErrBelowCharge: the limit would be below what is charged.
	ErrBelowCharge Reason = "BelowCharge"
	// ErrNumbersSpent: ids, or the numbers of entries or sessions, are used up.
	ErrNumbersSpent Reason = "NumbersSpent"
	// ErrJournalFull: what is left of the journal is kept for discards. Roll begins the next round: see RollWhenFull.
	ErrJournalFull Reason = "JournalFull"
	// ErrNoSession: the session isn't open.
	ErrNoSession Reason = "NoSession"
	// ErrNoHand: the snapshot is sealed by a refused commit.
	ErrNoHand Reason = "NoHand"
	// ErrStillOut: a snapshot is active, so no new round begins.
	ErrStillOut Reason = "StillOut"
	// ErrNotKept: the log can't keep the call, as on a full disk. Nothing was changed: make the call again once there is
	// room. Calls that are read together are kept together or not at all. No call is made again by itself.
	ErrNotKept Reason = "NotKept"
	// ErrBadRestore: a line of a saved store can't be taken, or the store that its lines make. The Refusal tells why.
	ErrBadRestore Reason = "BadRestore"
)

// Refusals of a daemon, which hands on the lines of others. The store has not seen the line.
const (
	// ErrNotAllowed: the caller's role may not make this call.
	ErrNotAllowed Reason = "NotAllowed"
	// ErrNoSpace: the daemon's log has no room for the call. It is syscall.ENOSPC too.
	ErrNoSpace Reason = "NoSpace"
	// ErrTooManyConnections: the caller's user has as many connections as one may have. The connection is ended.
	ErrTooManyConnections Reason = "TooManyConnections"
	// ErrLateLine: a line had no end for as long as the daemon waits. The connection is ended.
	ErrLateLine Reason = "LateLine"
)

// Errors of files. A path at which nothing is seen is ErrNotFound.
const (
	// ErrNotDir: a directory is asked for, and something else is there (ENOTDIR).
	ErrNotDir Reason = "NotDir"
	// ErrIsDir: a directory is there (EISDIR).
	ErrIsDir Reason = "IsDir"
	// ErrExists: something is at the path (EEXIST).
	ErrExists Reason = "Exists"
	// ErrNotEmpty: the directory has entries (ENOTEMPTY), or, from the book, the namespace has a snapshot or a lease.
	ErrNotEmpty Reason = "NotEmpty"
	// ErrCrossDevice: the directory is, whole or in part, of a lower layer (EXDEV).
	ErrCrossDevice Reason = "CrossDevice"
	// ErrInvalid: the operation isn't for this file or value (EINVAL).
	ErrInvalid Reason = "Invalid"
	// ErrNotPermitted: a directory has no hard links (EPERM).
	ErrNotPermitted Reason = "NotPermitted"
	// ErrTooBig: a file or a symlink's target would be too large (EFBIG).
	ErrTooBig Reason = "TooBig"
	// ErrTooManyLinks: more than 40 symlinks (ELOOP).
	ErrTooManyLinks Reason = "TooManyLinks"
	// ErrBadPath: the text is no path.
	ErrBadPath Reason = "BadPath"
	// ErrLayerFull: the layer would have more inodes than the store was opened with (Config.LayerInodes).
	ErrLayerFull Reason = "LayerFull"
)

// A Refusal is the answer to a call that the store doesn't grant.
type Refusal struct {
	Reason Reason `json:"error"`
	// From is "book", "world", "file" for an error of a file, "log" or "restore", and for a refusal of a daemon "door" or
	// "cluster".
	From string `json:"from"`
	// Free is what the namespace has free. ErrOverLimit alone tells it.
	Free Usage `json:"free"`
	// Of is the field of the call that the refusal is about, by its name in a line (docs/SCRIPT.md), as "parent" where a
	// new snapshot's parent isn't found. It is empty where no field alone is the cause.
	Of string `json:"of"`
	// Field is the first malformed field of `open`, where a store is refused for it, and else empty. It is in Of, too.
	Field string `json:"field"`
	// Words say why a daemon's cluster has no room, and who has some, or are empty.
	Words string `json:"words"`
	// Why says what is wrong with a line of a saved store, or with the store that its lines make, in the words of
	// docs/SCRIPT.md. ErrBadRestore alone tells it.
	Why string `json:"why"`
}

// The refusal that an answer tells.
func refusalIn(text []byte) (*Refusal, error) {
	refusal := new(Refusal)
	if err := json.Unmarshal(text, refusal); err != nil {
		return nil, err
	}
	if refusal.Of == "" {
		refusal.Of = refusal.Field
	}
	return refusal, nil
}

func (r *Refusal) Error() string {
	words := fmt.Sprintf("%s (from %s)", r.Reason, r.From)
	for _, more := range []string{r.Words, r.Why} {
		if more != "" {
			words += ": " + more
		}
	}
	return words
}

// Unwrap is the refusal's name.
func (r *Refusal) Unwrap() error { return r.Reason }

// Is says that a daemon's ErrNoSpace is the system's error too, as that of a log of the client's own.
func (r *Refusal) Is(target error) bool { return r.Reason == ErrNoSpace && target == syscall.ENOSPC }

// What has ended the process, as an ErrDied.
type died struct{ cause error }

func (d *died) Error() string { return fmt.Sprintf("%v: %v", ErrDied, d.cause) }

func (d *died) Is(target error) bool { return target == ErrDied }

func (d *died) Unwrap() error { return d.cause }

// What has ended a process whose log failed, as an ErrLogFailed.
type failedLog struct {
	exit  error
	words string
}

func (f *failedLog) Error() string { return fmt.Sprintf("%v: %s", f.exit, f.words) }

func (f *failedLog) Is(target error) bool { return target == ErrLogFailed }

func (f *failedLog) Unwrap() error { return f.exit }

// A Fault is the answer to a line that is no command. Nothing has changed.
type Fault struct {
	Words string `json:"fault"`
	// Line is the line's number, from 1, of all lines that the process was sent.
	Line uint64 `json:"line"`
}

func (f *Fault) Error() string { return fmt.Sprintf("line %d: %s", f.Line, f.Words) }
