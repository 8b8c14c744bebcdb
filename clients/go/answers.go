package pibroulez

import (
	"encoding/hex"
	"encoding/json"
	"fmt"
)

// A Usage is blocks of 4096 bytes, and inodes.
type Usage struct {
	Blocks, Inodes uint64
}

// MarshalJSON is the pair.
func (u Usage) MarshalJSON() ([]byte, error) { return json.Marshal([2]uint64{u.Blocks, u.Inodes}) }

// UnmarshalJSON takes a pair.
func (u *Usage) UnmarshalJSON(text []byte) error {
	var pair [2]uint64
	if err := json.Unmarshal(text, &pair); err != nil {
		return err
	}
	u.Blocks, u.Inodes = pair[0], pair[1]
	return nil
}

func (u Usage) String() string { return fmt.Sprintf("%d/%d", u.Blocks, u.Inodes) }

// A Kind is what a snapshot is.
type Kind string

// The kinds of snapshots.
const (
	KindView      Kind = "View"
	KindActive    Kind = "Active"
	KindCommitted Kind = "Committed"
)

// Prepared is a new active snapshot.
type Prepared struct {
	// Chain is the ids of its ancestors, nearest first.
	Chain []uint64 `json:"chain"`
	ID    uint64   `json:"id"`
	Slot  int      `json:"slot"`
}

// Viewed is a new view.
type Viewed struct {
	// Chain is the ids of its ancestors, nearest first.
	Chain []uint64 `json:"chain"`
	ID    uint64   `json:"id"`
}

// Committed is a new committed snapshot.
type Committed struct {
	ID uint64 `json:"id"`
	// Usage is what its layer takes and is charged.
	Usage Usage `json:"usage"`
}

// Changed is what a file command leaves.
type Changed struct {
	// Count is what the layer takes, and Share what is charged for it.
	Count Usage `json:"count"`
	Share Usage `json:"share"`
}

// Info is a snapshot.
type Info struct {
	Name   string            `json:"name"`
	Parent string            `json:"parent"`
	Kind   Kind              `json:"kind"`
	Labels map[string]string `json:"labels"`
	ID     uint64            `json:"id"`
	// Created and Updated are numbers of entries of the journal.
	Created uint64 `json:"created"`
	Updated uint64 `json:"updated"`
}

// Mount is the arguments of mount(8).
type Mount struct {
	Type    string   `json:"type"`
	Source  string   `json:"source"`
	Options []string `json:"options"`
}

// Swept is what a sweep has taken.
type Swept struct {
	// Freed is what was charged for the snapshots.
	Freed Usage `json:"freed"`
	// Leases is how many leases have gone.
	Leases int `json:"leases"`
	// Removed is the keys of the snapshots, in byte order.
	Removed []string `json:"removed"`
}

// A FileType is what is seen at a path.
type FileType string

// The types of files.
const (
	Nothing   FileType = ""
	Directory FileType = "dir"
	File      FileType = "file"
	Symlink   FileType = "symlink"
)

// Seen is what is seen at a path.
type Seen struct {
	Type FileType
	// Mode is that of a directory or a file.
	Mode uint32
	// Size is that of a file, in bytes.
	Size uint64
	// Sized says that the file's bytes aren't kept. Digest is then what its content is known by, or empty.
	Sized  bool
	Digest string
	// Target is that of a symlink.
	Target string
}

// UnmarshalJSON takes what `look` answers.
func (s *Seen) UnmarshalJSON(text []byte) error {
	var seen struct {
		Dir, File *uint32
		Size      uint64
		Digest    digest
		Symlink   *string
	}
	if err := json.Unmarshal(text, &seen); err != nil {
		return err
	}
	switch {
	case seen.Dir != nil:
		*s = Seen{Type: Directory, Mode: *seen.Dir}
	case seen.File != nil:
		*s = Seen{Type: File, Mode: *seen.File, Size: seen.Size, Sized: seen.Digest.told, Digest: seen.Digest.text}
	case seen.Symlink != nil:
		*s = Seen{Type: Symlink, Target: *seen.Symlink}
	default:
		*s = Seen{}
	}
	return nil
}

// Content is the beginning of a file.
type Content struct {
	// Head is its first bytes, at most 16.
	Head Bytes
	// Size is the file's, in bytes.
	Size uint64
	// Sized says that the file's bytes aren't kept. Digest is then what its content is known by, or empty.
	Sized  bool
	Digest string
}

// UnmarshalJSON takes what `read` answers.
func (c *Content) UnmarshalJSON(text []byte) error {
	var read struct {
		Head   Bytes
		Size   uint64
		Digest digest
	}
	if err := json.Unmarshal(text, &read); err != nil {
		return err
	}
	*c = Content{read.Head, read.Size, read.Digest.told, read.Digest.text}
	return nil
}

// Part is a part of the bytes of a file.
type Part struct {
	// Bytes are those from the offset on, and none of a file whose bytes aren't kept.
	Bytes Bytes
	// Size is the file's, in bytes.
	Size uint64
	// Sized says that the file's bytes aren't kept. Digest is then what its content is known by, or empty.
	Sized  bool
	Digest string
}

// UnmarshalJSON takes what `read` answers where it is asked for a part.
func (p *Part) UnmarshalJSON(text []byte) error {
	var read struct {
		Bytes  Bytes
		Size   uint64
		Digest digest
	}
	if err := json.Unmarshal(text, &read); err != nil {
		return err
	}
	*p = Part{read.Bytes, read.Size, read.Digest.told, read.Digest.text}
	return nil
}

// A digest is told of a file whose bytes aren't kept, as a text or null.
type digest struct {
	told bool
	text string
}

// UnmarshalJSON is called where the member is there, also where it is null.
func (d *digest) UnmarshalJSON(text []byte) error {
	d.told = true
	return json.Unmarshal(text, &d.text)
}

// Bytes are told in hexadecimal.
type Bytes []byte

// UnmarshalText takes hexadecimal digits.
func (b *Bytes) UnmarshalText(text []byte) error {
	*b = make([]byte, hex.DecodedLen(len(text)))
	_, err := hex.Decode(*b, text)
	return err
}

// Quota is what a namespace may take and what it takes.
type Quota struct {
	Limit Usage `json:"limit"`
	// Charged is what the committed snapshots are charged and the active ones.
	Charged   Usage `json:"charged"`
	Committed Usage `json:"committed"`
	// Open is what the active snapshots are charged, and Spare what of that their layers don't take. A trim gives it back,
	// but of a sealed one.
	Open  Usage `json:"open"`
	Spare Usage `json:"spare"`
	// Free is what the limit leaves.
	Free Usage `json:"free"`
}

// Lease is a lease of a namespace.
type Lease struct {
	Name string `json:"lease"`
	// Names are the snapshots that it names, in the order in which it got them.
	Names []string `json:"names"`
	// Until is its last moment, or nil where it has none.
	Until *uint64 `json:"until"`
}

// Node is a snapshot in a tree.
type Node struct {
	Key    string `json:"key"`
	Parent string `json:"parent"`
	Kind   Kind   `json:"kind"`
	ID     uint64 `json:"id"`
	// Usage is what is charged for it alone.
	Usage Usage `json:"usage"`
	// Children is how many snapshots stand on it.
	Children int `json:"children"`
}

// Change is what a snapshot's layer changes at a path.
type Change struct {
	// Change is "added", "changed" or "removed".
	Change string `json:"change"`
	Path   string `json:"path"`
}

// Entry is an entry of the journal.
type Entry struct {
	Number  uint64 `json:"number"`
	Session uint64 `json:"session"`
	Call    string `json:"call"`
	// Namespace is that of the call or of the active snapshot that it is on, where the journal is asked for without one.
	// That of a session is empty.
	Namespace string `json:"ns"`
	// Charge is what the namespace is charged after it, where the journal is asked for with one.
	Charge Usage `json:"charge"`
	// Key is the key or name that the call has, or empty.
	Key string `json:"key"`
	// ID is the snapshot that the call is on or has made, or 0.
	ID uint64 `json:"id"`
	// Refused is the refusal's name, or empty.
	Refused Reason `json:"refused"`
	// Line is the line of a script that makes its call, where the journal is asked for in full, or empty.
	Line string `json:"line"`
}

// Report is the whole store.
type Report struct {
	// Entries is those of the journal's round.
	Entries uint64 `json:"entries"`
	// Open is the active snapshots, and Records all snapshots.
	Open    int `json:"open"`
	Records int `json:"records"`
	// Totals is what each namespace is charged.
	Totals map[string]Usage `json:"totals"`
}
