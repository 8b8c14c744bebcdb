package containerd

import (
	"errors"
	"fmt"
	"os"
	"path/filepath"
	"strings"
	"syscall"

	"github.com/containerd/containerd/log"

	"pibroulez.example/pibroulez"
)

// ErrMismatch is the error of New where the directories aren't those of the store's snapshots: one has another snapshot's
// key, or none, or one of a committed snapshot is missing. The error names each of the first eight, and what the store
// has in its place. Nothing is served then, and nothing has changed.
var ErrMismatch = errors.New("the directories are not those of the store's snapshots")

// How many directories an error names.
const mostNamed = 8

// A root has a file that says what its directories and its log are. One of version 0.1.0 has none.
const (
	formatFile = "format"
	format     = "2\n"
	// Of a root whose directories have records, and whose log may be a client's own.
	formatBefore = "1\n"
)

// What a root has of an earlier version.
type rootAge int

const (
	// Its directories have records, and its log is the process's.
	ofThisVersion rootAge = iota
	// Its log may be one that a client has kept.
	hadOldLog
	// So may it, and its directories need no record.
	lacksRecords
)

// What is found of a snapshot's directory.
type state int

const (
	isMissing state = iota
	hasNoRecord
	isKept
	isBeingRemoved
)

// Compares each directory with the store, and changes nothing. What is found of each snapshot's directory, by its id. In a
// root of version 0.1.0 a directory of a snapshot needs no record.
func (d *directories) compare(nodes []pibroulez.Node, isOld bool) (map[uint64]state, error) {
	entries, err := os.ReadDir(d.path)
	if err != nil {
		return nil, err
	}
	byID := map[uint64]pibroulez.Node{}
	for _, node := range nodes {
		byID[node.ID] = node
	}
	states := map[uint64]state{}
	var wrong []string
	for _, entry := range entries {
		id, is := idOf(entry.Name())
		if !is {
			continue
		}
		node, has := byID[id]
		found, words, err := d.stateOf(id, node, has, isOld)
		if err != nil {
			return nil, err
		}
		states[id] = found
		if words != "" {
			wrong = append(wrong, words)
		}
	}
	for _, node := range nodes {
		if node.Kind == pibroulez.KindCommitted && states[node.ID] == isMissing {
			wrong = append(wrong, fmt.Sprintf("%s is missing, of the committed snapshot %q", d.of(node.ID), node.Key))
		}
	}
	return states, mismatch(wrong)
}

// What is found of the directory of an id, and in words what is wrong with it.
func (d *directories) stateOf(id uint64, node pibroulez.Node, has, isOld bool) (found state, words string, err error) {
	r, said, isRemoving, err := readRecord(d.of(id))
	if err != nil {
		return 0, "", err
	}
	isWhole, err := exists(filepath.Join(d.of(id), "fs"))
	if err != nil {
		return 0, "", err
	}
	switch {
	case has && !isWhole:
		words = fmt.Sprintf("%s has no fs, and the store has %v", d.of(id), recordOf(node))
	case !said && has && !isOld:
		words = fmt.Sprintf("%s has no key, and the store has %v", d.of(id), recordOf(node))
	case said && has && !r.isOf(node):
		words = fmt.Sprintf("%s has the key %v, and the store has %v", d.of(id), r, recordOf(node))
	case said && !has && (!isRemoving || r.ID != id):
		words = fmt.Sprintf("%s has the key %v, and the store has no snapshot of id %d", d.of(id), r, id)
	}
	switch {
	case !said:
		return hasNoRecord, words, nil
	case isRemoving:
		return isBeingRemoved, words, nil
	}
	return isKept, words, nil
}

func mismatch(wrong []string) error {
	if len(wrong) == 0 {
		return nil
	}
	more := ""
	if len(wrong) > mostNamed {
		more = fmt.Sprintf("; and %d more", len(wrong)-mostNamed)
		wrong = wrong[:mostNamed]
	}
	return fmt.Errorf("%w: %s%s", ErrMismatch, strings.Join(wrong, "; "), more)
}

// Has the directory of each snapshot there, with its record, after a comparison that found them so. What a full disk
// doesn't take is left to a later call.
func (d *directories) mend(nodes []pibroulez.Node, states map[uint64]state) (isWhole bool, err error) {
	ids := map[string]uint64{}
	for _, node := range nodes {
		ids[node.Key] = node.ID
	}
	isWhole = true
	for _, node := range nodes {
		var err error
		switch states[node.ID] {
		case isMissing:
			err = d.make(recordOf(node), ids[node.Parent], node.Kind)
		case hasNoRecord:
			err = recordOf(node).write(d.of(node.ID))
		case isBeingRemoved:
			err = unmarkRemoving(d.of(node.ID))
		}
		if isFull(err) {
			isWhole = false
			log.L.WithError(err).WithField("path", d.of(node.ID)).Warn("failed to complete directory")
		} else if err != nil {
			return false, err
		}
	}
	return isWhole, nil
}

// What a root has of an earlier version. The error is of a root of a later one.
func ageOf(root string) (rootAge, error) {
	path := filepath.Join(root, formatFile)
	text, err := os.ReadFile(path)
	switch {
	case errors.Is(err, os.ErrNotExist):
		return lacksRecords, nil
	case err != nil:
		return 0, err
	case string(text) == format:
		return ofThisVersion, nil
	case string(text) == formatBefore:
		return hadOldLog, nil
	}
	return 0, fmt.Errorf("%s is %q, which this version doesn't know", path, text)
}

// Says that a root is of this version.
func writeFormat(root string) error {
	path := filepath.Join(root, formatFile)
	if err := writeSynced(path+".new", []byte(format)); err != nil {
		return err
	}
	if err := os.Rename(path+".new", path); err != nil {
		return err
	}
	return syncFolder(root)
}

// Whether an error is of a disk that is full, or of a quota.
func isFull(err error) bool { return errors.Is(err, syscall.ENOSPC) || errors.Is(err, syscall.EDQUOT) }
