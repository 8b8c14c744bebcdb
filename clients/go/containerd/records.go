package containerd

import (
	"bytes"
	"encoding/json"
	"errors"
	"fmt"
	"io/fs"
	"os"
	"path/filepath"
	"syscall"

	"pibroulez.example/pibroulez"
)

// The file beside `fs` that says of which snapshot a directory is. While its snapshot is being removed it has the other
// name, so that a directory without a snapshot is known as one that was to go.
const (
	keyFile      = "key"
	removingFile = "removing"
)

// What the file of a directory says. It is written, and on the disk, before the store or the directory's name says the
// same.
type record struct {
	// ID is the snapshot's, and the directory's name.
	ID uint64 `json:"id"`
	// Key is what an active snapshot or a view was made under. It is empty where that isn't known any more.
	Key string `json:"key,omitempty"`
	// Name is what the snapshot is committed under, or is about to be.
	Name string `json:"name,omitempty"`
}

// The record of a snapshot, where the store is right.
func recordOf(node pibroulez.Node) record {
	if node.Kind == pibroulez.KindCommitted {
		return record{ID: node.ID, Name: node.Key}
	}
	return record{ID: node.ID, Key: node.Key}
}

// Whether it says that the directory is the snapshot's. A committed snapshot has its name, another one its key: a commit
// that was not made, or not answered, leaves a record with both.
func (r record) isOf(node pibroulez.Node) bool {
	if node.Kind == pibroulez.KindCommitted {
		return r.ID == node.ID && r.Name == node.Key
	}
	return r.ID == node.ID && r.Key == node.Key
}

func (r record) String() string {
	switch {
	case r.Name == "":
		return fmt.Sprintf("%q of id %d", r.Key, r.ID)
	case r.Key == "":
		return fmt.Sprintf("%q of id %d", r.Name, r.ID)
	}
	return fmt.Sprintf("%q, to be committed as %q, of id %d", r.Key, r.Name, r.ID)
}

// Writes the record into a directory in place of one that may be there, and has it on the disk.
func (r record) write(directory string) error {
	path := filepath.Join(directory, keyFile)
	if err := r.writeFile(path + ".new"); err != nil {
		os.Remove(path + ".new")
		return err
	}
	if err := os.Rename(path+".new", path); err != nil {
		return err
	}
	return syncFolder(directory)
}

// Writes the record into a directory that has no name yet, and has it on the disk.
func (r record) writeFirst(directory string) error {
	if err := r.writeFile(filepath.Join(directory, keyFile)); err != nil {
		return err
	}
	return syncFolder(directory)
}

func (r record) writeFile(path string) error {
	text, err := json.Marshal(r)
	if err != nil {
		return err
	}
	return writeSynced(path, append(text, '\n'))
}

// What a directory says. found is false where it says nothing, or nothing that is a record; isRemoving says that its
// snapshot was being removed.
func readRecord(directory string) (r record, found, isRemoving bool, err error) {
	text, err := os.ReadFile(filepath.Join(directory, keyFile))
	if errors.Is(err, fs.ErrNotExist) {
		isRemoving = true
		text, err = os.ReadFile(filepath.Join(directory, removingFile))
	}
	if errors.Is(err, fs.ErrNotExist) || errors.Is(err, syscall.ENOTDIR) {
		return record{}, false, false, nil
	}
	if err != nil {
		return record{}, false, false, err
	}
	reader := json.NewDecoder(bytes.NewReader(text))
	reader.DisallowUnknownFields()
	if reader.Decode(&r) != nil || reader.More() {
		return record{}, false, false, nil
	}
	return r, true, isRemoving, nil
}

// Says in a directory that its snapshot is being removed, and has that on the disk. It takes no room there.
func markRemoving(directory string) error {
	if err := os.Rename(filepath.Join(directory, keyFile), filepath.Join(directory, removingFile)); err != nil {
		return err
	}
	return syncFolder(directory)
}

// Says in a directory that its snapshot stays.
func unmarkRemoving(directory string) error {
	err := os.Rename(filepath.Join(directory, removingFile), filepath.Join(directory, keyFile))
	if errors.Is(err, fs.ErrNotExist) {
		return nil
	}
	return err
}

func writeSynced(path string, text []byte) error {
	file, err := os.OpenFile(path, os.O_WRONLY|os.O_CREATE|os.O_TRUNC, 0o600)
	if err != nil {
		return err
	}
	defer file.Close()
	if _, err := file.Write(text); err != nil {
		return err
	}
	return file.Sync()
}

func syncFolder(path string) error {
	folder, err := os.Open(path)
	if err != nil {
		return err
	}
	defer folder.Close()
	return folder.Sync()
}
