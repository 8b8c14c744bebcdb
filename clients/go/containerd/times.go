package containerd

import (
	"bufio"
	"fmt"
	"io"
	"os"
	"sync"
	"time"

	"github.com/containerd/containerd/log"

	"pibroulez.example/pibroulez"
)

// When snapshots were made and updated. The store numbers its entries and has no clock: an entry has the time at which
// its number was first seen, which is that of its call. The file is one that may be lost: what it doesn't have, or
// doesn't take, is no error.
type times struct {
	mutex sync.Mutex
	// Is nil where it can't be written.
	file *os.File
	// Whether its last line may lack its end.
	isTorn bool
	known  map[uint64]stamps
}

// What is known of a snapshot.
type stamps struct{ created, updated stamp }

// An entry of the journal, and its time in nanoseconds since 1970.
type stamp struct {
	number uint64
	time   int64
}

func (s stamp) at() time.Time { return time.Unix(0, s.time).UTC() }

// A line of the file has the id of a snapshot and its stamps. The last line of an id counts.
const line = "%d %d %d %d %d\n"

// Reads the file, and writes it anew with what it has of the snapshots of these ids.
func openTimes(path string, ids map[uint64]bool) *times {
	t := &times{known: map[uint64]stamps{}}
	for id, it := range readTimes(path) {
		if ids[id] {
			t.known[id] = it
		}
	}
	if err := t.rewrite(path); err != nil {
		log.L.WithError(err).WithField("path", path).Warn("failed to write times")
		t.file, _ = os.OpenFile(path, os.O_WRONLY|os.O_CREATE|os.O_APPEND, 0o600)
		t.isTorn = true
	}
	return t
}

func (t *times) rewrite(path string) error {
	file, err := os.OpenFile(path+".new", os.O_WRONLY|os.O_CREATE|os.O_TRUNC|os.O_APPEND, 0o600)
	if err != nil {
		return err
	}
	t.file = file
	for id, it := range t.known {
		if err = t.put(id, it); err != nil {
			break
		}
	}
	if err == nil {
		err = os.Rename(path+".new", path)
	}
	if err != nil {
		file.Close()
		os.Remove(path + ".new")
	}
	return err
}

// What the file has of each snapshot. A line that is none is left out, and so is what can't be read.
func readTimes(path string) map[uint64]stamps {
	found := map[uint64]stamps{}
	file, err := os.Open(path)
	if err != nil {
		return found
	}
	defer file.Close()
	lines := bufio.NewReader(file)
	for err == nil {
		var text []byte
		text, err = lines.ReadSlice('\n')
		if err == bufio.ErrBufferFull {
			err = nil
		}
		var id uint64
		var it stamps
		_, bad := fmt.Sscanf(string(text), line, &id, &it.created.number, &it.created.time, &it.updated.number, &it.updated.time)
		if bad == nil {
			found[id] = it
		}
	}
	if err != io.EOF {
		log.L.WithError(err).WithField("path", path).Warn("failed to read times")
	}
	return found
}

// The times of a snapshot. A number that is seen for the first time is given the time of now.
func (t *times) of(info pibroulez.Info) (created, updated time.Time) {
	t.mutex.Lock()
	defer t.mutex.Unlock()
	it := t.known[info.ID]
	now := time.Now().UnixNano()
	isNew := false
	if info.Created > it.created.number {
		it.created, isNew = stamp{info.Created, now}, true
	}
	if info.Updated > it.updated.number {
		it.updated, isNew = stamp{info.Updated, now}, true
	}
	if isNew {
		t.known[info.ID] = it
		t.put(info.ID, it)
	}
	return it.created.at(), it.updated.at()
}

func (t *times) put(id uint64, it stamps) error {
	if t.file == nil {
		return nil
	}
	text := fmt.Sprintf(line, id, it.created.number, it.created.time, it.updated.number, it.updated.time)
	if t.isTorn {
		text = "\n" + text
	}
	_, err := t.file.WriteString(text)
	t.isTorn = err != nil
	return err
}

// Forgets a snapshot.
func (t *times) drop(id uint64) {
	t.mutex.Lock()
	defer t.mutex.Unlock()
	delete(t.known, id)
}

func (t *times) close() {
	if t != nil && t.file != nil {
		t.file.Close()
	}
}
