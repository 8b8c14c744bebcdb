package pibroulez

import (
	"errors"
	"io/fs"
	"os"
	"path/filepath"
	"sync"
	"syscall"
)

// How many bytes of the disk the file that counts of a log holds beyond its end (fallocate(2)), so that a full disk still
// takes the lines of calls that free something. Neither the file's size nor its bytes change by it.
//
// A log that is made short holds as many in a file without a name. Where the lines of a checkpoint have filled the disk, the
// file that comes to count has no reserve, and is given these. What the other one holds stays for the lines that come to it
// next: nobody else may cut a file into which the process writes.
const reserveSize = 256 << 10

// The most bytes that a line takes in the log beside those that it is given here: its id, the mark of its part, which has
// two sums, and the blank behind the lines.
const lineMore = 32 + 168

// Commands that change nothing and make no entry in the journal. They need no room.
var isLookup = map[string]bool{
	"look": true, "list": true, "read": true, "resolve": true, "du": true, "quota": true, "leases": true, "tree": true,
	"diff": true, "journal": true, "report": true, "save": true,
}

// Commands that make an entry unless they are quiet.
var isQuestion = map[string]bool{"stat": true, "usage": true, "mounts": true, "walk": true}

// Whether a command changes nothing and makes no entry: a lookup, a sweep that is tried, a quiet question, or the usage
// of a chain.
func makesNoEntry(do string, command fields) bool {
	switch {
	case do == "sweep":
		return command["try"] == true
	case isQuestion[do]:
		return command["quiet"] == true || do == "usage" && command["chain"] == true
	}
	return isLookup[do]
}

// Commands whose lines may be in the reserve: those that free something, and those that begin a round.
var mayUseReserve = map[string]bool{
	"discard": true, "remove": true, "sweep": true, "trim": true, "lease_drop": true, "lease_release": true,
	"reopen": true, "roll": true,
}

// The part of the disk that a log has.
type reserve struct {
	mutex sync.Mutex
	// How many bytes are in lines that were sent and aren't answered yet.
	coming int64
	// The file without a name, where there is one.
	spare part
	// The file that counted when last seen.
	counted *part
	// Whether the file system reserves nothing, or has no file without a name. A line for which there is no room is then
	// refused by the process.
	isNone, hasNoSpare bool
}

// A file, and where its part of the disk ends.
type part struct {
	file *os.File
	end  int64
}

// Has the reserve behind the lines, where the disk has room for it.
func (l *log) hold() {
	if l == nil {
		return
	}
	l.mutex.Lock()
	defer l.mutex.Unlock()
	_ = l.extend(reserveSize)
}

// Has room for the line of a call that is to be sent. The error is syscall.ENOSPC or syscall.EDQUOT where there is
// none beside the reserve.
func (l *log) admit(c *call) error {
	if l == nil || c.isLookup {
		return nil
	}
	l.mutex.Lock()
	defer l.mutex.Unlock()
	l.follow()
	bytes := c.room()
	if err := l.extend(l.coming + bytes + reserveSize); err != nil {
		if !mayUseReserve[c.do] {
			return &fs.PathError{Op: "extend log", Path: l.path, Err: err}
		}
		l.spend(l.coming + bytes)
	}
	l.coming += bytes
	return nil
}

// How many bytes of the log the line of a call may take.
func (c *call) room() int64 { return int64(len(c.line)) + lineMore }

// The line of an admitted call isn't coming any more, since it was answered or not sent.
func (l *log) release(c *call) {
	if l == nil || c.isLookup {
		return
	}
	l.mutex.Lock()
	defer l.mutex.Unlock()
	l.coming -= c.room()
}

// Whether a call that the log couldn't keep is made once more: one that may use the reserve, since another file may have
// come to count after it was sent.
func (l *log) mayKeepNext(c call) bool { return l != nil && l.checkpoint > 0 && mayUseReserve[c.do] }

// Finds whether another file counts than when last seen.
func (l *log) follow() {
	counting := l.counting()
	if l.counted != nil && l.counted != counting {
		l.marks.leave(l.counted.file, counting.file)
	}
	l.counted = counting
}

// Has this number of bytes of the disk behind the lines, and as many in the file without a name.
func (l *log) extend(bytes int64) error {
	if l.isNone {
		return nil
	}
	err := l.counting().extend(bytes)
	l.isNone = err != nil && !isFull(err)
	if err != nil || l.checkpoint == 0 || l.hasNoSpare {
		return full(err)
	}
	if l.spare.file == nil {
		l.spare.file, err = unnamedFile(filepath.Dir(l.path))
	}
	if err == nil {
		err = l.spare.extend(bytes)
	}
	l.hasNoSpare = err != nil && !isFull(err)
	return full(err)
}

// Gives the file that counts what the one without a name holds, where it has less than this number of bytes.
func (l *log) spend(bytes int64) {
	if counting := l.counting(); l.spare.file != nil && counting.room() < bytes {
		l.spare.file.Close()
		l.spare = part{}
		_ = counting.extend(bytes + reserveSize)
	}
}

// A file of a folder's disk that has no name, and so is gone with the process.
func unnamedFile(folder string) (*os.File, error) {
	const withoutName = 0x400000 | syscall.O_DIRECTORY
	return os.OpenFile(folder, os.O_RDWR|withoutName, 0o600)
}

// How many bytes of the disk it has beyond its end.
func (p *part) room() int64 {
	status, err := p.file.Stat()
	if err != nil {
		return 0
	}
	return p.end - status.Size()
}

// Has this number of bytes of the disk beyond its end, and twice the reserve more where there is that much; where there
// is less than the former, what there is.
func (p *part) extend(bytes int64) error {
	status, err := p.file.Stat()
	if err != nil {
		// The store has ended, which the call is told.
		return nil
	}
	size := status.Size()
	if size+bytes <= p.end {
		return nil
	}
	err = p.allocate(size, bytes+2*reserveSize)
	if isFull(err) {
		err = p.allocate(size, bytes)
	}
	for some := bytes / 2; isFull(err) && size+some > p.end; some /= 2 {
		if !isFull(p.allocate(size, some)) {
			break
		}
	}
	return err
}

func isFull(err error) bool { return errors.Is(err, syscall.ENOSPC) || errors.Is(err, syscall.EDQUOT) }

// An error where it is that of a full disk.
func full(err error) error {
	if isFull(err) {
		return err
	}
	return nil
}

// Has these bytes of the disk behind a file of this size.
func (p *part) allocate(size, bytes int64) error {
	const keepSize = 1
	connection, err := p.file.SyscallConn()
	if err != nil {
		return err
	}
	failed := syscall.EINTR
	err = connection.Control(func(descriptor uintptr) {
		for failed == syscall.EINTR {
			failed, _ = syscall.Fallocate(int(descriptor), keepSize, size, bytes).(syscall.Errno)
		}
	})
	if err == nil && failed != 0 {
		err = failed
	}
	if err == nil {
		p.end = size + bytes
	}
	return err
}
