package pibroulez

import (
	"bufio"
	"bytes"
	"errors"
	"io"
	"math"
	"os"
	"sync"
)

// LogBytes is how many bytes the lines of the store's log have, or 0 where it has none, or where a daemon has it. It reads
// what LogAppends reads.
func (s *Store) LogBytes() uint64 {
	if s.log == nil {
		return 0
	}
	_, bytes, err := s.log.countMarks()
	if err != nil {
		return 0
	}
	return uint64(bytes)
}

// LogAppends is how many times lines were appended to the store's log, each time with two syncs: before the first call those
// whose marks the log has, so since it was made where no checkpoint was before, and all from then on. It is 0 where the store
// has no log, or where a daemon has it. The first call reads the log, each later one what has come since.
func (s *Store) LogAppends() (uint64, error) {
	if s.log == nil {
		return 0, nil
	}
	appends, _, err := s.log.countMarks()
	return appends, err
}

func (l *log) countMarks() (number uint64, bytes int64, err error) {
	l.mutex.Lock()
	l.follow()
	l.mutex.Unlock()
	return l.marks.count(l.counting)
}

// The beginning of a mark, which stands behind the lines of each append. No line that is kept begins so: a report is a question.
var markHead = []byte(`{"do":"report","lines":"`)

// The marks of a log up to the place where its next line comes.
//
// A checkpoint adds a mark directly behind another one. What is behind that mark in the file that counted is behind the same
// mark in the one that counts then, behind the lines of the saved store and further appends behind it.
type marks struct {
	mutex sync.Mutex
	// The file in which they were counted, and up to where.
	file *os.File
	end  int64
	// How it begins behind its first brace, and its last mark with the place of that.
	head, last []byte
	at         int64
	// How many there were up to the last one directly behind another, and how many behind that.
	before, behind uint64
	// Whether the last line was one, and whether the lines of a saved store are read.
	wasMark, isSaved bool
	// How many were told.
	told uint64
}

// How many marks there were, in the file that counts now and before, and how many bytes its lines have.
func (m *marks) count(counting func() *part) (number uint64, bytes int64, err error) {
	m.mutex.Lock()
	defer m.mutex.Unlock()
	err = m.read(counting().file, '{')
	if all := m.before + m.behind; !m.isSaved && all > m.told {
		m.told = all
	}
	return m.told, m.end, err
}

// Another file counts than before. The lines of that one stand there until the next checkpoint writes over them, maybe
// without their first brace.
func (m *marks) leave(before, now *os.File) {
	m.mutex.Lock()
	defer m.mutex.Unlock()
	if m.file != nil && !m.isOf(now) {
		_ = m.read(before, 0)
	}
}

// Reads what has come. Of a file that has come to count it is all, behind what came in the one before. It may begin with
// this byte in place of a brace.
func (m *marks) read(counting *os.File, first byte) error {
	isSame := m.isOf(counting)
	if m.file != nil && stands(m.file, m.at, m.last) {
		if err := m.readOn('{'); err != nil {
			return err
		}
	}
	if isSame {
		return nil
	}
	m.isSaved = m.file != nil
	m.file, m.end, m.head, m.last, m.at, m.wasMark = counting, 0, nil, nil, 0, false
	return m.readOn(first)
}

// How many bytes of a file tell it from what a checkpoint writes there: these have the number of all entries before it.
const headSize = 512

// Whether they were counted in this file, as it is since it came to count.
func (m *marks) isOf(counting *os.File) bool { return m.file == counting && stands(m.file, 1, m.head) }

// Whether a file has these bytes at a place.
func stands(file *os.File, at int64, wanted []byte) bool {
	found := make([]byte, len(wanted))
	_, err := file.ReadAt(found, at)
	return len(found) == 0 || err == nil && bytes.Equal(found, wanted)
}

func (m *marks) readOn(first byte) error {
	if err := m.readLines(first); err != nil {
		return err
	}
	size := m.end - 1
	if size > headSize {
		size = headSize
	}
	if int64(len(m.head)) >= size {
		return nil
	}
	m.head = make([]byte, size)
	_, err := m.file.ReadAt(m.head, 1)
	return err
}

func (m *marks) readLines(first byte) error {
	lines := bufio.NewReader(io.NewSectionReader(m.file, m.end, math.MaxInt64-m.end))
	for {
		size, mark, err := readLine(lines, first)
		first = '{'
		if errors.Is(err, io.EOF) {
			return nil
		}
		if err != nil {
			return err
		}
		if mark != nil {
			m.take(mark)
		}
		m.wasMark = mark != nil
		m.end += size
	}
}

func (m *marks) take(mark []byte) {
	m.at, m.last = m.end, mark
	switch {
	case m.wasMark && m.isSaved:
		m.behind, m.isSaved = 0, false
	case m.wasMark:
		m.before, m.behind = m.before+m.behind+1, 0
	case !m.isSaved:
		m.behind++
	}
}

// Reads a line, and tells its bytes, and its text where it is a mark. What begins neither with a brace nor with this byte isn't
// in the log (yet).
func readLine(lines *bufio.Reader, first byte) (size int64, mark []byte, err error) {
	for err = bufio.ErrBufferFull; errors.Is(err, bufio.ErrBufferFull); {
		var part []byte
		part, err = lines.ReadSlice('\n')
		if size == 0 {
			if len(part) > 0 && part[0] != '{' && part[0] != first {
				return 0, nil, io.EOF
			}
			if bytes.HasPrefix(part, markHead) {
				mark = append(mark, part...)
			}
		}
		size += int64(len(part))
	}
	return size, mark, err
}
