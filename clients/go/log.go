package pibroulez

import (
	"bufio"
	"bytes"
	"context"
	"errors"
	"fmt"
	"io"
	"io/fs"
	"math"
	"os"
	"os/exec"
	"strings"
	"syscall"
	"time"
	"unicode/utf8"
)

// A BadLog is a file that is no log, that can't be read as one, or that isn't as it was written, so that its store can't be
// opened again. The file is as it was. One of version 0.1.0 is one too: the README of clients says how it is taken over.
type BadLog struct {
	Path string
	// Line is the line's number, from 1, or 0 where it isn't that of a line.
	Line  uint64
	Words string
}

func (b *BadLog) Error() string {
	if b.Line == 0 {
		return fmt.Sprintf("%s: %s", b.Path, b.Words)
	}
	return fmt.Sprintf("%s: line %d: %s", b.Path, b.Line, b.Words)
}

// The log of a store, which the store's process keeps and has alone. A nil one is none.
type log struct {
	path string
	// How many times as much as behind the last checkpoint it has at the next one, or 0 for none.
	checkpoint uint64
	// The file of the path, and the one named `-wal` beside it, which counts where it has a line.
	files [2]part
	reserve
	marks marks
}

// The log at a path, or nil where that is empty. Its file is made where the flags say so, and is its owner's alone then.
func findLog(path string, checkpoint uint64, flags int) (*log, error) {
	if path == "" {
		return nil, nil
	}
	if !utf8.ValidString(path) {
		return nil, fmt.Errorf("%w: %q", ErrNotText, path)
	}
	file, err := os.OpenFile(path, os.O_RDWR|flags, 0o600)
	if err != nil {
		return nil, err
	}
	return &log{path: path, checkpoint: checkpoint, files: [2]part{{file: file}, {}}}, nil
}

// Opens the file beside it, which the process has made by its first answer.
func (l *log) findSecond() error {
	if l == nil {
		return nil
	}
	l.mutex.Lock()
	defer l.mutex.Unlock()
	var err error
	l.files[1].file, err = os.OpenFile(l.path+"-wal", os.O_RDWR, 0)
	return err
}

// The file that counts.
func (l *log) counting() *part {
	if begins(l.files[1].file) {
		return &l.files[1]
	}
	return &l.files[0]
}

// Whether a file of a log has a line: the process writes its brace last.
func begins(file *os.File) bool {
	var first [1]byte
	_, err := file.ReadAt(first[:], 0)
	return err == nil && first[0] == '{'
}

// CountingLog is the path of the file that counts of the log at a path: the one named `-wal` beside it where that has a
// line. Which it is may change while a process has the log.
func CountingLog(path string) string {
	second := path + "-wal"
	file, err := os.Open(second)
	if err != nil {
		return path
	}
	defer file.Close()
	if begins(file) {
		return second
	}
	return path
}

// The words of the process that keeps it.
func (l *log) words() []string {
	if l == nil {
		return []string{"serve"}
	}
	return []string{"serve", "--log=" + l.path, fmt.Sprint("--checkpoint=", l.checkpoint)}
}

// The statuses of a process that has no log, or whose log failed: docs/SCRIPT.md.
const (
	statusBusy      = 6
	statusNoLog     = 7
	statusLogFailed = 8
	statusDiffers   = 9
)

// What has ended a process where that is of its log, by its status and its words, or else nil.
func (l *log) cause(waited error, words string) error {
	exit := new(exec.ExitError)
	if l == nil || !errors.As(waited, &exit) {
		return nil
	}
	switch exit.ExitCode() {
	case statusBusy:
		return &fs.PathError{Op: "open log", Path: l.path, Err: syscall.EWOULDBLOCK}
	case statusNoLog, statusDiffers:
		return &BadLog{l.path, 0, words}
	case statusLogFailed:
		return &failedLog{waited, words}
	}
	return nil
}

// How long a log may be another process's: that of a client that was killed ends a little after it.
const lingering = 5 * time.Second

// OnceFree opens a store, or what has one, by a function as New or Open. As long as that is syscall.EWOULDBLOCK it does so
// again, for up to five seconds: the process of a client that was killed has the log until it has seen the end of its input.
func OnceFree[T any](ctx context.Context, open func() (T, error)) (T, error) {
	for end := time.Now().Add(lingering); ; {
		opened, err := open()
		if !errors.Is(err, syscall.EWOULDBLOCK) || time.Now().After(end) {
			return opened, err
		}
		select {
		case <-ctx.Done():
			return opened, err
		case <-time.After(50 * time.Millisecond):
		}
	}
}

// Whether the cause is that a process was not given its log, so that it never had a store.
func isNoLog(cause error) bool {
	return errors.Is(cause, syscall.EWOULDBLOCK) || errors.As(cause, new(*BadLog))
}

// The first line, or nothing where there is none.
func (l *log) firstLine() []byte {
	if l == nil {
		return nil
	}
	line, _ := bufio.NewReader(io.NewSectionReader(l.counting().file, 0, math.MaxInt64)).ReadBytes('\n')
	if !bytes.HasPrefix(line, []byte("{")) {
		return nil
	}
	return line
}

// The error of a log that has lines, and no store.
func (l *log) checkNoLines() error {
	if len(l.firstLine()) > 0 {
		return &BadLog{l.path, 1, "it opens no store"}
	}
	return nil
}

// Whether the process's log has a store, by its own answer: from before this to its end it has the log alone.
func (s *Store) hasStore(ctx context.Context) (bool, error) {
	if s.log == nil {
		return false, nil
	}
	return s.isOpen(ctx)
}

// Whether the process has a store, by its own answer.
func (s *Store) isOpen(ctx context.Context) (bool, error) {
	question, err := callOf("report", nil, nil)
	if err != nil {
		return false, err
	}
	text, err := s.exchange(ctx, question)
	switch {
	case err != nil:
		return false, err
	case strings.HasPrefix(string(text), `{"entries":`):
		return true, nil
	case !isFault(text):
		return false, errors.New("an answer to no report")
	}
	return false, nil
}

func (l *log) close() {
	if l == nil {
		return
	}
	l.mutex.Lock()
	defer l.mutex.Unlock()
	for _, it := range []*part{&l.files[0], &l.files[1], &l.spare} {
		it.file.Close()
	}
}
