package containerd

import (
	"bufio"
	"bytes"
	"context"
	"errors"
	"fmt"
	"io"
	"io/fs"
	"os"
	"os/exec"
	"path/filepath"
	"strings"
	"syscall"

	"pibroulez.example/pibroulez"
)

// LogFile is the name of a root's log.
const LogFile = "calls.jsonl"

// The other files of a root's log. One that a client of version 0.1.0 has kept is taken over once: its lines are carried out
// over the new log, which then takes its name.
const (
	oldLogFile = "calls-0.1.0.jsonl"
	// What the folder's name begins with of a log that is being made. No two have one, so that a process of a takeover that
	// was killed can't come to the log of another.
	newLogPrefix = "calls-new-"
)

// What a store is asked that is to be another one's, without an entry.
const questions = `{"do":"report"}
{"do":"quota"}
{"do":"tree","ns":"` + Namespace + `"}
{"do":"leases","ns":"` + Namespace + `"}
{"do":"walk","ns":"` + Namespace + `","quiet":true}
`

// The log of version 0.1.0 of a root, which no two processes take over at once.
type takeover struct {
	program, root string
	old           *os.File
	// How many bytes and lines it has that are whole.
	size int64
	most int
	// The new log.
	made string
}

// Takes the log of a root over. With an error the root is as it was.
func takeOver(ctx context.Context, program, root string) error {
	t, err := newTakeover(program, root)
	if err != nil {
		return err
	}
	defer t.close()
	for _, step := range t.steps(ctx) {
		if err := step(); err != nil {
			t.clear()
			return err
		}
	}
	return nil
}

// Each has one effect that outlives a crash. Before the third the root has its old log alone, and the old one is under its
// new name before the new one is in its place.
func (t *takeover) steps(ctx context.Context) []func() error {
	return []func() error{
		t.clear,
		func() error { return t.make(ctx) },
		t.keep,
		func() error { return first(os.Rename(t.made, t.path(LogFile)), syncFolder(t.root)) },
		t.clear,
	}
}

func (t *takeover) path(name string) string { return filepath.Join(t.root, name) }

func first(errs ...error) error {
	for _, err := range errs {
		if err != nil {
			return err
		}
	}
	return nil
}

func newTakeover(program, root string) (*takeover, error) {
	t := &takeover{program: program, root: root}
	var err error
	if t.old, err = os.Open(t.path(LogFile)); err != nil {
		return nil, err
	}
	if err = t.lock(); err == nil {
		err = t.count()
	}
	if err != nil {
		t.close()
		return nil, &fs.PathError{Op: "take over log", Path: t.path(LogFile), Err: err}
	}
	return t, nil
}

// Keeps a client of version 0.1.0 away, and each other that takes the log over. The file is still the root's then.
func (t *takeover) lock() error {
	if err := syscall.Flock(int(t.old.Fd()), syscall.LOCK_EX|syscall.LOCK_NB); err != nil {
		return err
	}
	own, err := t.old.Stat()
	if err != nil {
		return err
	}
	found, err := os.Stat(t.path(LogFile))
	if err == nil && !os.SameFile(own, found) {
		err = syscall.EWOULDBLOCK
	}
	return err
}

// Lets go of the log, also where a process that is just being started still has the file.
func (t *takeover) close() {
	syscall.Flock(int(t.old.Fd()), syscall.LOCK_UN)
	t.old.Close()
}

// A last line without its line feed is left out: its call wasn't answered.
func (t *takeover) count() error {
	reader := bufio.NewReader(t.old)
	begun := int64(0)
	for {
		part, err := reader.ReadSlice('\n')
		begun += int64(len(part))
		switch {
		case err == nil:
			t.size, begun = t.size+begun, 0
			t.most++
		case err == io.EOF:
			return nil
		case !errors.Is(err, bufio.ErrBufferFull):
			return err
		}
	}
}

// Removes what is left of new logs that are not taken.
func (t *takeover) clear() error {
	entries, err := os.ReadDir(t.root)
	for _, entry := range entries {
		if strings.HasPrefix(entry.Name(), newLogPrefix) {
			err = first(err, os.RemoveAll(t.path(entry.Name())))
		}
	}
	return err
}

// Has the old log under its other name too.
func (t *takeover) keep() error {
	err := os.Link(t.path(LogFile), t.path(oldLogFile))
	if errors.Is(err, fs.ErrExist) {
		own, failed := t.old.Stat()
		found, missing := os.Stat(t.path(oldLogFile))
		if failed == nil && missing == nil && os.SameFile(own, found) {
			err = nil
		}
	}
	return first(err, syncFolder(t.root))
}

// Makes the new log, and compares each answer with that of a process without one, and what the new log's store answers
// when it is opened again.
func (t *takeover) make(ctx context.Context) error {
	folder, err := os.MkdirTemp(t.root, newLogPrefix)
	if err != nil {
		return err
	}
	t.made = filepath.Join(folder, "log")
	if err := os.WriteFile(t.made, nil, 0o600); err != nil {
		return err
	}
	told, err := t.carryOut(ctx)
	if err != nil {
		return err
	}
	again, err := startRun(ctx, t.program, strings.NewReader(questions), "serve", "--log="+t.made, "--checkpoint=0")
	if err != nil {
		return err
	}
	answers, err := io.ReadAll(again.answers)
	if err = first(again.end(ctx), err); err != nil {
		return err
	}
	if !bytes.Equal(answers, told) {
		return &pibroulez.BadLog{Path: t.made, Words: "it tells another store than the log of version 0.1.0"}
	}
	return nil
}

// What is answered to the questions behind the lines.
func (t *takeover) carryOut(ctx context.Context) (told []byte, err error) {
	text := func() io.Reader {
		return io.MultiReader(io.NewSectionReader(t.old, 0, t.size), strings.NewReader(questions))
	}
	plain, err := startRun(ctx, t.program, text(), "serve")
	if err != nil {
		return nil, err
	}
	kept, err := startRun(ctx, t.program, text(), "serve", "--log="+t.made, "--checkpoint=0")
	if err != nil {
		plain.kill()
		return nil, err
	}
	for line := 1; err == nil; line++ {
		wanted, end := plain.answers.ReadBytes('\n')
		if end != nil {
			break
		}
		answer, _ := kept.answers.ReadBytes('\n')
		if err = t.compare(line, wanted, answer); line > t.most {
			told = append(told, answer...)
		}
	}
	// Of a process that has ended before its last answer it is known why.
	if err != nil {
		plain.kill()
		if ended := kept.failed(); ended != nil {
			err = ended
		}
		return nil, err
	}
	return told, first(plain.end(ctx), kept.end(ctx))
}

func (t *takeover) compare(line int, wanted, answer []byte) error {
	words := ""
	switch {
	case line <= t.most && bytes.HasPrefix(wanted, []byte(`{"fault":`)), line == 1 && t.most > 0 && string(wanted) != "{\"ok\":true}\n":
		words = fmt.Sprintf("it isn't taken: %s", bytes.TrimSpace(wanted))
	case bytes.HasPrefix(answer, []byte(`{"error":"NotKept"`)):
		return fmt.Errorf("%s: %w", t.made, pibroulez.ErrNotKept)
	case !bytes.Equal(wanted, answer):
		words = fmt.Sprintf("its answer is %.200q, and %.200q over the new log", wanted, answer)
	default:
		return nil
	}
	return &pibroulez.BadLog{Path: t.path(LogFile), Line: uint64(line), Words: words}
}

// A process that is sent bytes and answers them.
type run struct {
	*exec.Cmd
	answers *bufio.Reader
	words   bytes.Buffer
}

func startRun(ctx context.Context, program string, text io.Reader, words ...string) (*run, error) {
	r := &run{Cmd: exec.CommandContext(ctx, program, words...)}
	r.Stdin, r.Stderr = text, &r.words
	output, err := r.StdoutPipe()
	if err != nil {
		return nil, err
	}
	r.answers = bufio.NewReader(output)
	return r, r.Start()
}

// Waits for its end, which is an error where it failed.
func (r *run) end(ctx context.Context) error {
	err := r.Wait()
	if ctx.Err() != nil {
		return ctx.Err()
	}
	if err != nil {
		return fmt.Errorf("%s: %w: %s", strings.Join(r.Args, " "), err, bytes.TrimSpace(r.words.Bytes()))
	}
	return nil
}

func (r *run) kill() {
	r.Process.Kill()
	r.Wait()
}

// Why it has ended by itself, or nil where it hasn't.
func (r *run) failed() error {
	if _, err := r.answers.ReadByte(); err != io.EOF {
		r.kill()
		return nil
	}
	return r.end(context.Background())
}
