package main

import (
	"bytes"
	"fmt"
	"io"
	"os"
	"os/exec"
	"path/filepath"
	"strings"
	"sync"
	"syscall"
	"testing"
	"time"
	"unsafe"

	"pibroulez.example/pibroulez"
	"pibroulez.example/pibroulez/pibroulezd/door"
)

// The test's own program is the command where it is started so.
func TestMain(m *testing.M) {
	if os.Getenv("PIBROULEZ_COMMAND") != "" {
		main()
		return
	}
	os.Exit(m.Run())
}

// What a shell needs to complete the command over a daemon: a folder with a `pibroulez` that prints its words, each in
// brackets, but for those by which a completion is loaded and asks for tenants, which it carries out.
func commandFolder(t *testing.T, h *house) string {
	t.Helper()
	self, err := os.Executable()
	granted(t, err)
	folder := t.TempDir()
	text := fmt.Sprintf(`#!/bin/sh
case "$*$LOAD" in
'completion tenants'|completion*LOAD) exec env PIBROULEZ_COMMAND=1 '%[1]s' --socket '%[2]s' "$@" ;;
*'completion tenants') exec env PIBROULEZ_COMMAND=1 '%[1]s' "$@" ;;
esac
printf 'words:'; printf '[%%s]' "$@"; echo
`, self, h.socket)
	granted(t, os.WriteFile(filepath.Join(folder, "pibroulez"), []byte(text), 0o755))
	return folder
}

// What is typed, with tabs, and the words that the command has then.
var typed = []struct{ keys, want string }{
	{"qu\tal\t", "[quota][alpha]"},
	{"com\tz\t", "[completion][zsh]"},
	{"sw\tal\t 7 --t\t", "[sweep][alpha][7][--try]"},
	{"jo\t--fu\t--la\t5 al\t", "[journal][--full][--last][5][alpha]"},
	{"--js\ttr\tal\t", "[--json][tree][alpha]"},
	{"cl\tdr\tn1", "[cluster][drain][n1]"},
	{"cl\tfor\ts --da\t", "[cluster][forget][s][--data-destroyed]"},
	{"cl\tche\t--end\thttp://x", "[cluster][check][--endpoints][http://x]"},
	// What the command doesn't have stays as it was typed.
	{"tree --tr\t", "[tree][--tr]"},
	{"check x\t", "[check][x]"},
	{"cl\tqu\tal\t", "[cluster][quota][al]"},
	{"-- qu\tal\t", "[--][quota][alpha]"},
	{"--socket SOCKET\t lim\tal\t 1/1", "[--socket][SOCKET][limit][alpha][1/1]"},
	{"--socket=SOCKET lim\tal\t 1/1", "[--socket=SOCKET][limit][alpha][1/1]"},
	{"--cac\tFOLDER/ca\t qu\t", "[--cacert][FOLDER/ca.pem][quota]"},
	{"log-d\tFOLDER/ca\t FOLDER/ca\t --pr\tFOLDER/ca\t", "[log-diff][FOLDER/ca.pem][FOLDER/ca.pem][--program][FOLDER/ca.pem]"},
}

// A terminal with a shell behind it, and what the shell has written to it.
type terminal struct {
	keys  *os.File
	mutex sync.Mutex
	seen  bytes.Buffer
	read  int
}

// Both ends of a new terminal.
func openTerminal(t *testing.T) (keys, shown *os.File) {
	t.Helper()
	keys, err := os.OpenFile("/dev/ptmx", os.O_RDWR|syscall.O_NOCTTY, 0)
	if err != nil {
		t.Skipf("no terminal: %v", err)
	}
	var number, open uint32
	for call, at := range map[uintptr]*uint32{syscall.TIOCGPTN: &number, syscall.TIOCSPTLCK: &open} {
		_, _, fault := syscall.Syscall(syscall.SYS_IOCTL, keys.Fd(), call, uintptr(unsafe.Pointer(at)))
		if fault != 0 {
			t.Skipf("no terminal: %v", fault)
		}
	}
	shown, err = os.OpenFile(fmt.Sprintf("/dev/pts/%d", number), os.O_RDWR|syscall.O_NOCTTY, 0)
	granted(t, err)
	return keys, shown
}

func newTerminal(t *testing.T, process *exec.Cmd) *terminal {
	t.Helper()
	keys, shown := openTerminal(t)
	defer shown.Close()
	size := [4]uint16{50, 400}
	syscall.Syscall(syscall.SYS_IOCTL, shown.Fd(), syscall.TIOCSWINSZ, uintptr(unsafe.Pointer(&size)))
	process.Stdin, process.Stdout, process.Stderr = shown, shown, shown
	process.SysProcAttr = &syscall.SysProcAttr{Setsid: true, Setctty: true}
	granted(t, process.Start())
	it := &terminal{keys: keys}
	go io.Copy(it, keys)
	t.Cleanup(func() {
		process.Process.Kill()
		process.Wait()
		keys.Close()
	})
	return it
}

func (it *terminal) Write(text []byte) (int, error) {
	it.mutex.Lock()
	defer it.mutex.Unlock()
	return it.seen.Write(text)
}

// Waits for a text behind what was waited for before. What stood before it, and what stands in its line behind it.
func (it *terminal) wait(t *testing.T, text string) string {
	t.Helper()
	for end := time.Now().Add(time.Minute); time.Now().Before(end); time.Sleep(10 * time.Millisecond) {
		it.mutex.Lock()
		all := it.seen.String()
		it.mutex.Unlock()
		if at := strings.Index(all[it.read:], text); at >= 0 {
			rest := all[it.read+at+len(text):]
			if line := strings.IndexAny(rest, "\r\n"); line >= 0 {
				it.read += at + len(text) + line
				return rest[:line]
			}
		}
	}
	t.Fatalf("no %q in %q", text, it.seen.String()[it.read:])
	return ""
}

// A house with a tenant alpha, and tenants whose names a shell would take for more than a word.
func completed(t *testing.T) *house {
	t.Helper()
	return newHouseWith(t, map[string]pibroulez.Usage{
		"a": usage(100, 50), "b\n": usage(10, 10), "alpha": usage(1, 1), "$(touch ran)": usage(1, 1), "-rf": usage(1, 1), "al;x": usage(1, 1),
		"al`touch ran`": usage(1, 1), "al pha": usage(1, 1), "~root": usage(1, 1),
	})
}

// The shells complete what is typed at a terminal as the table of commands says.
func TestCompletion(t *testing.T) {
	for _, shell := range []struct {
		name  string
		words []string
		load  string
	}{
		{"bash", []string{"--norc", "--noprofile", "-i"}, "bind 'set enable-bracketed-paste off'; source <(LOAD=LOAD pibroulez completion bash)"},
		{"zsh", []string{"-f", "-i"}, "autoload -Uz compinit; compinit -u -D; source <(LOAD=LOAD pibroulez completion zsh)"},
	} {
		t.Run(shell.name, func(t *testing.T) {
			path, err := exec.LookPath(shell.name)
			if err != nil {
				t.Skipf("%s isn't there", shell.name)
			}
			h := completed(t)
			folder := commandFolder(t, h)
			granted(t, os.WriteFile(filepath.Join(folder, "ca.pem"), nil, 0o600))
			process := exec.Command(path, shell.words...)
			process.Dir = folder
			process.Env = []string{"PATH=" + folder + ":" + os.Getenv("PATH"), "HOME=" + folder, "TERM=dumb", "PS1=> "}
			it := newTerminal(t, process)
			fmt.Fprintf(it.keys, "%s; printf 'loa%%s\\n' ded\r", shell.load)
			it.wait(t, "loaded")
			places := strings.NewReplacer("SOCKET", h.socket, "FOLDER", folder)
			for _, row := range typed {
				fmt.Fprintf(it.keys, "pibroulez %s\r", places.Replace(row.keys))
				equal(t, it.wait(t, "words:"), places.Replace(row.want))
			}
			if _, err := os.Lstat(filepath.Join(folder, "ran")); err == nil {
				t.Error("a tenant's name was carried out")
			}
		})
	}
}

// Fish tells what it would complete.
func TestCompletionOfFish(t *testing.T) {
	path, err := exec.LookPath("fish")
	if err != nil {
		t.Skip("fish isn't there")
	}
	h := completed(t)
	folder := commandFolder(t, h)
	granted(t, os.WriteFile(filepath.Join(folder, "ca.pem"), nil, 0o600))
	script := "LOAD=LOAD pibroulez completion fish | source\n"
	places := strings.NewReplacer("SOCKET", h.socket, "FOLDER", folder)
	want := ""
	for _, it := range [][2]string{
		{"cl", "cluster"}, {"cluster dr", "drain"}, {"quota ", "a alpha"}, {"cluster quota ", ""}, {"sweep alpha 7 --t", "--try"}, {"tree --tr", ""},
		{"journal --full --la", "--last"}, {"journal --last 5 al", "alpha"}, {"--json tree al", "alpha"}, {"-- quota al", "alpha"},
		{"completion ", "bash fish zsh"}, {"--socket SOCKET limit al", "alpha"}, {"--socket=SOCKET limit al", "alpha"},
		{"--cacert FOLDER/ca", "FOLDER/ca.pem"}, {"--cacert=FOLDER/ca", "--cacert=FOLDER/ca.pem"}, {"--last ", ""},
		{"log-check FOLDER/ca", "FOLDER/ca.pem"},
	} {
		script += fmt.Sprintf("complete -C 'pibroulez %s' | string replace -r '\\t.*' '' | sort | string join ' '; echo\n", places.Replace(it[0]))
		want += it[0] + ": " + places.Replace(it[1]) + "\n"
		script = strings.Replace(script, "complete -C", fmt.Sprintf("echo -n '%s: '; complete -C", it[0]), 1)
		script = strings.ReplaceAll(script, "complete -C", "COMPLETE")
	}
	script = strings.ReplaceAll(script, "COMPLETE", "complete -C")
	process := exec.Command(path, "--no-config", "-c", script)
	process.Dir = folder
	process.Env = []string{"PATH=" + folder + ":" + os.Getenv("PATH"), "HOME=" + folder, "TERM=dumb"}
	output, err := process.CombinedOutput()
	granted(t, err)
	equal(t, strings.ReplaceAll(string(output), "\n\n", "\n"), want)
}

// What bash offers is each command, and each option of a command, as the table has them; of tenants those that a shell takes
// as they are, and none where the daemon isn't there or refuses.
func TestOffers(t *testing.T) {
	h := completed(t)
	offers := func(words ...string) string {
		t.Helper()
		script := "source <(LOAD=LOAD pibroulez completion bash); COMP_WORDS=(\"$@\"); COMP_CWORD=$(($# - 1)); _pibroulez; echo \"${COMPREPLY[*]}\""
		process := exec.Command("bash", append([]string{"--norc", "-c", script, "bash", "pibroulez"}, words...)...)
		process.Env = []string{"PATH=" + commandFolder(t, h) + ":" + os.Getenv("PATH")}
		output, err := process.Output()
		granted(t, err)
		return strings.TrimSpace(string(output))
	}
	var first, second []string
	for _, it := range commands {
		words := strings.Fields(it.name)
		equal(t, offers(append(words, "--")...), "--"+strings.Join(it.options(), " --"))
		if first = append(first, words[0]); it.ofCluster {
			first, second = first[:len(first)-1], append(second, words[1])
		}
	}
	equal(t, offers(""), strings.Join(append(first, "cluster"), " "))
	equal(t, offers("cluster", ""), strings.Join(second, " "))
	equal(t, offers("quota", ""), "a alpha")
	equal(t, offers("--socket", h.socket+"x", "quota", ""), "")
	h.rights = door.Rights{}
	equal(t, offers("quota", ""), "")
	var out, errs strings.Builder
	equal(t, run(ctx, []string{"completion", "tcsh"}, &out, &errs), wrongWords)
	equal(t, errs.String(), "pibroulez: wrong words: no completion for \"tcsh\", but for bash, zsh and fish\nsee --help\n")
}
