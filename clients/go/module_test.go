package pibroulez

import (
	"os"
	"os/exec"
	"testing"
)

const user = `package main

import (
	"fmt"

	"pibroulez.example/pibroulez"
)

func main() { fmt.Print(pibroulez.ErrNotFound) }
`

// A module of its own takes the package by its folder, with the commands of the README, and without a module proxy.
func TestModule(t *testing.T) {
	if _, err := exec.LookPath("go"); err != nil {
		t.Skip(err)
	}
	here, err := os.Getwd()
	granted(t, err)
	folder := t.TempDir()
	granted(t, os.WriteFile(folder+"/main.go", []byte(user), 0o600))
	var output []byte
	for _, words := range [][]string{
		{"mod", "init", "daemon.example/daemon"},
		{"mod", "edit", "-replace", "pibroulez.example/pibroulez=" + here},
		{"get", "pibroulez.example/pibroulez"},
		{"run", "."},
	} {
		command := exec.Command("go", words...)
		command.Dir = folder
		command.Env = append(os.Environ(), "GO111MODULE=on", "GOFLAGS=", "GOPROXY=off", "GOWORK=off", "GOPATH="+t.TempDir())
		if output, err = command.CombinedOutput(); err != nil {
			t.Fatalf("go %v: %v: %s", words, err, output)
		}
	}
	equal(t, string(output), "NotFound")
}
