// Command apply unpacks a layer's archive from standard input into a directory, as containerd does where it has a mount
// of it: by archive.Apply.
package main

import (
	"context"
	"fmt"
	"os"

	"github.com/containerd/containerd/archive"
)

func main() {
	if len(os.Args) != 2 {
		fmt.Fprintln(os.Stderr, "apply DIRECTORY < ARCHIVE")
		os.Exit(2)
	}
	if _, err := archive.Apply(context.Background(), os.Args[1], os.Stdin); err != nil {
		fmt.Fprintln(os.Stderr, err)
		os.Exit(1)
	}
}
