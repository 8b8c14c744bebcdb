package containerd

import (
	"os"

	"github.com/containerd/containerd/log"
	"github.com/containerd/containerd/mount"
	"github.com/containerd/containerd/snapshots/overlay/overlayutils"

	"pibroulez.example/pibroulez"
)

// Is there where the kernel's overlay has the option `index`. With it on, a directory that another mount uses is refused.
const indexParameter = "/sys/module/overlay/parameters/index"

// The options that overlay mounts below a root need beside the store's, as containerd's own snapshotter finds them.
func overlayOptions(root string) []string {
	var options []string
	if _, err := os.Stat(indexParameter); err == nil {
		options = append(options, "index=off")
	}
	needs, err := overlayutils.NeedsUserXAttr(root)
	if err != nil {
		log.L.WithError(err).Warn("failed to find out whether overlay mounts need userxattr")
	}
	if needs {
		options = append(options, "userxattr")
	}
	return options
}

// The store's mounts as containerd has them, each overlay mount with these options first.
func mountsWith(options []string, mounts []pibroulez.Mount) []mount.Mount {
	made := make([]mount.Mount, 0, len(mounts))
	for _, it := range mounts {
		own := it.Options
		if it.Type == "overlay" {
			own = append(append([]string{}, options...), it.Options...)
		}
		made = append(made, mount.Mount{Type: it.Type, Source: it.Source, Options: own})
	}
	return made
}
