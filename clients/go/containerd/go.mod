module pibroulez.example/pibroulez/containerd

go 1.19

require (
	github.com/containerd/containerd v1.6.20
	golang.org/x/sys v0.3.0
	pibroulez.example/pibroulez v0.0.0
)

replace pibroulez.example/pibroulez => ../
