module pibroulez.example/pibroulez/pibroulezd

go 1.19

require (
	github.com/containerd/containerd v1.6.20
	github.com/coreos/go-systemd/v22 v22.3.2
	github.com/pelletier/go-toml v1.9.4
	github.com/prometheus/client_golang v1.14.0
	github.com/prometheus/common v0.39.0
	github.com/sirupsen/logrus v1.9.0
	go.etcd.io/etcd v0.5.0-alpha.5.0.20210226220824-aa7126864d82
	golang.org/x/net v0.7.0
	google.golang.org/grpc v1.38.0
	pibroulez.example/pibroulez v0.0.0
	pibroulez.example/pibroulez/cluster v0.0.0
	pibroulez.example/pibroulez/containerd v0.0.0
)

replace (
	pibroulez.example/pibroulez => ../
	pibroulez.example/pibroulez/cluster => ../cluster
	pibroulez.example/pibroulez/containerd => ../containerd
)
