module pibroulez.example/pibroulez/cluster

go 1.19

require (
	go.etcd.io/etcd v0.5.0-alpha.5.0.20210226220824-aa7126864d82
	pibroulez.example/pibroulez v0.0.0
)

replace pibroulez.example/pibroulez => ../
