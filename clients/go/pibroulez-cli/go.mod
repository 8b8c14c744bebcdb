module pibroulez.example/pibroulez/pibroulez-cli

go 1.19

require (
	pibroulez.example/pibroulez v0.0.0
	pibroulez.example/pibroulez/cluster v0.0.0
	pibroulez.example/pibroulez/containerd v0.0.0
	pibroulez.example/pibroulez/pibroulezd v0.0.0
)

replace (
	pibroulez.example/pibroulez => ../
	pibroulez.example/pibroulez/cluster => ../cluster
	pibroulez.example/pibroulez/containerd => ../containerd
	pibroulez.example/pibroulez/pibroulezd => ../pibroulezd
)
