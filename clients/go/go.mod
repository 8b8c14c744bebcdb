module pibroulez.example/pibroulez

go 1.19
