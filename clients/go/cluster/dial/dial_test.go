package dial_test

import (
	"context"
	"testing"
	"time"

	"pibroulez.example/pibroulez/cluster/dial"
	"pibroulez.example/pibroulez/cluster/etcdtest"
)

// An etcd that takes clients with a certificate alone is asked by such a client, and by no other.
func TestTLS(t *testing.T) {
	config := etcdtest.StartTLS(t)
	for _, it := range []struct {
		config    dial.Config
		isAllowed bool
	}{
		{config, true},
		{dial.Config{Endpoints: config.Endpoints, Authority: config.Authority}, false},
		{dial.Config{Endpoints: config.Endpoints, Certificate: config.Certificate, Key: config.Key}, false},
		{dial.Config{Endpoints: config.Endpoints}, false},
	} {
		client, err := dial.Client(it.config)
		if err != nil {
			t.Fatal(err)
		}
		patience := time.Minute
		if !it.isAllowed {
			patience = time.Second
		}
		ctx, cancel := context.WithTimeout(context.Background(), patience)
		if _, err := client.Get(ctx, "x"); (err == nil) != it.isAllowed {
			t.Errorf("%+v: %v", it.config, err)
		}
		cancel()
		client.Close()
	}
	config.Key = config.Certificate
	if _, err := dial.Client(config); err == nil {
		t.Error("a certificate is taken for a key")
	}
}
