// Package etcdtest starts an etcd of one member on 127.0.0.1, for tests of others.
package etcdtest

import (
	"context"
	"net"
	"os/exec"
	"syscall"
	"testing"
	"time"

	"go.etcd.io/etcd/clientv3"

	"pibroulez.example/pibroulez/cluster/dial"
)

// How often a start is tried, since another process may take a port that was free.
const tries = 5

// Start starts one, which ends with the test, and answers its endpoint. Where etcd isn't there the test is skipped.
func Start(t testing.TB) string {
	t.Helper()
	return startWith(t, "http", dial.Config{}).Endpoints[0]
}

// StartTLS starts one that takes clients with a certificate alone, and answers what such a client has.
func StartTLS(t testing.TB) dial.Config {
	t.Helper()
	of := certificates(t)
	return startWith(t, "https", of, "--client-cert-auth", "--trusted-ca-file", of.Authority, "--cert-file", of.Certificate, "--key-file", of.Key)
}

func startWith(t testing.TB, scheme string, config dial.Config, args ...string) dial.Config {
	t.Helper()
	if _, err := exec.LookPath("etcd"); err != nil {
		t.Skip(err)
	}
	for try := 0; try < tries; try++ {
		config.Endpoints = []string{scheme + "://" + free(t)}
		if start(t, config, args) {
			return config
		}
	}
	t.Fatal("no etcd has answered")
	return config
}

// Starts one. Whether it answers.
func start(t testing.TB, config dial.Config, more []string) bool {
	t.Helper()
	client, peer := config.Endpoints[0], "http://"+free(t)
	args := append([]string{"--name", "m", "--data-dir", t.TempDir(), "--listen-client-urls", client, "--advertise-client-urls", client,
		"--listen-peer-urls", peer, "--initial-advertise-peer-urls", peer, "--initial-cluster", "m=" + peer, "--unsafe-no-fsync", "--logger", "zap",
		"--log-level", "panic"}, more...)
	process := exec.Command("etcd", args...)
	process.SysProcAttr = &syscall.SysProcAttr{Setpgid: true}
	if err := process.Start(); err != nil {
		t.Fatal(err)
	}
	ended := make(chan struct{})
	go func() {
		process.Wait()
		close(ended)
	}()
	t.Cleanup(func() {
		process.Process.Kill()
		<-ended
	})
	return answers(t, config, ended)
}

// Whether it answers before it ends.
func answers(t testing.TB, config dial.Config, ended chan struct{}) bool {
	t.Helper()
	client := clientOf(t, config)
	ctx, cancel := context.WithTimeout(context.Background(), time.Minute)
	defer cancel()
	go func() {
		select {
		case <-ended:
			cancel()
		case <-ctx.Done():
		}
	}()
	_, err := client.Get(ctx, "x")
	return err == nil
}

// Client is one of an etcd, which is closed with the test.
func Client(t testing.TB, endpoint string) *clientv3.Client {
	t.Helper()
	return clientOf(t, dial.Config{Endpoints: []string{endpoint}})
}

func clientOf(t testing.TB, config dial.Config) *clientv3.Client {
	t.Helper()
	client, err := dial.Client(config)
	if err != nil {
		t.Fatal(err)
	}
	t.Cleanup(func() { client.Close() })
	return client
}

// An address that nobody listens at.
func free(t testing.TB) string {
	t.Helper()
	listener, err := net.Listen("tcp", "127.0.0.1:0")
	if err != nil {
		t.Fatal(err)
	}
	defer listener.Close()
	return listener.Addr().String()
}
