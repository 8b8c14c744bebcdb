package cluster_test

import (
	"context"
	"errors"
	"fmt"
	"log"

	"go.etcd.io/etcd/clientv3"

	"pibroulez.example/pibroulez"
	"pibroulez.example/pibroulez/cluster"
)

// A store with a log, its agent, and a snapshot that is charged within the cluster's limits.
func Example() {
	ctx := context.Background()
	client, err := clientv3.New(clientv3.Config{Endpoints: []string{"http://127.0.0.1:2379"}})
	if err != nil {
		log.Fatal(err)
	}
	defer client.Close()

	// An operator, once.
	limit := cluster.Usage{Blocks: 100_000, Inodes: 20_000}
	if _, err := cluster.NewOperator(client, "").SetLimit(ctx, "a", limit); err != nil {
		log.Fatal(err)
	}

	// Each node.
	config := pibroulez.Config{Program: "snap_replay", Root: "/r", Log: "store.log"}
	store, err := cluster.OpenOrNew(ctx, config, "a", "b")
	if err != nil {
		log.Fatal(err)
	}
	defer store.Close()
	store.RollWhenFull(0)
	agent, err := cluster.New(ctx, cluster.Config{Client: client, Node: "node-7", Store: store})
	if err != nil {
		log.Fatal(err)
	}
	defer agent.Close()
	err = agent.Charge(ctx, "a", cluster.Usage{Blocks: 1, Inodes: 1}, func(ctx context.Context) error {
		_, err := store.Prepare(ctx, "a", "k", "")
		return err
	})
	var refused *cluster.Refused
	if errors.As(err, &refused) {
		fmt.Println("free in the cluster:", refused.Free)
	}
}
