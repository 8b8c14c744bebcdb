package main

import (
	"context"
	"errors"
	"flag"
	"fmt"
	"strconv"
	"strings"
	"time"

	"pibroulez.example/pibroulez"
	"pibroulez.example/pibroulez/cluster"
	"pibroulez.example/pibroulez/cluster/dial"
	"pibroulez.example/pibroulez/told"
)

// How long etcd may take to answer a command.
var patience = 10 * time.Second

// Where etcd is, and whom it takes.
type etcdWords struct {
	dial.Config
	endpoints, prefix string
}

func (w *etcdWords) define(flags *flag.FlagSet) {
	flags.StringVar(&w.endpoints, "endpoints", "http://127.0.0.1:2379", "")
	flags.StringVar(&w.Authority, "cacert", "", "")
	flags.StringVar(&w.Certificate, "cert", "", "")
	flags.StringVar(&w.Key, "key", "", "")
	flags.StringVar(&w.prefix, "prefix", "", "")
}

// A command of an operator of a cluster.
func onCluster(do func(context.Context, *cluster.Operator, words) (answer, error)) func(context.Context, words) (answer, error) {
	return func(ctx context.Context, given words) (answer, error) {
		ctx, cancel := context.WithTimeout(ctx, patience)
		defer cancel()
		given.etcd.Endpoints = strings.Split(given.etcd.endpoints, ",")
		client, err := dial.Client(given.etcd.Config)
		if err != nil {
			return answer{}, err
		}
		defer client.Close()
		it, err := do(ctx, cluster.NewOperator(client, given.etcd.prefix), given)
		if errors.Is(err, context.DeadlineExceeded) {
			err = fmt.Errorf("etcd at %s: no answer: %w", given.etcd.endpoints, err)
		}
		return it, err
	}
}

func clusterQuota(ctx context.Context, operator *cluster.Operator, given words) (answer, error) {
	var quotas []cluster.TenantQuota
	var err error
	if len(given.rest) > 1 {
		var one cluster.TenantQuota
		one, err = operator.Quota(ctx, given.rest[1])
		quotas = append(quotas, one)
	} else {
		quotas, err = operator.Quotas(ctx)
	}
	return tenantsOf(quotas), err
}

// A row for each tenant, and below it one for each store that has a grant.
func tenantsOf(quotas []cluster.TenantQuota) answer {
	it := answer{value: valuesOf(quotas), columns: []string{
		"TENANT", "NODE", ">LIMIT", ">GRANTED", ">FREE", ">CHARGED", ">IDLE", ">AGE",
	}}
	for _, quota := range quotas {
		var charged, idle pibroulez.Usage
		for _, holding := range quota.Holdings {
			charged, idle = plus(charged, holding.Charged), plus(idle, holding.Idle)
		}
		it.rows = append(it.rows, []any{told.Name(quota.Tenant), "", quota.Limit, quota.Granted, quota.Free, charged, idle, ""})
		for _, holding := range quota.Holdings {
			it.rows = append(it.rows, []any{
				"", nodeOf(holding.Node, holding.Store), "", holding.Granted, "", holding.Charged, holding.Idle, ageOf(holding.Age, holding.Answers),
			})
		}
	}
	return it
}

// The node of a store, or the store where it was forgotten.
func nodeOf(node, store string) string {
	if node == "" {
		return store
	}
	return told.Name(node)
}

func ageOf(age time.Duration, answers bool) string {
	switch {
	case !answers:
		return "no answer"
	case age < 0:
		return "-"
	}
	return age.Round(time.Second).String()
}

func clusterLimit(ctx context.Context, operator *cluster.Operator, given words) (answer, error) {
	limit, err := usageOf(given.rest[2])
	if err != nil {
		return answer{}, err
	}
	quota, err := operator.SetLimit(ctx, given.rest[1], limit)
	if err != nil {
		return answer{}, err
	}
	it := tenantsOf([]cluster.TenantQuota{quota})
	if quota.Above != (pibroulez.Usage{}) {
		it.words = fmt.Sprintf("%v are granted above the limit, and come back as the nodes above free them\n", quota.Above)
	}
	return it, nil
}

func clusterShards(ctx context.Context, operator *cluster.Operator, given words) (answer, error) {
	shards, err := strconv.Atoi(given.rest[2])
	if err != nil {
		return answer{}, fmt.Errorf("%w: %q", cluster.ErrBadShards, given.rest[2])
	}
	return answer{value: map[string]any{"tenant": given.rest[1], "shards": shards}}, operator.SetShards(ctx, given.rest[1], shards)
}

func clusterRestored(ctx context.Context, operator *cluster.Operator, given words) (answer, error) {
	return answer{value: map[string]bool{"open": false}}, operator.Restored(ctx)
}

func clusterReopen(ctx context.Context, operator *cluster.Operator, given words) (answer, error) {
	err := operator.Reopen(ctx, cluster.Reopening{AllRegistered: given.areRegistered})
	if errors.Is(err, cluster.ErrNotConfirmed) {
		err = fmt.Errorf("%w: --all-registered says so", err)
	}
	return answer{value: map[string]bool{"open": true}}, err
}

func clusterNodes(ctx context.Context, operator *cluster.Operator, given words) (answer, error) {
	members, err := operator.Nodes(ctx)
	it := answer{value: membersOf(members), columns: []string{"NODE", "STORE", "STATE", ">TOLD", "GRANTED"}}
	for _, member := range members {
		var grants []string
		for _, tenant := range told.Sorted(member.Granted) {
			grants = append(grants, fmt.Sprintf("%s %v", told.Name(tenant), member.Granted[tenant]))
		}
		node := ""
		if member.Node != "" {
			node = told.Name(member.Node)
		}
		it.rows = append(it.rows, []any{node, member.Store, stateOf(member), ageOf(member.Age, member.Age >= 0), strings.Join(grants, ", ")})
	}
	return it, err
}

func stateOf(member cluster.Member) string {
	switch {
	case member.IsForgotten:
		return "forgotten"
	case !member.Answers:
		return "no answer"
	case member.IsDrained:
		return "drained"
	}
	return "answers"
}

func clusterForget(ctx context.Context, operator *cluster.Operator, given words) (answer, error) {
	freed, err := operator.Forget(ctx, cluster.Forgetting{Store: given.rest[1], DataDestroyed: given.isDestroyed})
	if errors.Is(err, cluster.ErrNotConfirmed) {
		err = fmt.Errorf("%w: --data-destroyed says so", err)
	}
	it := answer{value: freed, columns: []string{"TENANT", ">FREED"}}
	for _, tenant := range told.Sorted(freed) {
		it.rows = append(it.rows, []any{told.Name(tenant), freed[tenant]})
	}
	return it, err
}

func clusterCheck(ctx context.Context, operator *cluster.Operator, given words) (answer, error) {
	checked, err := operator.Check(ctx)
	if err != nil {
		return answer{}, err
	}
	it := tenantsOf(checked.Tenants)
	it.value = map[string]any{"revision": checked.Revision, "tenants": valuesOf(checked.Tenants), "faults": orEmpty(checked.Faults)}
	for _, fault := range checked.Faults {
		it.words += told.Name(fault) + "\n"
	}
	it.words += fmt.Sprintf("revision %d: %d tenants, %d faults\n", checked.Revision, len(checked.Tenants), len(checked.Faults))
	if len(checked.Faults) > 0 {
		it.fault = errors.New("the cluster has what doesn't fit")
	}
	return it, nil
}

func clusterDrain(ctx context.Context, operator *cluster.Operator, given words) (answer, error) {
	return answer{value: map[string]string{"drained": given.rest[1]}}, operator.Drain(ctx, given.rest[1])
}

func clusterUndrain(ctx context.Context, operator *cluster.Operator, given words) (answer, error) {
	return answer{value: map[string]string{"undrained": given.rest[1]}}, operator.Undrain(ctx, given.rest[1])
}

// The values in JSON. An age is in seconds, and is left out where nothing was told.
type holdingValue struct {
	Node    string          `json:"node"`
	Store   string          `json:"store"`
	Granted pibroulez.Usage `json:"granted"`
	Charged pibroulez.Usage `json:"charged"`
	Limit   pibroulez.Usage `json:"limit"`
	Idle    pibroulez.Usage `json:"idle"`
	Answers bool            `json:"answers"`
	Age     *float64        `json:"age,omitempty"`
}

type tenantValue struct {
	Tenant  string          `json:"tenant"`
	Limit   pibroulez.Usage `json:"limit"`
	Granted pibroulez.Usage `json:"granted"`
	Free    pibroulez.Usage `json:"free"`
	Above   pibroulez.Usage `json:"above"`
	Shards  int             `json:"shards"`
	Nodes   []holdingValue  `json:"nodes"`
}

type memberValue struct {
	Node    string                     `json:"node"`
	Store   string                     `json:"store"`
	State   string                     `json:"state"`
	Age     *float64                   `json:"age,omitempty"`
	Granted map[string]pibroulez.Usage `json:"granted"`
}

func valuesOf(quotas []cluster.TenantQuota) []tenantValue {
	values := []tenantValue{}
	for _, it := range quotas {
		value := tenantValue{it.Tenant, it.Limit, it.Granted, it.Free, it.Above, it.Shards, []holdingValue{}}
		for _, h := range it.Holdings {
			value.Nodes = append(value.Nodes, holdingValue{h.Node, h.Store, h.Granted, h.Charged, h.Bound, h.Idle, h.Answers, seconds(h.Age)})
		}
		values = append(values, value)
	}
	return values
}

func membersOf(members []cluster.Member) []memberValue {
	values := []memberValue{}
	for _, it := range members {
		values = append(values, memberValue{it.Node, it.Store, stateOf(it), seconds(it.Age), it.Granted})
	}
	return values
}

func seconds(age time.Duration) *float64 {
	if age < 0 {
		return nil
	}
	it := age.Seconds()
	return &it
}
