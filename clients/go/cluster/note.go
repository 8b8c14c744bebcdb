package cluster

// An event is a step of an agent, for tests that take a run as a walk of package model.
type event struct {
	Kind   string `json:"e"`
	Tenant string `json:"t"`
	To     Usage  `json:"to"`
	Number uint64 `json:"n,omitempty"`
	// By is the process, and Lines how many lines the log has, of one that begins.
	By    string `json:"by,omitempty"`
	Lines int    `json:"lines,omitempty"`
}

const (
	// As the agent begins.
	begun = "begun"
	// Before and after the store's own limit is set.
	limiting = "limiting"
	limited  = "limited"
	// Before a transaction is sent, and once it is answered to be written.
	sending  = "sending"
	answered = "answered"
)
