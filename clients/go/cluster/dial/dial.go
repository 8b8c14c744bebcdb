// Package dial makes clients of the etcd of a cluster.
package dial

import (
	"time"

	"go.etcd.io/etcd/clientv3"
	"go.etcd.io/etcd/pkg/transport"
	"go.uber.org/zap"
)

// Config says where etcd is, and whom it takes.
type Config struct {
	// Endpoints are URLs of members.
	Endpoints []string
	// Authority is the file of the certificate that the members' are signed by, and Certificate and Key are those of the
	// client. They are empty where etcd asks for none.
	Authority, Certificate, Key string
}

// Client makes a client, which waits for no member. What it would log is told by the errors of its calls. It finds another
// member within some seconds where one doesn't answer.
func Client(config Config) (*clientv3.Client, error) {
	log := zap.NewProductionConfig()
	log.OutputPaths, log.ErrorOutputPaths = nil, nil
	it := clientv3.Config{
		Endpoints: config.Endpoints, LogConfig: &log, DialKeepAliveTime: time.Second, DialKeepAliveTimeout: time.Second,
	}
	if config.Authority != "" || config.Certificate != "" || config.Key != "" {
		secret := transport.TLSInfo{TrustedCAFile: config.Authority, CertFile: config.Certificate, KeyFile: config.Key}
		var err error
		if it.TLS, err = secret.ClientConfig(); err != nil {
			return nil, err
		}
	}
	return clientv3.New(it)
}
