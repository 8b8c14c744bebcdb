// Package service serves a snapshotter to containerd, as a proxy plugin of type "snapshot" asks it, by gRPC.
package service

import (
	"context"
	"net"
	"path"
	"time"

	snapshotsapi "github.com/containerd/containerd/api/services/snapshots/v1"
	"github.com/containerd/containerd/contrib/snapshotservice"
	"github.com/containerd/containerd/errdefs"
	"github.com/containerd/containerd/log"
	"github.com/containerd/containerd/snapshots"
	"github.com/sirupsen/logrus"
	"google.golang.org/grpc"
	"google.golang.org/grpc/status"
)

// How long calls may run on once a service is to end.
const patience = 20 * time.Second

// A Service answers the calls that come by its listeners.
type Service struct{ server *grpc.Server }

// New makes a service of a snapshotter, which it doesn't close. It tells how long each call took, by its name as Prepare,
// where observe isn't nil.
func New(snapshotter snapshots.Snapshotter, observe func(call string, took time.Duration)) *Service {
	if observe == nil {
		observe = func(string, time.Duration) {}
	}
	o := observer(observe)
	server := grpc.NewServer(grpc.UnaryInterceptor(o.unary), grpc.StreamInterceptor(o.stream))
	snapshotsapi.RegisterSnapshotsServer(server, snapshotservice.FromSnapshotter(snapshotter))
	return &Service{server}
}

// Serve answers the calls that come by a listener until End: then there is no error.
func (s *Service) Serve(listener net.Listener) error { return s.server.Serve(listener) }

// End ends the service with its listeners, once the calls that run are answered, or after 20 seconds.
func (s *Service) End() {
	late := time.AfterFunc(patience, s.server.Stop)
	defer late.Stop()
	s.server.GracefulStop()
}

// Is told how long calls took.
type observer func(call string, took time.Duration)

func (o observer) unary(ctx context.Context, request any, info *grpc.UnaryServerInfo, handler grpc.UnaryHandler) (any, error) {
	began := time.Now()
	answer, err := handler(ctx, request)
	o.tell(log.L.WithField("request", request), info.FullMethod, began, err)
	return answer, err
}

// Does so for a call with many answers, and gives its error the class that containerd's service gives those of others.
func (o observer) stream(server any, stream grpc.ServerStream, info *grpc.StreamServerInfo, handler grpc.StreamHandler) error {
	began := time.Now()
	err := errdefs.ToGRPC(handler(server, stream))
	o.tell(log.L, info.FullMethod, began, err)
	return err
}

// Tells a call, and writes a line for it where the level has such lines.
func (o observer) tell(entry *logrus.Entry, method string, began time.Time, err error) {
	took := time.Since(began)
	o(path.Base(method), took)
	entry = entry.WithField("took", took).WithField("code", status.Code(err))
	if err != nil {
		entry = entry.WithError(err)
	}
	entry.Debug(method)
}
