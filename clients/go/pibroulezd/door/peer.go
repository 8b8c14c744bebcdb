package door

import (
	"errors"
	"net"
	"syscall"
	"unsafe"
)

// A Peer is who has connected, as the kernel knew it then (unix(7)).
type Peer struct {
	User, Group uint32
	// Groups are the further groups.
	Groups  []uint32
	Process int32
}

// The option of a socket that tells the groups of its peer, in x86's and ARM's Linux.
const optionPeerGroups = 59

// The most groups that a process may have.
const mostGroups = 1 << 16

func peerOf(socket *net.UnixConn) (Peer, error) {
	raw, err := socket.SyscallConn()
	if err != nil {
		return Peer{}, err
	}
	var peer Peer
	var failed error
	err = raw.Control(func(descriptor uintptr) {
		var credentials *syscall.Ucred
		if credentials, failed = syscall.GetsockoptUcred(int(descriptor), syscall.SOL_SOCKET, syscall.SO_PEERCRED); failed == nil {
			peer = Peer{User: credentials.Uid, Group: credentials.Gid, Process: credentials.Pid}
			peer.Groups, failed = groupsOf(descriptor)
		}
	})
	if err == nil {
		err = failed
	}
	return peer, err
}

func groupsOf(descriptor uintptr) ([]uint32, error) {
	for groups := make([]uint32, 32); ; groups = make([]uint32, mostGroups) {
		const bytes = 4
		size := uint32(len(groups) * bytes)
		_, _, failed := syscall.Syscall6(
			syscall.SYS_GETSOCKOPT, descriptor, syscall.SOL_SOCKET, optionPeerGroups,
			uintptr(unsafe.Pointer(&groups[0])), uintptr(unsafe.Pointer(&size)), 0,
		)
		switch {
		case failed == 0:
			return groups[:size/bytes], nil
		case failed != syscall.ERANGE || len(groups) == mostGroups:
			return nil, failed
		}
	}
}

// All groups of a peer.
func (p Peer) AllGroups() []uint32 { return append([]uint32{p.Group}, p.Groups...) }

// Whether a connection couldn't be taken for want of what there will be again.
func isPassing(err error) bool {
	for _, it := range []error{syscall.EMFILE, syscall.ENFILE, syscall.ENOBUFS, syscall.ENOMEM, syscall.ECONNABORTED, syscall.EINTR} {
		if errors.Is(err, it) {
			return true
		}
	}
	return false
}

func isNoSpace(err error) bool {
	return errors.Is(err, syscall.ENOSPC) || errors.Is(err, syscall.EDQUOT)
}
