package containerd

import (
	"errors"
	"fmt"
	"strings"

	"github.com/containerd/containerd/errdefs"

	"pibroulez.example/pibroulez"
)

// The class that containerd has for an error, by the first that is found in it. Errors of contexts have none.
var classes = []struct{ err, class error }{
	{pibroulez.ErrNotFound, errdefs.ErrNotFound},
	{pibroulez.ErrAlreadyExists, errdefs.ErrAlreadyExists},
	{pibroulez.ErrBadArgument, errdefs.ErrInvalidArgument},
	{pibroulez.ErrNotText, errdefs.ErrInvalidArgument},
	{pibroulez.ErrNotCommitted, errdefs.ErrInvalidArgument},
	{pibroulez.ErrNotActive, errdefs.ErrFailedPrecondition},
	{pibroulez.ErrHasChildren, errdefs.ErrFailedPrecondition},
	{pibroulez.ErrInUse, errdefs.ErrFailedPrecondition},
	{pibroulez.ErrTooDeep, errdefs.ErrFailedPrecondition},
	{pibroulez.ErrNoHand, errdefs.ErrFailedPrecondition},
	{ErrNotOverlay, errdefs.ErrFailedPrecondition},
	{ErrTooLongPath, errdefs.ErrFailedPrecondition},
	{ErrLedger, errdefs.ErrFailedPrecondition},
	{pibroulez.ErrLayerFull, errdefs.ErrFailedPrecondition},
	{pibroulez.ErrTooBig, errdefs.ErrFailedPrecondition},
	{pibroulez.ErrTooManyActives, errdefs.ErrUnavailable},
	{pibroulez.ErrTooManyNamespaces, errdefs.ErrUnavailable},
	{pibroulez.ErrOverLimit, errdefs.ErrUnavailable},
	{pibroulez.ErrJournalFull, errdefs.ErrUnavailable},
	{pibroulez.ErrNumbersSpent, errdefs.ErrUnavailable},
	{pibroulez.ErrNotKept, errdefs.ErrUnavailable},
	{pibroulez.ErrDied, errdefs.ErrUnavailable},
	{pibroulez.ErrClosed, errdefs.ErrUnavailable},
}

// An error in words of its own, with its class.
type failure struct {
	error
	words string
	class error
}

func (f failure) Error() string { return f.words }

func (f failure) Is(target error) bool { return target == f.class }

func (f failure) Unwrap() error { return f.error }

// What a call is about. A part that it doesn't have is nil.
type subject struct {
	key string
	// The parent that a new snapshot is to have, and the name that one is to be committed under.
	parent, name *string
	labels       map[string]string
}

// The error as one of its class too, and where the store refuses, in words of what.
func (s subject) classified(err error) error {
	if errors.Is(err, pibroulez.ErrNoNamespace) && s.key != "" {
		// It is a tenant without a snapshot. A new one has its namespace made, and an operator may have removed one of those
		// that stay.
		if s.parent != nil {
			return failure{err, err.Error(), errdefs.ErrFailedPrecondition}
		}
		return failure{err, fmt.Sprintf("snapshot %q is not found", s.key), errdefs.ErrNotFound}
	}
	for _, it := range classes {
		if errors.Is(err, it.err) {
			return failure{err, s.words(err), it.class}
		}
	}
	return err
}

// What the store refuses, or the error's own words.
func (s subject) words(err error) string {
	refusal, lacks, no := new(pibroulez.Refusal), new(wants), new(noTenant)
	if errors.As(err, &lacks) {
		return lacks.Error()
	}
	if errors.As(err, &no) {
		return no.Error()
	}
	if !errors.As(err, &refusal) {
		return err.Error()
	}
	switch refusal.Reason {
	case pibroulez.ErrNotFound:
		if s.parent != nil {
			return fmt.Sprintf("parent %q is not found", *s.parent)
		}
		return fmt.Sprintf("snapshot %q is not found", s.key)
	case pibroulez.ErrAlreadyExists:
		if s.name != nil {
			return fmt.Sprintf("snapshot %q already exists", *s.name)
		}
		return fmt.Sprintf("snapshot %q already exists", s.key)
	case pibroulez.ErrBadArgument:
		return s.malformed(refusal.Field)
	case pibroulez.ErrNotCommitted:
		return fmt.Sprintf("parent %q is not committed", text(s.parent))
	case pibroulez.ErrTooDeep:
		return fmt.Sprintf("parent %q has as many ancestors as the store allows", text(s.parent))
	}
	if words := plainWords[refusal.Reason]; words != "" && s.key != "" {
		return fmt.Sprintf("snapshot %q %s", s.key, words)
	}
	return err.Error()
}

// What refusals say of the snapshot that the call has the key of.
var plainWords = map[pibroulez.Reason]string{
	pibroulez.ErrNotActive:      "is not active",
	pibroulez.ErrNoHand:         "is sealed by a refused commit: it can only be removed",
	pibroulez.ErrHasChildren:    "has children",
	pibroulez.ErrInUse:          "is active",
	pibroulez.ErrLeased:         "is named by a lease",
	pibroulez.ErrTooManyActives: "is not made: as many are active as may be",
	pibroulez.ErrJournalFull:    "is not changed: the journal is full",
	pibroulez.ErrNumbersSpent:   "is not made: the numbers are used up",
	pibroulez.ErrNotKept:        "is not changed: the log can't keep the call",
}

// Which part of a call is malformed, by the limits of docs/RULES.md.
func (s subject) malformed(field string) string {
	switch {
	case field != "":
		return fmt.Sprintf("malformed field %q of open", field)
	case !isKey(s.key):
		return fmt.Sprintf("malformed key %q", s.key)
	case s.parent != nil && *s.parent != "" && !isKey(*s.parent):
		return fmt.Sprintf("malformed parent %q", *s.parent)
	case s.name != nil && !isKey(*s.name):
		return fmt.Sprintf("malformed name %q", *s.name)
	case len(s.labels) > mostLabels:
		return fmt.Sprintf("%d labels of snapshot %q, of at most %d", len(s.labels), s.key, mostLabels)
	}
	for name, value := range s.labels {
		if isMalformed(name, value) {
			return fmt.Sprintf("malformed label %q of snapshot %q", name, s.key)
		}
	}
	return fmt.Sprintf("malformed labels or paths of snapshot %q", s.key)
}

func isMalformed(name, value string) bool { return name == "" || len(name)+len(value) > mostLabelBytes }

func (s subject) hasMalformedLabels() bool {
	for name, value := range s.labels {
		if isMalformed(name, value) {
			return true
		}
	}
	return len(s.labels) > mostLabels
}

// Limits of docs/RULES.md.
const (
	mostKeyBytes   = 1024
	mostLabels     = 64
	mostLabelBytes = 4096
)

func isKey(text string) bool {
	return text != "" && len(text) <= mostKeyBytes && !strings.Contains(text, "\x00")
}

func text(it *string) string {
	if it == nil {
		return ""
	}
	return *it
}
