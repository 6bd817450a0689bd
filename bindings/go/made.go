// Made of c/swim.h by .ci/bindings. DO NOT EDIT.

package swim

// #include "swim.h"
import "C"

// A Code says: why a call did nothing.
type Code int

const (
	// ErrNothing is SWIM_NOTHING: no datagram waits, or no change is left.
	ErrNothing Code = C.SWIM_NOTHING
	// ErrNull is SWIM_NULL: a pointer is null that may not be.
	ErrNull Code = C.SWIM_NULL
	// ErrClosed is SWIM_CLOSED: the handle is closed.
	ErrClosed Code = C.SWIM_CLOSED
	// ErrIsOpen is SWIM_IS_OPEN: the handle is open already.
	ErrIsOpen Code = C.SWIM_IS_OPEN
	// ErrNoEndpoint is SWIM_NO_ENDPOINT: the own port or that of a peer or seed is 0.
	ErrNoEndpoint Code = C.SWIM_NO_ENDPOINT
	// ErrWaiting is SWIM_WAITING: datagrams of the last event wait: take them by swim_next_datagram first.
	ErrWaiting Code = C.SWIM_WAITING
	// ErrShort is SWIM_SHORT: the buffer is too short, and the datagram still waits.
	ErrShort Code = C.SWIM_SHORT
	// ErrNoMemory is SWIM_NO_MEMORY.
	ErrNoMemory Code = C.SWIM_NO_MEMORY
	// ErrFile is SWIM_FILE: the system refused the file or a call on it: errno says why.
	ErrFile Code = C.SWIM_FILE
	// ErrLocked is SWIM_LOCKED: another handle or another process has the state file.
	ErrLocked Code = C.SWIM_LOCKED
	// ErrBadLambda is SWIM_BAD_LAMBDA.
	ErrBadLambda Code = C.SWIM_BAD_LAMBDA
	// ErrBadPeriod is SWIM_BAD_PERIOD.
	ErrBadPeriod Code = C.SWIM_BAD_PERIOD
	// ErrBadDirect is SWIM_BAD_DIRECT.
	ErrBadDirect Code = C.SWIM_BAD_DIRECT
	// ErrBadSuspect is SWIM_BAD_SUSPECT.
	ErrBadSuspect Code = C.SWIM_BAD_SUSPECT
	// ErrBadForget is SWIM_BAD_FORGET.
	ErrBadForget Code = C.SWIM_BAD_FORGET
	// ErrBadHelpers is SWIM_BAD_HELPERS.
	ErrBadHelpers Code = C.SWIM_BAD_HELPERS
	// ErrBadBlock is SWIM_BAD_BLOCK.
	ErrBadBlock Code = C.SWIM_BAD_BLOCK
	// ErrBadRules is SWIM_BAD_RULES.
	ErrBadRules Code = C.SWIM_BAD_RULES
	// ErrBadAddress is SWIM_BAD_ADDRESS: no member is reached at the own address: it is 0.0.0.0, 255.255.255.255 or of multicast.
	ErrBadAddress Code = C.SWIM_BAD_ADDRESS
	// ErrBadReserved is SWIM_BAD_RESERVED: a byte of `reserved` is not 0.
	ErrBadReserved Code = C.SWIM_BAD_RESERVED
	// ErrOpenDevice is SWIM_OPEN_DEVICE: a read, write or sync failed, errno says why: the opening may be tried again.
	ErrOpenDevice Code = C.SWIM_OPEN_DEVICE
	// ErrOpenNotState is SWIM_OPEN_NOT_STATE: it is no state file.
	ErrOpenNotState Code = C.SWIM_OPEN_NOT_STATE
	// ErrOpenWrongOwner is SWIM_OPEN_WRONG_OWNER: it is of another group or endpoint.
	ErrOpenWrongOwner Code = C.SWIM_OPEN_WRONG_OWNER
	// ErrOpenNoSlot is SWIM_OPEN_NO_SLOT: swim_make_state was cut short, or else something wrote the file: see swim_make_state.
	ErrOpenNoSlot Code = C.SWIM_OPEN_NO_SLOT
	// ErrOpenDamaged is SWIM_OPEN_DAMAGED: something else wrote the file, or the disk lost what it had synced: docs/operate/INCIDENTS.md.
	ErrOpenDamaged Code = C.SWIM_OPEN_DAMAGED
	// ErrOpenExhausted is SWIM_OPEN_EXHAUSTED: there is no incarnation left.
	ErrOpenExhausted Code = C.SWIM_OPEN_EXHAUSTED
	// ErrOpenLimit is SWIM_OPEN_LIMIT: `limit` is 0 or above SWIM_LIMIT_MAX.
	ErrOpenLimit Code = C.SWIM_OPEN_LIMIT
	// ErrOpenNoMemory is SWIM_OPEN_NO_MEMORY.
	ErrOpenNoMemory Code = C.SWIM_OPEN_NO_MEMORY
	// ErrMakeNotEmpty is SWIM_MAKE_NOT_EMPTY: the file has bytes, and nothing was written.
	ErrMakeNotEmpty Code = C.SWIM_MAKE_NOT_EMPTY
	// ErrMakeDevice is SWIM_MAKE_DEVICE: a write or sync failed, errno says why: the file is not to be used.
	ErrMakeDevice Code = C.SWIM_MAKE_DEVICE
	// ErrMakeRange is SWIM_MAKE_RANGE: does not come.
	ErrMakeRange Code = C.SWIM_MAKE_RANGE
	// ErrKeepDevice is SWIM_KEEP_DEVICE: a write or sync failed: errno says why.
	ErrKeepDevice Code = C.SWIM_KEEP_DEVICE
	// ErrKeepChanged is SWIM_KEEP_CHANGED: the file is not as the member left it.
	ErrKeepChanged Code = C.SWIM_KEEP_CHANGED
	// ErrKeepExhausted is SWIM_KEEP_EXHAUSTED: there is no incarnation left.
	ErrKeepExhausted Code = C.SWIM_KEEP_EXHAUSTED
	// ErrBusy is SWIM_BUSY: another thread is in a call on this handle.
	ErrBusy Code = C.SWIM_BUSY
	// ErrForked is SWIM_FORKED: the handle was opened before this process was forked: it is the parent's.
	ErrForked Code = C.SWIM_FORKED
	// ErrBadDescriptor is SWIM_BAD_DESCRIPTOR: it is not open for both reading and writing, or it has O_APPEND.
	ErrBadDescriptor Code = C.SWIM_BAD_DESCRIPTOR
	// ErrTooMany is SWIM_TOO_MANY: more than SWIM_SEEDS_MAX seeds.
	ErrTooMany Code = C.SWIM_TOO_MANY
	// ErrNoHandle is SWIM_NO_HANDLE: the struct is no handle, neither closed nor open: it did not begin with all bytes 0, or was written over.
	ErrNoHandle Code = C.SWIM_NO_HANDLE
)

// A Note says: what an event took note of.
type Note uint8

const (
	// NoteBadDatagram is SWIM_NOTE_BAD_DATAGRAM: the bytes are no datagram.
	NoteBadDatagram Note = C.SWIM_NOTE_BAD_DATAGRAM
	// NoteOtherGroup is SWIM_NOTE_OTHER_GROUP: a datagram of another group.
	NoteOtherGroup Note = C.SWIM_NOTE_OTHER_GROUP
	// NoteNotSender is SWIM_NOTE_NOT_SENDER: a datagram that names another sender than the address that it came from.
	NoteNotSender Note = C.SWIM_NOTE_NOT_SENDER
	// NoteFromSelf is SWIM_NOTE_FROM_SELF: a datagram that names this member as its sender.
	NoteFromSelf Note = C.SWIM_NOTE_FROM_SELF
	// NoteLeap is SWIM_NOTE_LEAP: a suspicion of this member has an incarnation that is too far above its own.
	NoteLeap Note = C.SWIM_NOTE_LEAP
	// NoteNoNumberLeft is SWIM_NOTE_NO_NUMBER_LEFT: a suspicion of this member has the greatest incarnation.
	NoteNoNumberLeft Note = C.SWIM_NOTE_NO_NUMBER_LEFT
	// NoteTableFull is SWIM_NOTE_TABLE_FULL: there is no room for a new member.
	NoteTableFull Note = C.SWIM_NOTE_TABLE_FULL
	// NoteMisdirected is SWIM_NOTE_MISDIRECTED: a ping about another member, or a join to oneself.
	NoteMisdirected Note = C.SWIM_NOTE_MISDIRECTED
	// NoteRelaysFull is SWIM_NOTE_RELAYS_FULL: there is no room to ask one more member for another.
	NoteRelaysFull Note = C.SWIM_NOTE_RELAYS_FULL
	// NoteUnknownTarget is SWIM_NOTE_UNKNOWN_TARGET: somebody asked for a member that is not held for alive or suspected.
	NoteUnknownTarget Note = C.SWIM_NOTE_UNKNOWN_TARGET
	// NoteUnasked is SWIM_NOTE_UNASKED: an ack or a page that answers nothing that was asked.
	NoteUnasked Note = C.SWIM_NOTE_UNASKED
	// NoteSaveFailed is SWIM_NOTE_SAVE_FAILED: the state file took no save: the own incarnation stays as it is.
	NoteSaveFailed Note = C.SWIM_NOTE_SAVE_FAILED
	// NoteExpelled is SWIM_NOTE_EXPELLED: by rules 1: the group confirmed this member.
	NoteExpelled Note = C.SWIM_NOTE_EXPELLED
	// NoteStopped is SWIM_NOTE_STOPPED: an event after the member left or was expelled.
	NoteStopped Note = C.SWIM_NOTE_STOPPED
	// NoteReceiveFailed is SWIM_NOTE_RECEIVE_FAILED: swim_receive_failed.
	NoteReceiveFailed Note = C.SWIM_NOTE_RECEIVE_FAILED
	// NoteSendFailed is SWIM_NOTE_SEND_FAILED: swim_send_failed.
	NoteSendFailed Note = C.SWIM_NOTE_SEND_FAILED
	// NoteTimeOver is SWIM_NOTE_TIME_OVER: a tick at 2^62.
	NoteTimeOver Note = C.SWIM_NOTE_TIME_OVER
	// NoteOtherVersion is SWIM_NOTE_OTHER_VERSION: a datagram of the other rules.
	NoteOtherVersion Note = C.SWIM_NOTE_OTHER_VERSION
)

// A Kind says: what is held of a member.
type Kind uint8

const (
	// Alive is SWIM_ALIVE.
	Alive Kind = C.SWIM_ALIVE
	// Suspect is SWIM_SUSPECT.
	Suspect Kind = C.SWIM_SUSPECT
	// Confirm is SWIM_CONFIRM.
	Confirm Kind = C.SWIM_CONFIRM
)

// String is its name, in small letters.
func (one Kind) String() string {
	switch one {
	case Alive:
		return "alive"
	case Suspect:
		return "suspect"
	case Confirm:
		return "confirm"
	}
	return "unknown kind"
}

// A Phase says: whether a member takes part.
type Phase uint32

const (
	// Running is SWIM_RUNNING.
	Running Phase = C.SWIM_RUNNING
	// Left is SWIM_LEFT.
	Left Phase = C.SWIM_LEFT
	// Expelled is SWIM_EXPELLED.
	Expelled Phase = C.SWIM_EXPELLED
)

// String is its name, in small letters.
func (one Phase) String() string {
	switch one {
	case Running:
		return "running"
	case Left:
		return "left"
	case Expelled:
		return "expelled"
	}
	return "unknown phase"
}
