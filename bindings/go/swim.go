// Package swim is a member of a SWIM group, by polling, over the C library. bindings/c/swim.h says what each call does; what the
// program has to feed is in docs/develop/EMBEDDING.md. pkg-config has to find swim.pc, which bindings/c/build and the Debian package
// libswim-dev leave: PKG_CONFIG_PATH names its folder.
package swim

/*
#cgo pkg-config: swim
#include <stdlib.h>
#include "swim.h"

static struct swim_settings usual_settings(void) {
    struct swim_settings settings = SWIM_USUAL_SETTINGS;
    return settings;
}

static struct swim_settings lan_settings(void) {
    struct swim_settings settings = SWIM_LAN_SETTINGS;
    return settings;
}
*/
import "C"

import (
	"errors"
	"fmt"
	"net/netip"
	"os"
	"runtime"
	"sync"
	"syscall"
	"unsafe"
)

// DatagramMax is the most bytes of a datagram.
const DatagramMax = C.SWIM_DATAGRAM_MAX

// SeedsMax is the most seeds of a member.
const SeedsMax = C.SWIM_SEEDS_MAX

// Version is that of the library that is linked: a thousand times the first number, and the second.
func Version() uint32 { return uint32(C.swim_version()) }

// Error is the name of a code in swim.h, and what it says.
func (code Code) Error() string {
	number := C.int(code)
	return fmt.Sprintf("%s: %s", C.GoString(C.swim_name(number)), C.GoString(C.swim_text(number)))
}

// String is the name of a note, as docs/reference/PROTOCOL.md has it.
func (note Note) String() string { return C.GoString(C.swim_note_name(C.int(note))) }

// A Fault is a code with what the system said. errors.Is finds the Code and, as in errors.Is(err, fs.ErrNotExist), the Errno.
type Fault struct {
	Code  Code
	Errno syscall.Errno
}

func (fault *Fault) Error() string { return fmt.Sprintf("%v (%v)", fault.Code, fault.Errno) }

// Is tells whether it is of this code.
func (fault *Fault) Is(target error) bool { return target == fault.Code }

// Unwrap is what the system said.
func (fault *Fault) Unwrap() error { return fault.Errno }

// check makes an error of a code, and of errno where the code has one.
func check(code C.int, errno error) error {
	switch code {
	case C.SWIM_OK:
		return nil
	case C.SWIM_FILE, C.SWIM_OPEN_DEVICE, C.SWIM_MAKE_DEVICE, C.SWIM_KEEP_DEVICE:
		var number syscall.Errno
		if errors.As(errno, &number) {
			return &Fault{Code(code), number}
		}
	}
	return Code(code)
}

// Settings are what a member is told at its start. All members of a group have the same, but for Me. TickMs is how many milliseconds a tick
// of Advance has, where 0 stands for 100.
type Settings struct {
	Group                                  uint64
	Me                                     netip.AddrPort
	Period, Direct, Suspect, Forget, Block uint64
	Lambda, Helpers, Rules                 uint32
	TickMs                                 uint16
}

// Usual are the defaults of `swim run`, by rules 2, for a member of this group at this IPv4 address and port.
func Usual(group uint64, me netip.AddrPort) Settings {
	return settingsOf(C.usual_settings(), group, me)
}

// Lan are those of a group that `swim up` made: the preset `lan`, with ticks of 50 ms, and rules 2.
func Lan(group uint64, me netip.AddrPort) Settings { return settingsOf(C.lan_settings(), group, me) }

func settingsOf(given C.struct_swim_settings, group uint64, me netip.AddrPort) Settings {
	return Settings{
		Group: group, Me: me,
		Period: uint64(given.period), Direct: uint64(given.direct), Suspect: uint64(given.suspect),
		Forget: uint64(given.forget), Block: uint64(given.block),
		Lambda: uint32(given.lambda), Helpers: uint32(given.helpers), Rules: uint32(given.rules),
		TickMs: uint16(given.tick_ms),
	}
}

func (s Settings) toC() (C.struct_swim_settings, error) {
	me, err := toC(s.Me)
	return C.struct_swim_settings{
		group: C.uint64_t(s.Group), address: me.address, port: me.port,
		period: C.uint64_t(s.Period), direct: C.uint64_t(s.Direct), suspect: C.uint64_t(s.Suspect),
		forget: C.uint64_t(s.Forget), block: C.uint64_t(s.Block),
		lambda: C.uint32_t(s.Lambda), helpers: C.uint32_t(s.Helpers), rules: C.uint32_t(s.Rules),
		tick_ms: C.uint16_t(s.TickMs),
	}, err
}

// toC is an endpoint as C has it, or ErrNoEndpoint where the address is not one of IPv4.
func toC(at netip.AddrPort) (C.struct_swim_endpoint, error) {
	address := at.Addr().Unmap()
	if !address.Is4() {
		return C.struct_swim_endpoint{}, ErrNoEndpoint
	}
	b := address.As4()
	number := uint32(b[0])<<24 | uint32(b[1])<<16 | uint32(b[2])<<8 | uint32(b[3])
	return C.struct_swim_endpoint{address: C.uint32_t(number), port: C.uint16_t(at.Port())}, nil
}

func fromC(address C.uint32_t, port C.uint16_t) netip.AddrPort {
	b := [4]byte{byte(address >> 24), byte(address >> 16), byte(address >> 8), byte(address)}
	return netip.AddrPortFrom(netip.AddrFrom4(b), uint16(port))
}

// Make makes a new state file at this path, where nothing may be: whole, or not at all.
func Make(path string, settings Settings) error {
	given, err := settings.toC()
	if err != nil {
		return err
	}
	name := C.CString(path)
	defer C.free(unsafe.Pointer(name))
	code, errno := C.swim_make(name, &given)
	return check(code, errno)
}

// MakeFile makes it in an empty file, which is open for reading and writing, without O_APPEND. Its folder is the caller's to sync.
func MakeFile(file *os.File, settings Settings) error {
	given, err := settings.toC()
	if err != nil {
		return err
	}
	defer runtime.KeepAlive(file)
	code, errno := C.swim_make_state(C.int(file.Fd()), &given)
	return check(code, errno)
}

// A Member is a member that runs. Goroutines may call it side by side: each call waits for the one before. Its handle lies in C's
// memory, since Go may not keep C's pointers in its own.
type Member struct {
	lock   sync.Mutex
	handle *C.struct_swim_member
}

// opened is a member by one of the openings.
func opened(settings Settings, open func(*C.struct_swim_member, *C.struct_swim_settings) (C.int, error)) (*Member, error) {
	given, err := settings.toC()
	if err != nil {
		return nil, err
	}
	m := &Member{handle: (*C.struct_swim_member)(C.calloc(1, C.sizeof_struct_swim_member))}
	if err := check(open(m.handle, &given)); err != nil {
		C.free(unsafe.Pointer(m.handle))
		return nil, err
	}
	return m, nil
}

// Open begins a life on a state file, which stays locked until Close.
func Open(path string, settings Settings) (*Member, error) {
	name := C.CString(path)
	defer C.free(unsafe.Pointer(name))
	return opened(settings, func(handle *C.struct_swim_member, given *C.struct_swim_settings) (C.int, error) {
		code, errno := C.swim_open(handle, name, given, 1)
		return code, errno
	})
}

// OpenFile begins one on a file that is open for reading and writing, without O_APPEND, and that stays the caller's to close. It is not
// locked: two members on one file are the caller's to rule out.
func OpenFile(file *os.File, settings Settings) (*Member, error) {
	defer runtime.KeepAlive(file)
	return opened(settings, func(handle *C.struct_swim_member, given *C.struct_swim_settings) (C.int, error) {
		code, errno := C.swim_open_descriptor(handle, C.int(file.Fd()), given, 1)
		return code, errno
	})
}

// OpenMemory begins one on a state file in memory, for tests.
func OpenMemory(settings Settings) (*Member, error) {
	return opened(settings, func(handle *C.struct_swim_member, given *C.struct_swim_settings) (C.int, error) {
		code, errno := C.swim_open_memory(handle, given, 1)
		return code, errno
	})
}

// call makes a call on an open member.
func (m *Member) call(made func(*C.struct_swim_member) (C.int, error)) error {
	m.lock.Lock()
	defer m.lock.Unlock()
	if m.handle == nil {
		return ErrClosed
	}
	return check(made(m.handle))
}

// Close ends the member. Nothing is sent. A second time it is ErrClosed, as each later call.
func (m *Member) Close() error {
	m.lock.Lock()
	defer m.lock.Unlock()
	if m.handle == nil {
		return ErrClosed
	}
	err := check(C.swim_close(m.handle), nil)
	C.free(unsafe.Pointer(m.handle))
	m.handle = nil
	return err
}

// Tick lets time go on by one tick, with 64 random bits. Late ticks are never made up.
func (m *Member) Tick(random uint64) error {
	return m.call(func(handle *C.struct_swim_member) (C.int, error) { return C.swim_tick(handle, C.uint64_t(random)), nil })
}

// Advance makes one tick if one is due by the program's clock, in milliseconds, joins whom the seeds call for, and gives when to call
// again. Late ticks are skipped. Use this or Tick, and not both.
func (m *Member) Advance(nowMs, random uint64) (next uint64, err error) {
	var due C.uint64_t
	err = m.call(func(handle *C.struct_swim_member) (C.int, error) {
		return C.swim_advance(handle, C.uint64_t(nowMs), C.uint64_t(random), &due), nil
	})
	return uint64(due), err
}

// Receive hands in bytes that came from there. A datagram that is none of the group is noted, and one from port 0, or from an address
// that is not of IPv4, is left aside: neither is an error.
func (m *Member) Receive(from netip.AddrPort, data []byte) error {
	at, err := toC(from)
	if err != nil {
		return nil
	}
	var first *C.uint8_t
	if len(data) > 0 {
		first = (*C.uint8_t)(unsafe.Pointer(&data[0]))
	}
	return m.call(func(handle *C.struct_swim_member) (C.int, error) {
		return C.swim_receive(handle, at, first, C.size_t(len(data))), nil
	})
}

// ReceiveFailed notes that a receive failed.
func (m *Member) ReceiveFailed() error {
	return m.call(func(handle *C.struct_swim_member) (C.int, error) { return C.swim_receive_failed(handle), nil })
}

// SendFailed notes that so many datagrams were not sent.
func (m *Member) SendFailed(count uint32) error {
	return m.call(func(handle *C.struct_swim_member) (C.int, error) {
		return C.swim_send_failed(handle, C.uint32_t(count)), nil
	})
}

// Seeds are those whom the program knows of its group: Advance joins them, and those that the state file stored, from now on. The random
// bits draw others; the first call's count.
func (m *Member) Seeds(seeds []netip.AddrPort, random uint64) error {
	all := make([]C.struct_swim_endpoint, len(seeds)+1)
	for place, seed := range seeds {
		at, err := toC(seed)
		if err != nil {
			return err
		}
		all[place] = at
	}
	return m.call(func(handle *C.struct_swim_member) (C.int, error) {
		return C.swim_seeds(handle, &all[0], C.size_t(len(seeds)), C.uint64_t(random)), nil
	})
}

// Join asks a member of the group for all that it knows, once.
func (m *Member) Join(peer netip.AddrPort) error {
	at, err := toC(peer)
	if err != nil {
		return err
	}
	return m.call(func(handle *C.struct_swim_member) (C.int, error) { return C.swim_join(handle, at), nil })
}

// Leave tells the group that the member leaves. It takes part no more.
func (m *Member) Leave() error {
	return m.call(func(handle *C.struct_swim_member) (C.int, error) { return C.swim_leave(handle), nil })
}

// Next takes the next datagram that waits into the buffer, of which it gives the part that is filled, or ErrNothing.
func (m *Member) Next(buffer *[DatagramMax]byte) (to netip.AddrPort, data []byte, err error) {
	var at C.struct_swim_endpoint
	var length C.size_t
	first := (*C.uint8_t)(unsafe.Pointer(&buffer[0]))
	err = m.call(func(handle *C.struct_swim_member) (C.int, error) {
		return C.swim_next_datagram(handle, &at, first, DatagramMax, &length), nil
	})
	if err != nil {
		return to, nil, err
	}
	return fromC(at.address, at.port), buffer[:length], nil
}

// A Row is what is held of a member. Number is its incarnation.
type Row struct {
	Who    netip.AddrPort
	Kind   Kind
	Number uint64
}

// Members are all that are known, the own one among them, by address and port.
func (m *Member) Members() ([]Row, error) {
	var rows [C.SWIM_MEMBERS_MAX]C.struct_swim_row
	var count C.size_t
	err := m.call(func(handle *C.struct_swim_member) (C.int, error) {
		return C.swim_members(handle, &rows[0], C.SWIM_MEMBERS_MAX, &count), nil
	})
	if err != nil {
		return nil, err
	}
	all := make([]Row, 0, count)
	for _, row := range rows[:count] {
		all = append(all, rowOf(row))
	}
	return all, nil
}

// A Change is how what is held of a member changed: Was is nil where it had no row, and Now where it has none any more.
type Change struct {
	Now, Was *Row
}

func rowOf(row C.struct_swim_row) Row {
	return Row{fromC(row.address, row.port), Kind(row.kind), uint64(row.number)}
}

func rowIfAny(row C.struct_swim_row) *Row {
	if row.kind == 0 {
		return nil
	}
	found := rowOf(row)
	return &found
}

// NextChange is the next change of what is held of a member, or ErrNothing; after the opening all members are new.
func (m *Member) NextChange() (Change, error) {
	var now, was C.struct_swim_row
	err := m.call(func(handle *C.struct_swim_member) (C.int, error) { return C.swim_next_change(handle, &now, &was), nil })
	if err != nil {
		return Change{}, err
	}
	return Change{rowIfAny(now), rowIfAny(was)}, nil
}

// StoredPeers are whom an earlier life knew.
func (m *Member) StoredPeers() ([]netip.AddrPort, error) {
	var peers [C.SWIM_PEERS_MAX]C.struct_swim_endpoint
	var count C.size_t
	err := m.call(func(handle *C.struct_swim_member) (C.int, error) {
		return C.swim_stored_peers(handle, &peers[0], &count), nil
	})
	if err != nil {
		return nil, err
	}
	all := make([]netip.AddrPort, 0, count)
	for _, peer := range peers[:count] {
		all = append(all, fromC(peer.address, peer.port))
	}
	return all, nil
}

// A Status is what a status page shows. Number is the own incarnation, and First the one with which this life began.
type Status struct {
	Phase                     Phase
	Number, First             uint64
	Alive, Suspect, Confirmed uint64
}

// Status is what a status page shows.
func (m *Member) Status() (Status, error) {
	var found C.struct_swim_status
	err := m.call(func(handle *C.struct_swim_member) (C.int, error) { return C.swim_get_status(handle, &found), nil })
	return Status{
		Phase: Phase(found.phase), Number: uint64(found.number), First: uint64(found.first),
		Alive: uint64(found.alive), Suspect: uint64(found.suspect), Confirmed: uint64(found.confirmed),
	}, err
}

// Notes are what the last event took note of.
func (m *Member) Notes() ([]Note, error) {
	var notes [C.SWIM_NOTES_MAX]C.uint8_t
	var count C.size_t
	err := m.call(func(handle *C.struct_swim_member) (C.int, error) { return C.swim_notes(handle, &notes[0], &count), nil })
	all := make([]Note, 0, count)
	for _, note := range notes[:count] {
		all = append(all, Note(note))
	}
	return all, err
}

// KeepPeers saves whom the member knows.
func (m *Member) KeepPeers() error {
	return m.call(func(handle *C.struct_swim_member) (C.int, error) {
		code, errno := C.swim_keep_peers(handle)
		return code, errno
	})
}
