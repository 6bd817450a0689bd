package swim_test

import (
	"context"
	"errors"
	"fmt"
	"io/fs"
	"net"
	"net/netip"
	"os"
	"path/filepath"
	"sync"
	"syscall"
	"testing"
	"time"

	"example.com/rollerblack/swim"
)

var (
	me   = netip.MustParseAddrPort("127.0.0.1:7000")
	peer = netip.MustParseAddrPort("127.0.0.1:7001")
)

func open(t *testing.T) *swim.Member {
	t.Helper()
	member, err := swim.OpenMemory(swim.Usual(7, me))
	if err != nil {
		t.Fatal(err)
	}
	return member
}

func want(t *testing.T, err, expected error) {
	t.Helper()
	if !errors.Is(err, expected) {
		t.Errorf("%v in place of %v", err, expected)
	}
}

func TestErrorsTellTheirErrno(t *testing.T) {
	path, settings := filepath.Join(t.TempDir(), "member.state"), swim.Usual(7, me)
	_, err := swim.Open(path, settings)
	want(t, err, swim.ErrFile)
	want(t, err, fs.ErrNotExist)
	want(t, swim.Make(path, settings), nil)
	want(t, swim.Make(path, settings), fs.ErrExist)
	member, err := swim.Open(path, settings)
	want(t, err, nil)
	_, err = swim.Open(path, settings)
	want(t, err, swim.ErrLocked)
	want(t, member.Close(), nil)
	want(t, member.Close(), swim.ErrClosed)
	want(t, member.Tick(1), swim.ErrClosed)
}

func TestAFileThatIsOpenTakesAMember(t *testing.T) {
	path, settings := filepath.Join(t.TempDir(), "member.state"), swim.Usual(7, me)
	file, err := os.OpenFile(path, os.O_RDWR|os.O_CREATE|os.O_EXCL, 0o600)
	want(t, err, nil)
	want(t, swim.MakeFile(file, settings), nil)
	member, err := swim.OpenFile(file, settings)
	want(t, err, nil)
	want(t, file.Close(), nil)
	want(t, member.Tick(1), nil)
	want(t, member.Close(), nil)
	_, err = swim.OpenFile(file, settings)
	want(t, err, syscall.EBADF)
	added, err := os.OpenFile(path, os.O_RDWR|os.O_APPEND, 0)
	want(t, err, nil)
	defer added.Close()
	_, err = swim.OpenFile(added, settings)
	want(t, err, swim.ErrBadDescriptor)
}

func TestNoAddressPanics(t *testing.T) {
	member := open(t)
	defer member.Close()
	for _, from := range []netip.AddrPort{{}, netip.MustParseAddrPort("[::1]:7001"), netip.MustParseAddrPort("127.0.0.1:0")} {
		want(t, member.Receive(from, []byte("x")), nil)
		want(t, member.Join(from), swim.ErrNoEndpoint)
	}
	for _, at := range []string{"0.0.0.0:7000", "255.255.255.255:7000", "224.0.0.1:7000"} {
		_, err := swim.OpenMemory(swim.Usual(7, netip.MustParseAddrPort(at)))
		want(t, err, swim.ErrBadAddress)
	}
	_, err := swim.OpenMemory(swim.Usual(7, netip.MustParseAddrPort("[::1]:7000")))
	want(t, err, swim.ErrNoEndpoint)
}

func TestGoroutinesWaitForOneAnother(t *testing.T) {
	member := open(t)
	defer member.Close()
	var all sync.WaitGroup
	for i := 0; i < 4; i++ {
		all.Add(1)
		go func() {
			defer all.Done()
			for j := 0; j < 200; j++ {
				if err := member.Receive(peer, []byte("x")); err != nil {
					t.Error(err)
				}
			}
		}()
	}
	all.Wait()
	notes, err := member.Notes()
	if err != nil || len(notes) != 1 || notes[0] != swim.NoteBadDatagram || notes[0].String() != "BadDatagram" {
		t.Error(notes, err)
	}
}

func TestLateTicksAreSkipped(t *testing.T) {
	member := open(t)
	defer member.Close()
	for _, at := range []struct{ now, next uint64 }{{5000, 5100}, {5050, 5100}, {5100, 5200}, {60000, 60100}} {
		if next, err := member.Advance(at.now, 1); err != nil || next != at.next {
			t.Error(at, next, err)
		}
	}
	lan, err := swim.OpenMemory(swim.Lan(7, me))
	want(t, err, nil)
	defer lan.Close()
	for _, at := range []struct{ now, next uint64 }{{5000, 5050}, {5025, 5050}, {5050, 5100}, {60000, 60050}} {
		if next, err := lan.Advance(at.now, 1); err != nil || next != at.next {
			t.Error(at, next, err)
		}
	}
}

func TestSettingsAreJudgedBeforeTheFile(t *testing.T) {
	path := filepath.Join(t.TempDir(), "none", "member.state")
	settings := swim.Usual(7, netip.MustParseAddrPort("0.0.0.0:7000"))
	want(t, swim.Make(path, settings), swim.ErrBadAddress)
	_, err := swim.Open(path, settings)
	want(t, err, swim.ErrBadAddress)
}

// running is a member on a socket of its own, and what ends it and gives what its Run gave.
func running(t *testing.T, seeds ...netip.AddrPort) (*swim.Member, *net.UDPConn, netip.AddrPort, func() error) {
	t.Helper()
	udp, err := net.ListenUDP("udp4", net.UDPAddrFromAddrPort(netip.MustParseAddrPort("127.0.0.1:0")))
	if err != nil {
		t.Fatal(err)
	}
	at := udp.LocalAddr().(*net.UDPAddr).AddrPort()
	member, err := swim.OpenMemory(swim.Lan(7, at))
	if err != nil {
		t.Fatal(err)
	}
	want(t, member.Seeds(seeds, 1), nil)
	ctx, cancel := context.WithCancel(context.Background())
	gave := make(chan error)
	go func() { gave <- member.Run(ctx, udp) }()
	return member, udp, at, func() error { cancel(); return <-gave }
}

// until waits until a status of a member is so.
func until(t *testing.T, member *swim.Member, about string, is func(swim.Status) bool) {
	t.Helper()
	for end := time.Now().Add(30 * time.Second); time.Now().Before(end); time.Sleep(20 * time.Millisecond) {
		if status, err := member.Status(); err == nil && is(status) {
			return
		}
	}
	t.Error("not within 30 s: " + about)
}

func TestRunEndsWithItsContextAndLeavesOnlyIfTold(t *testing.T) {
	first, one, at, stopFirst := running(t)
	second, other, _, stopSecond := running(t, at)
	for _, member := range []*swim.Member{first, second} {
		until(t, member, "they meet", func(status swim.Status) bool { return status.Alive == 1 })
	}
	began := time.Now()
	want(t, stopSecond(), nil)
	if took := time.Since(began); took > time.Second {
		t.Error("it ended after", took)
	}
	status, err := second.Status()
	if err != nil || status.Phase != swim.Running {
		t.Error(status, err)
	}
	want(t, second.Leave(), nil)
	want(t, second.SendAll(other), nil)
	until(t, first, "the first is told", func(status swim.Status) bool { return status.Confirmed == 1 })
	want(t, one.Close(), nil)
	want(t, stopFirst(), net.ErrClosed)
	want(t, other.Close(), nil)
	want(t, first.Close(), nil)
	want(t, second.Close(), nil)
}

func TestSeedsAreAskedAgainByTheClock(t *testing.T) {
	member := open(t)
	defer member.Close()
	want(t, member.Seeds([]netip.AddrPort{peer}, 1), nil)
	var buffer [swim.DatagramMax]byte
	for _, at := range []struct {
		now   uint64
		asked bool
	}{{1000, true}, {1050, false}, {1100, true}, {1200, false}, {1300, true}} {
		_, err := member.Advance(at.now, 1)
		want(t, err, nil)
		to, _, err := member.Next(&buffer)
		if at.asked != (err == nil && to == peer) {
			t.Error(at, to, err)
		}
	}
	many := make([]netip.AddrPort, swim.SeedsMax+1)
	for place := range many {
		many[place] = peer
	}
	want(t, member.Seeds(many, 1), swim.ErrTooMany)
}

func TestChangesAreToldOnce(t *testing.T) {
	member := open(t)
	defer member.Close()
	change, err := member.NextChange()
	if err != nil || change.Was != nil || *change.Now != (swim.Row{Who: me, Kind: swim.Alive, Number: 1}) {
		t.Error(change, err)
	}
	_, err = member.NextChange()
	want(t, err, swim.ErrNothing)
}

func TestStatusIsOfTypes(t *testing.T) {
	member := open(t)
	defer member.Close()
	want(t, member.Leave(), nil)
	status, err := member.Status()
	if err != nil || status != (swim.Status{Phase: swim.Left, Number: 1, First: 1}) {
		t.Error(status, err)
	}
}

func Example() {
	member, err := swim.OpenMemory(swim.Usual(7, me))
	if err != nil {
		panic(err)
	}
	defer member.Close()
	if err := member.Join(peer); err != nil {
		panic(err)
	}
	var buffer [swim.DatagramMax]byte
	for {
		to, data, err := member.Next(&buffer)
		if errors.Is(err, swim.ErrNothing) {
			break
		}
		fmt.Println(to, len(data)) // send them there
	}
	rows, _ := member.Members()
	fmt.Println(rows[0].Kind, rows[0].Who, rows[0].Number)
	// Output:
	// 127.0.0.1:7001 48
	// alive 127.0.0.1:7000 1
}
