package swim

import (
	"context"
	"crypto/rand"
	"encoding/binary"
	"errors"
	"net"
	"net/netip"
	"os"
	"time"
)

// late is how long a tick may be late for what waits at the socket: it is read first, but not for ever.
const late = 100 * time.Millisecond

// begun is where the clock of Run begins. It is one for all, so that a second Run goes on by the clock of the first.
var begun = time.Now()

func randomWord() (uint64, error) {
	var word uint64
	err := binary.Read(rand.Reader, binary.LittleEndian, &word)
	return word, err
}

// SendAll sends all that waits, and notes how many datagrams the system refused.
func (m *Member) SendAll(conn net.PacketConn) error {
	var buffer [DatagramMax]byte
	lost := uint32(0)
	for {
		to, data, err := m.Next(&buffer)
		if errors.Is(err, ErrNothing) {
			break
		}
		if err != nil {
			return err
		}
		if _, err := conn.WriteTo(data, net.UDPAddrFromAddrPort(to)); err != nil {
			lost++
		}
	}
	if lost > 0 {
		return m.SendFailed(lost)
	}
	return nil
}

// Run is a whole member over a socket that is bound to its address, until the context ends: it hands in what comes, ticks by the clock, and
// sends what waits. Seeds has to be called before. Other goroutines may call the member meanwhile, for example for its changes, but make
// no events: what these make wait is sent here.
//
// When the context ends whom the member knows is saved, and Run gives nil. It does not leave, since most programs end to be started again;
// one that ends for good calls Leave and then SendAll. The socket stays open, and has no deadline then. An error is that of a call of the
// member which did nothing, or net.ErrClosed.
func (m *Member) Run(ctx context.Context, conn net.PacketConn) error {
	over, ended := make(chan struct{}), make(chan struct{})
	go func() {
		defer close(ended)
		select {
		case <-ctx.Done():
			conn.SetReadDeadline(begun) // a read that waits ends
		case <-over:
		}
	}()
	err := m.run(ctx, conn)
	close(over)
	<-ended
	conn.SetReadDeadline(time.Time{})
	if err != nil {
		return err
	}
	return m.KeepPeers()
}

func (m *Member) run(ctx context.Context, conn net.PacketConn) error {
	for ctx.Err() == nil {
		random, err := randomWord()
		if err != nil {
			return err
		}
		next, err := m.Advance(uint64(time.Since(begun).Milliseconds()), random)
		if err != nil {
			return err
		}
		if err := m.SendAll(conn); err != nil {
			return err
		}
		if err := m.receiveUntil(ctx, conn, begun.Add(time.Duration(next)*time.Millisecond)); err != nil {
			return err
		}
	}
	return nil
}

// receiveUntil hands in what waits at the socket, and what comes until then, or until the context ends.
func (m *Member) receiveUntil(ctx context.Context, conn net.PacketConn, until time.Time) error {
	var data [DatagramMax + 1]byte
	for {
		deadline := until
		if soon := time.Now().Add(time.Millisecond); deadline.Before(soon) {
			deadline = soon // with a deadline that is over, nothing that waits would be read
		}
		conn.SetReadDeadline(deadline)
		if ctx.Err() != nil {
			return nil
		}
		length, from, err := conn.ReadFrom(data[:])
		switch {
		case errors.Is(err, os.ErrDeadlineExceeded):
			return nil
		case errors.Is(err, net.ErrClosed):
			return err
		case err != nil:
			err = m.ReceiveFailed()
			time.Sleep(time.Millisecond) // so that a socket that fails again and again leaves the processor to others
		default:
			err = m.Receive(addrPort(from), data[:length])
		}
		if err == nil {
			err = m.SendAll(conn)
		}
		if err != nil {
			return err
		}
		if time.Now().After(until.Add(late)) {
			return nil
		}
	}
}

// addrPort is an address of a socket as netip has it, or none, which Receive leaves aside.
func addrPort(from net.Addr) netip.AddrPort {
	if udp, is := from.(*net.UDPAddr); is {
		return udp.AddrPort()
	}
	at, _ := netip.ParseAddrPort(from.String())
	return at
}
