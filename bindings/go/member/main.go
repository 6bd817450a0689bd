// A member in Go: `member STATE-FILE GROUP PORT PEER-PORT SECONDS`, on loopback alone, as member.c: also in that only a trial may make a
// state file where there is none.
package main

import (
	"context"
	"errors"
	"fmt"
	"math/rand"
	"net"
	"net/netip"
	"os"
	"strconv"
	"time"

	"example.com/rollerblack/swim"
)

func must(err error) {
	if err != nil {
		fmt.Fprintln(os.Stderr, err)
		os.Exit(1)
	}
}

func number(text string) uint64 {
	number, err := strconv.ParseUint(text, 10, 64)
	must(err)
	return number
}

func loopback(port uint64) netip.AddrPort {
	return netip.AddrPortFrom(netip.AddrFrom4([4]byte{127, 0, 0, 1}), uint16(port))
}

func main() {
	if len(os.Args) != 6 {
		fmt.Fprintln(os.Stderr, "member STATE-FILE GROUP PORT PEER-PORT SECONDS")
		os.Exit(2)
	}
	rand.Seed(time.Now().UnixNano())
	path, me := os.Args[1], loopback(number(os.Args[3]))
	settings := swim.Usual(number(os.Args[2]), me)
	if _, err := os.Stat(path); errors.Is(err, os.ErrNotExist) {
		must(swim.Make(path, settings))
	}
	udp, err := net.ListenUDP("udp4", net.UDPAddrFromAddrPort(me))
	must(err)
	member, err := swim.Open(path, settings)
	must(err)
	var seeds []netip.AddrPort
	if peer := number(os.Args[4]); peer != 0 {
		seeds = append(seeds, loopback(peer))
	}
	must(member.Seeds(seeds, rand.Uint64()))
	ctx, cancel := context.WithTimeout(context.Background(), time.Duration(number(os.Args[5]))*time.Second)
	defer cancel()
	must(member.Run(ctx, udp))
	rows, err := member.Members()
	must(err)
	for _, row := range rows {
		fmt.Println(row.Kind, row.Who, row.Number)
	}
	must(member.Leave()) // it ends for good
	must(member.SendAll(udp))
	must(member.Close())
	must(udp.Close())
}
