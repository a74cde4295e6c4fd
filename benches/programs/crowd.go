// A ledger, at whose mutex NUMBER goroutines wait. Its holder sleeps, or has to lock what another one has who wants the
// ledger. Usage: crowd stuck|slow NUMBER HOST:PORT
package main

import (
	"net"
	"net/http"
	_ "net/http/pprof"
	"os"
	"strconv"
	"sync"
	"time"
)

var (
	ledger, audit sync.Mutex
	both, done    sync.WaitGroup
	stuck         = os.Args[1] == "stuck"
)

func post() {
	defer done.Done()
	ledger.Lock()
	ledger.Unlock()
}

// take holds one of both while it wants the other, or sleeps.
func take(own, other *sync.Mutex) {
	own.Lock()
	both.Done()
	both.Wait()
	if stuck {
		other.Lock()
	} else if own == &ledger {
		time.Sleep(time.Hour)
	}
	own.Unlock()
}

func main() {
	number, err := strconv.Atoi(os.Args[2])
	if err != nil {
		panic(err)
	}
	both.Add(2)
	go take(&ledger, &audit)
	go take(&audit, &ledger)
	both.Wait()
	done.Add(number)
	for left := number; left > 0; left-- {
		go post()
	}
	listener, err := net.Listen("tcp", os.Args[3])
	if err != nil {
		panic(err)
	}
	go http.Serve(listener, nil)
	done.Wait()
}
