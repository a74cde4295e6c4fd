// The shop of tools/examples/postgres in Go, with a session of lib/pq for each goroutine.
// usage: go_clients stuck|slow HOST:PORT-OF-PPROF
package main

import (
	"database/sql"
	"net/http"
	_ "net/http/pprof"
	"os"
	"sync"
	"time"

	_ "github.com/lib/pq"
)

var cart sync.Mutex

func open(name string) *sql.Tx {
	database, err := sql.Open("postgres", "sslmode=disable application_name="+name)
	if err != nil {
		panic(err)
	}
	transaction, err := database.Begin()
	if err != nil {
		panic(err)
	}
	return transaction
}

func run(transaction *sql.Tx, statement string) {
	if _, err := transaction.Exec(statement); err != nil {
		panic(err)
	}
}

func sell(begun *sync.WaitGroup, done chan<- bool) {
	transaction := open("clerk")
	run(transaction, "update stock set number = number - 1 where article = 4711")
	begun.Done()
	begun.Wait()
	if os.Args[1] == "slow" {
		run(transaction, "select pg_sleep(900)")
	}
	cart.Lock()
	transaction.Commit()
	cart.Unlock()
	done <- true
}

func pack(begun *sync.WaitGroup, done chan<- bool) {
	transaction := open("packer")
	cart.Lock()
	begun.Done()
	begun.Wait()
	run(transaction, "update stock set number = number + 1 where article = 4711")
	transaction.Commit()
	cart.Unlock()
	done <- true
}

func beat() {
	for {
		time.Sleep(500 * time.Millisecond)
	}
}

func main() {
	go http.ListenAndServe(os.Args[2], nil)
	go beat()
	begun, done := &sync.WaitGroup{}, make(chan bool)
	begun.Add(2)
	go sell(begun, done)
	go pack(begun, done)
	<-done
	<-done
}
