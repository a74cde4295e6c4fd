package main

// Payments are approved by a webhook of the bank. The hook writes the ledger under its mutex and hands the approval on.
import (
	"fmt"
	"net"
	"net/http"
	"os"
	"sync"
	"time"
)

var (
	ledger  sync.Mutex
	written = make(chan string)
	ok      = map[string]chan bool{"1": make(chan bool), "2": make(chan bool)}
)

func hook(w http.ResponseWriter, req *http.Request) {
	id := req.FormValue("id")
	if id == "1" || os.Args[1] == "stuck" {
		ledger.Lock()
		defer ledger.Unlock()
	}
	ok[id] <- true
}

func book() {
	ledger.Lock()
	written <- "booked" // the printer takes it
	ledger.Unlock()
}

func pay(id string) {
	<-ok[id]
	fmt.Println(time.Now().Format("15:04:05"), "paid", id)
	if id == "1" || os.Args[1] == "stuck" {
		<-written
	}
}

func main() {
	fmt.Println(time.Now().Format("15:04:05"), "begins")
	l, err := net.Listen("tcp", "127.0.0.1:"+os.Args[2])
	if err != nil {
		panic(err)
	}
	go book()
	go pay("1")
	time.Sleep(200 * time.Millisecond)
	go pay("2")
	http.HandleFunc("/hook", hook)
	http.Serve(l, nil)
}
