// Has a goroutine for each kind of wait. The comment before its function says what is right of it: 'unknown', 'runs',
// 'idle', which is left out, or 'any', which nobody can unblock; and the call that it waits in.
package main

import (
	"bufio"
	"context"
	"fmt"
	"net"
	"net/http"
	_ "net/http/pprof"
	"os"
	"os/exec"
	"os/signal"
	"runtime"
	"sync"
	"time"
)

var (
	never   = make(chan int)
	lock    sync.Mutex
	written sync.RWMutex
	read    sync.RWMutex
	once    sync.Once
	door, _ = net.Listen("tcp", "127.0.0.1:0")
	kept    net.Conn
)

// unknown: chan receive
func receive() { <-never }

// unknown: chan send
func send() { make(chan int) <- 1 }

// unknown: chan receive
func receiveOfAnyKind() { generic(make(chan string)) }

func generic[T any](from chan T) { <-from }

// unknown: select
func selectOfTwo() {
	select {
	case <-never:
	case make(chan int) <- 1:
	}
}

// unknown: select
func selectWithLimit() {
	select {
	case <-never:
	case <-time.After(time.Hour):
	}
}

// unknown: chan receive
func tick() {
	for range time.Tick(time.Hour) {
		fmt.Println("tick")
	}
}

// any: chan receive
func receiveNil() {
	var none chan int
	<-none
}

// any: chan send
func sendNil() {
	var none chan int
	none <- 1
}

// any: select
func selectNone() { select {} }

// unknown: chan receive
func receiveWithLock() {
	lock.Lock()
	<-never
}

// unknown: Lock
func lockMutex() { lock.Lock() }

// unknown: chan receive
func receiveWhileWritten() {
	written.Lock()
	<-never
}

// unknown: RLock
func readWritten() { written.RLock() }

// unknown: chan receive
func receiveWhileRead() {
	read.RLock()
	<-never
}

// unknown: Lock
func writeRead() { read.Lock() }

// unknown: Wait
func waitGroup() {
	var group sync.WaitGroup
	group.Add(1)
	group.Wait()
}

// unknown: Wait
func condition() {
	var mutex sync.Mutex
	mutex.Lock()
	sync.NewCond(&mutex).Wait()
}

// unknown: chan receive
func receiveOnce() { once.Do(func() { <-never }) }

// unknown: Do
func onceAgain() { once.Do(func() {}) }

// unknown: Read
func readSocket() {
	connection, _ := net.Dial("tcp", door.Addr().String())
	connection.Read(make([]byte, 1))
}

// unknown: Read
func readPipe() {
	from, _, _ := os.Pipe()
	from.Read(make([]byte, 1))
}

// unknown: ReadString
func readInput() { bufio.NewReader(os.Stdin).ReadString('\n') }

// unknown: Run
func runCommand() { exec.Command("sleep", "60").Run() }

// unknown: Get
func get() { http.Get("http://" + door.Addr().String()) }

// unknown: chan receive
func receiveOnThread() {
	runtime.LockOSThread()
	<-never
}

// unknown: chan receive
func receiveDone() {
	deadline, cancel := context.WithTimeout(context.Background(), time.Hour)
	defer cancel()
	<-deadline.Done()
}

// unknown: chan receive
func receiveSignal() {
	signals := make(chan os.Signal, 1)
	signal.Notify(signals, os.Interrupt)
	<-signals
}

// runs: timed sleep
func sleep() { time.Sleep(time.Hour) }

// runs: -
func compute() {
	for number := 1; number != 0; number += 2 {
	}
}

// idle: Accept
func accept() {
	kept, _ = door.Accept()
	for {
		door.Accept()
	}
}

// idle: ListenAndServe
func serve() { http.ListenAndServe(os.Args[1], nil) }

func main() {
	waits := []func(){
		receive, send, receiveOfAnyKind, selectOfTwo, selectWithLimit, tick, receiveNil, sendNil, selectNone,
		receiveWithLock, lockMutex, receiveWhileWritten, readWritten, receiveWhileRead, writeRead, waitGroup, condition,
		receiveOnce, onceAgain, accept, readSocket, readPipe, readInput, runCommand, get, receiveOnThread, receiveDone,
		receiveSignal, sleep, compute, serve,
	}
	for _, wait := range waits {
		go wait()
		time.Sleep(20 * time.Millisecond)
	}
	fmt.Println("ready")
	<-never
}
