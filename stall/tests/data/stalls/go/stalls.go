// Stalls and their healthy twins, each by a word; the states beside this were recorded from it with Go 1.19, by pprof
// ("goroutine?debug=2") or by SIGQUIT.
package main

import (
	"bufio"
	"fmt"
	"net"
	"os"
	"os/signal"
	"runtime"
	"runtime/pprof"
	"sync"
	"sync/atomic"
	"syscall"
	"time"
)

var one, two int32

func first() {
	for atomic.LoadInt32(&two) == 0 {
		time.Sleep(50 * time.Millisecond)
	}
	atomic.StoreInt32(&one, 1)
}

func second() {
	for atomic.LoadInt32(&one) == 0 {
		time.Sleep(50 * time.Millisecond)
	}
	atomic.StoreInt32(&two, 1)
}

func take(mine, other int32) {
	for {
		for atomic.LoadInt32(&one) != mine {
			time.Sleep(50 * time.Millisecond)
		}
		atomic.StoreInt32(&one, other)
	}
}

func ping() { take(0, 1) }

func pong() { take(1, 0) }

func produce(c chan int) { c <- 1 }

func consume(c, d chan int) {
	<-d
	<-c
}

func pass(in, out chan int) {
	for it := range in {
		out <- it
	}
}

// talk answers each line of a connection.
func talk(c net.Conn) {
	for lines := bufio.NewScanner(c); lines.Scan(); {
		fmt.Fprintln(c, "again")
	}
}

func wait(c chan int) { <-c }

// fetch gives what it finds, or ends without a word.
func fetch(c chan int, finds bool) {
	if finds {
		time.Sleep(time.Hour)
		c <- 1
	}
}

func count(mu *sync.Mutex, c chan int) {
	mu.Lock()
	defer mu.Unlock()
	c <- 1
}

func look(mu *sync.Mutex, c chan int) {
	mu.Lock()
	defer mu.Unlock()
	<-c
}

func work(mu *sync.Mutex, done *sync.WaitGroup) {
	defer done.Done()
	mu.Lock()
	mu.Unlock()
}

// handle answers a request by two workers of its own.
func handle(mu *sync.Mutex) {
	var done sync.WaitGroup
	done.Add(2)
	go work(mu, &done)
	go work(mu, &done)
	done.Wait()
}

func keep(mu *sync.Mutex) {
	mu.Lock()
	handle(mu)
}

// scan works with one of the slots.
func scan(slots chan int, work func()) {
	slots <- 1
	work()
	<-slots
}

func descend(depth int) {
	if depth == 0 {
		time.Sleep(time.Hour)
		return
	}
	descend(depth - 1)
}

func queue(slots, c chan int) {
	slots <- 1
	c <- 1
}

// spin waits for its flag, and lets others go first.
func spin(mine, other *int32) {
	for {
		for atomic.LoadInt32(mine) == 0 {
			runtime.Gosched()
		}
		atomic.StoreInt32(mine, 0)
		atomic.StoreInt32(other, 1)
	}
}

func left() { spin(&one, &two) }

func right() { spin(&two, &one) }

// dispatch starts couriers, one after the other, each for a parcel.
func dispatch(parcels, receipts chan int, rest []time.Duration) {
	for _, it := range rest {
		go courier(parcels, receipts)
		time.Sleep(it)
	}
}

func courier(parcels, receipts chan int) {
	parcels <- 1
	receipts <- 1
}

// collect wants three parcels before it gives a receipt.
func collect(parcels, receipts chan int) {
	for i := 0; i < 3; i++ {
		<-parcels
	}
	<-receipts
}

// guest waits to be called, and then tells that it has come.
func guest(called *sync.Cond, come chan int) {
	called.L.Lock()
	called.Wait()
	called.L.Unlock()
	come <- 1
}

func host(come chan int) { <-come }

func guard(mu sync.Locker) {
	mu.Lock()
	time.Sleep(time.Hour)
	mu.Unlock()
}

func get(mu *sync.RWMutex) {
	mu.RLock()
	mu.RUnlock()
}

// sum reads, and within that reads again.
func sum(mu *sync.RWMutex, begin time.Duration) {
	mu.RLock()
	time.Sleep(begin)
	get(mu)
	mu.RUnlock()
}

func set(mu *sync.RWMutex) {
	mu.Lock()
	mu.Unlock()
}

// serve ends like a service.
func serve() {
	go guard(&sync.Mutex{})
	select {}
}

// answer waits for two workers of its own. One that is told to close waits for all of them before it closes.
func answer(c chan int, task func()) {
	var done sync.WaitGroup
	done.Add(2)
	for i := 0; i < 2; i++ {
		go perform(task, &done)
	}
	done.Wait()
	close(c)
}

func perform(task func(), done *sync.WaitGroup) {
	defer done.Done()
	task()
}

// grow starts one more worker.
func grow(jobs chan int) { go toil(jobs) }

// toil hands on to another worker what it has begun.
func toil(jobs chan int) {
	for it := range jobs {
		jobs <- it
	}
}

// listen has a request for each connection.
func listen(door net.Listener, notices chan int) {
	for {
		door.Accept()
		bring(func() { notices <- 1 })
	}
}

// bring hands a notice over by a goroutine of its own.
func bring(give func()) { go hand(give) }

func hand(give func()) { give() }

func main() {
	c, d := make(chan int), make(chan int)
	var mu, other sync.Mutex
	show := make(chan os.Signal, 1)
	signal.Notify(show, syscall.SIGUSR1)
	go func() {
		for range show {
			pprof.Lookup("goroutine").WriteTo(os.Stdout, 2)
		}
	}()
	switch os.Args[1] {
	case "sleeps":
		go first()
		go second()
	case "turns":
		go ping()
		go pong()
	case "late":
		go consume(c, d)
		go func() { time.Sleep(time.Millisecond); produce(c) }()
		go func() { time.Sleep(time.Hour); produce(d) }()
	case "never":
		go consume(c, d)
		go func() { time.Sleep(time.Millisecond); produce(c) }()
		go func() { time.Sleep(time.Millisecond); produce(c) }()
	case "pass", "pass-alive":
		go pass(c, d)
		go pass(d, c)
		if os.Args[1] == "pass-alive" {
			c <- 1
		}
	case "talk":
		door, _ := net.Listen("tcp", "127.0.0.1:0")
		go func() {
			it, _ := net.Dial("tcp", door.Addr().String())
			fmt.Fprintln(it, "begin")
			talk(it)
		}()
		it, _ := door.Accept()
		go talk(it)
	case "main":
		go wait(c)
	case "fetch", "fetch-alive":
		go wait(c)
		go fetch(c, os.Args[1] == "fetch-alive")
	case "locks":
		go count(&mu, c)
		time.Sleep(100 * time.Millisecond)
		go look(&mu, c)
	case "locks-alive":
		go count(&mu, c)
		time.Sleep(100 * time.Millisecond)
		go look(&mu, c)
		go func() { time.Sleep(time.Hour); <-c }()
	case "slots":
		slots := make(chan int, 2)
		go scan(slots, func() { <-c })
		go scan(slots, func() { descend(120) })
		time.Sleep(100 * time.Millisecond)
		go queue(slots, c)
	case "serve":
		serve()
	case "spin", "spin-alive":
		if os.Args[1] == "spin-alive" {
			one = 1
		}
		go left()
		go right()
	case "couriers", "couriers-alive":
		go collect(c, d)
		rest := []time.Duration{time.Millisecond, time.Millisecond}
		if os.Args[1] == "couriers-alive" {
			rest = []time.Duration{time.Millisecond, time.Hour, 0}
		}
		go dispatch(c, d, rest)
	case "guest", "guest-alive":
		called := sync.NewCond(&mu)
		go guest(called, c)
		go host(c)
		if os.Args[1] == "guest-alive" {
			time.Sleep(100 * time.Millisecond)
			go guard(&mu)
			time.Sleep(100 * time.Millisecond)
			called.Signal()
		}
	case "readers", "readers-alive":
		var cache sync.RWMutex
		go guard(cache.RLocker())
		begin := 200 * time.Millisecond
		if os.Args[1] == "readers-alive" {
			begin = time.Hour
		}
		go sum(&cache, begin)
		time.Sleep(100 * time.Millisecond)
		go set(&cache)
		if os.Args[1] == "readers-alive" {
			time.Sleep(100 * time.Millisecond)
			go get(&cache)
		}
	case "answers":
		go answer(c, func() { wait(c) })
		go answer(d, func() { time.Sleep(time.Hour) })
	case "grow", "grow-alive":
		grow(c)
		grow(c)
		if os.Args[1] == "grow-alive" {
			go func() {
				for range time.Tick(time.Hour) {
					grow(c)
				}
			}()
		}
		c <- 1
		c <- 1
	case "notice", "notice-alive":
		go consume(d, c)
		bring(func() { d <- 1; c <- 1 })
		if os.Args[1] == "notice-alive" {
			door, _ := net.Listen("tcp", "127.0.0.1:0")
			go listen(door, c)
		}
	case "requests":
		go keep(&mu)
		other.Lock()
		go handle(&other)
		time.Sleep(time.Hour)
		other.Unlock()
	}
	select {}
}
