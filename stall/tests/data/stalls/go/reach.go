// Stalls and their healthy twins, of which the memory says who can reach what they wait at.
//
// GO111MODULE=off go build -trimpath reach.go && GOTRACEBACK=all ./reach CASE 2> text & take-go --kill PID
package main

import (
	"log"
	"os"
	"os/signal"
	"sync"
	"sync/atomic"
	"syscall"
	"time"
)

type ledger struct {
	mu       [2]sync.Mutex
	balances [2]int
	moves    int64
}

func (l *ledger) move(from, to int) {
	l.mu[from].Lock()
	defer l.mu[from].Unlock()
	time.Sleep(100 * time.Millisecond)
	l.mu[to].Lock()
	defer l.mu[to].Unlock()
	l.balances[from]--
	l.balances[to]++
	atomic.AddInt64(&l.moves, 1)
}

// It reaches the locks, and unlocks none.
func (l *ledger) report() {
	for {
		time.Sleep(time.Minute)
		log.Println(atomic.LoadInt64(&l.moves))
	}
}

// It holds both locks while it sleeps.
func (l *ledger) close() {
	l.mu[0].Lock()
	l.mu[1].Lock()
	time.Sleep(time.Hour)
	l.mu[1].Unlock()
	l.mu[0].Unlock()
}

type crawler struct {
	slots chan struct{}
	pages int64
}

// It keeps its slot while those wait for one that it waits for.
func (c *crawler) visit(depth int) {
	c.slots <- struct{}{}
	defer func() { <-c.slots }()
	atomic.AddInt64(&c.pages, 1)
	if depth == 0 {
		return
	}
	var links sync.WaitGroup
	links.Add(1)
	go func() {
		defer links.Done()
		c.visit(depth - 1)
	}()
	links.Wait()
}

// It receives ticks alone.
func (c *crawler) count() {
	for range time.Tick(time.Hour) {
		log.Println(atomic.LoadInt64(&c.pages))
	}
}

// It frees a slot now and then.
func (c *crawler) spare() {
	for range time.Tick(time.Hour) {
		<-c.slots
	}
}

type relay struct {
	jobs    chan int
	results chan int
}

// It takes no other job until its result is taken.
func (r *relay) work() {
	for job := range r.jobs {
		r.results <- job
	}
}

func (r *relay) send() {
	for job := 0; job < 10; job++ {
		r.jobs <- job
	}
	for job := 0; job < 10; job++ {
		<-r.results
	}
}

func transfers(isHeld bool) {
	l := &ledger{}
	if isHeld {
		go l.close()
	} else {
		go l.report()
	}
	time.Sleep(10 * time.Millisecond)
	go l.move(0, 1)
	l.move(1, 0)
}

func crawls(isSpared bool) {
	c := &crawler{slots: make(chan struct{}, 2)}
	if isSpared {
		go c.spare()
	} else {
		go c.count()
	}
	c.visit(3)
}

func relays(isTimed bool) {
	r := &relay{make(chan int), make(chan int)}
	if isTimed {
		time.AfterFunc(time.Hour, func() { log.Println(<-r.results) })
	}
	go r.work()
	go r.work()
	go beat()
	r.send()
}

// The program waits for its end, and would close the channels then. With another signal it would take a result.
func serves(isAsked bool) {
	r := &relay{make(chan int), make(chan int)}
	go r.work()
	go r.work()
	go r.send()
	go beat()
	if isAsked {
		asked := make(chan os.Signal, 1)
		signal.Notify(asked, syscall.SIGHUP)
		go func() {
			for range asked {
				log.Println(<-r.results)
			}
		}()
	}
	stop := make(chan os.Signal, 1)
	signal.Notify(stop, os.Interrupt, syscall.SIGTERM)
	<-stop
	close(r.jobs)
}

func beat() {
	for {
		time.Sleep(time.Minute)
		log.Println("alive")
	}
}

func main() {
	name := os.Args[1]
	switch name {
	case "ledger", "ledger_alive":
		transfers(name == "ledger_alive")
	case "crawl", "crawl_alive":
		crawls(name == "crawl_alive")
	case "served", "served_alive":
		serves(name == "served_alive")
	case "relay", "relay_alive":
		relays(name == "relay_alive")
	}
}
