package main

// Leases end by a timer each; those on the list of the registry are taken off it first, under its mutex. A put holds
// that while it tells the watcher, who waits for the end of his lease: these are stuck. The client waits for his own
// lease: in the healthy twin it isn't on the list and ends by itself, in the stuck one it is on the list too.
import (
	"fmt"
	"os"
	"sync"
	"time"
)

type Lease struct{ gone chan struct{} }
type Registry struct {
	mu     sync.Mutex
	list   map[*Lease]bool
	events chan string
}

func (r *Registry) lease(ttl time.Duration, listed bool) *Lease {
	l := &Lease{make(chan struct{})}
	time.AfterFunc(ttl, func() {
		if listed {
			r.mu.Lock()
			delete(r.list, l)
			r.mu.Unlock()
		}
		close(l.gone)
	})
	return l
}

func (r *Registry) put(wg *sync.WaitGroup) {
	defer wg.Done()
	r.mu.Lock()
	r.events <- "put"
	r.mu.Unlock()
}

func watch(r *Registry, l *Lease, wg *sync.WaitGroup) {
	defer wg.Done()
	<-l.gone
	fmt.Println(<-r.events)
}

func client(l *Lease, wg *sync.WaitGroup) {
	defer wg.Done()
	<-l.gone
	fmt.Println(time.Now().Format("15:04:05"), "the client goes on")
}

func main() {
	fmt.Println(time.Now().Format("15:04:05"), "begins")
	r := &Registry{list: map[*Lease]bool{}, events: make(chan string)}
	var wg sync.WaitGroup
	wg.Add(3)
	go watch(r, r.lease(time.Second, true), &wg)
	go r.put(&wg)
	go client(r.lease(60*time.Second, os.Args[1] == "stuck"), &wg)
	wg.Wait()
}
