// A parcel depot. With the word `stuck` it stalls, with the word `slow` it only takes long.
package main

import (
	"net/http"
	_ "net/http/pprof"
	"os"
	"sync"
	"time"
)

var slow = os.Args[1] == "slow"

type Shelf struct {
	mu     sync.Mutex
	boxes  int
	events chan int
}

// Put reports a box while it has the shelf.
func (shelf *Shelf) Put(box int) {
	shelf.mu.Lock()
	defer shelf.mu.Unlock()
	shelf.boxes++
	shelf.events <- box
}

func (shelf *Shelf) Count() int {
	shelf.mu.Lock()
	defer shelf.mu.Unlock()
	return shelf.boxes
}

func load(shelf *Shelf, loading *sync.WaitGroup) {
	defer loading.Done()
	for box := 0; box < 9; box++ {
		shelf.Put(box)
	}
}

// watch hands each box to the picker, until the depot closes.
func watch(shelf *Shelf, picks chan<- int, closing <-chan struct{}) {
	for box := range shelf.events {
		if slow {
			time.Sleep(time.Hour)
		}
		select {
		case picks <- box:
		case <-closing:
			return
		}
	}
}

// pick counts what is on the shelf before each pick.
func pick(shelf *Shelf, picks <-chan int) {
	for {
		time.Sleep(100 * time.Millisecond)
		shelf.Count()
		<-picks
	}
}

func stamp(labels <-chan string) {
	for range labels {
	}
}

func ship(closing <-chan struct{}) {
	<-closing
}

func ring(labels chan<- string) {
	for range time.Tick(time.Hour) {
		labels <- "the time"
	}
}

func main() {
	shelf := &Shelf{events: make(chan int)}
	picks, closing := make(chan int), make(chan struct{})
	var labels chan string // (which nobody makes when the depot is stuck)
	if slow {
		labels = make(chan string)
	}
	var loading sync.WaitGroup
	loading.Add(2)
	go load(shelf, &loading)
	go load(shelf, &loading)
	go watch(shelf, picks, closing)
	go pick(shelf, picks)
	go stamp(labels)
	go ship(closing)
	go ring(labels)
	go http.ListenAndServe(os.Args[2], nil)
	loading.Wait()
	close(closing)
}
