package main

import (
	"fmt"
	"os"
	"runtime/pprof"
	"time"
)

// Two use a store's channels in the wrong order, and a third one, if there is a word, comes after an hour.
type Store struct {
	in, out chan int
	n       int
}

//go:noinline
func (s *Store) put() { s.in <- 1; fmt.Println(<-s.out, s.n) }

//go:noinline
func (s *Store) take() { s.out <- 1; fmt.Println(<-s.in, s.n) }

//go:noinline
func (s *Store) clear() { time.Sleep(time.Hour); fmt.Println(<-s.out, s.n) }

//go:noinline
func count(store *Store) { time.Sleep(time.Hour); fmt.Println(store.n) }

func main() {
	store := &Store{in: make(chan int), out: make(chan int)}
	go store.put()
	go store.take()
	if len(os.Args) > 1 {
		go store.clear()
	} else {
		go count(store)
	}
	time.Sleep(300 * time.Millisecond)
	pprof.Lookup("goroutine").WriteTo(os.Stdout, 2)
}
