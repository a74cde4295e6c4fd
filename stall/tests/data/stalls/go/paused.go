// A sweeper whose ticker is stopped, and one who looks: they may set the ticker again, or take what is sent.
//
// GO111MODULE=off go build -trimpath paused.go && GOTRACEBACK=all ./paused CASE 2> text & take-go --kill PID
package main

import (
	"os"
	"sync"
	"time"
)

type sweeper struct {
	ticker *time.Ticker
	swept  chan int
	sweeps int
}

func (s *sweeper) sweep() {
	for range s.ticker.C {
		s.sweeps++
		s.swept <- s.sweeps
	}
}

// It stops the ticker once more, and never sets it again.
func (s *sweeper) pause() {
	for {
		time.Sleep(time.Hour)
		s.ticker.Stop()
	}
}

func (s *sweeper) resume() {
	for {
		time.Sleep(time.Hour)
		s.ticker.Reset(time.Minute)
	}
}

func (s *sweeper) isSwept() bool {
	select {
	case <-s.swept:
		return true
	default:
		return false
	}
}

// It looks now and then whether somebody sends.
func (s *sweeper) look() {
	for !s.isSwept() {
		time.Sleep(time.Hour)
	}
}

func main() {
	s := &sweeper{ticker: time.NewTicker(time.Hour), swept: make(chan int)}
	s.ticker.Stop()
	var running sync.WaitGroup
	running.Add(1)
	switch os.Args[1] {
	case "paused":
		go s.pause()
		go func() { s.sweep(); running.Done() }()
	case "paused_alive":
		go s.resume()
		go func() { s.sweep(); running.Done() }()
	case "looked_alive":
		go s.look()
		go func() {
			time.Sleep(100 * time.Millisecond)
			s.swept <- 0
			running.Done()
		}()
	}
	running.Wait()
}
