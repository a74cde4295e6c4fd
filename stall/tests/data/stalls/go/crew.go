package main

import (
	"os"
	"runtime/pprof"
	"sync"
	"time"
)

// Two workers pass jobs to each other, and main waits for both. It has started a heartbeat too, and one that prints
// labels, whose channel was never made. In the twin a worker works for a long time.
var isSlow = len(os.Args) > 1 && os.Args[1] == "slow"

func work(in, out chan int, crew *sync.WaitGroup) {
	defer crew.Done()
	for job := range in {
		if isSlow {
			time.Sleep(time.Hour)
		}
		out <- job
		out <- job
	}
}

func label(labels chan int) {
	for range labels {
	}
}

func heartbeat() {
	for range time.Tick(time.Minute) {
	}
}

func look() {
	time.Sleep(time.Second)
	pprof.Lookup("goroutine").WriteTo(os.Stdout, 2)
	os.Exit(0)
}

func main() {
	var crew sync.WaitGroup
	var labels chan int
	one, two := make(chan int), make(chan int)
	crew.Add(2)
	go work(one, two, &crew)
	go work(two, one, &crew)
	go label(labels)
	go heartbeat()
	go look()
	one <- 1
	crew.Wait()
}
