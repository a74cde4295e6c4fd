package main

import (
	"fmt"
	"os"
	"runtime/pprof"
	"sync"
	"time"
)

// Customers read a catalogue. What it lacks a loader adds, which takes the lock for writing. A customer asks it while it
// still reads. In the twin it doesn't, and one customer reads for a long time.
type Catalog struct {
	mu     sync.RWMutex
	prices map[string]int
	misses chan string
	filled chan int
}

var isSlow = len(os.Args) > 1 && os.Args[1] == "slow"

func (c *Catalog) get(key string) int {
	c.mu.RLock()
	price, found := c.prices[key]
	if found {
		c.read(price)
	}
	if isSlow || found {
		c.mu.RUnlock()
	} else {
		defer c.mu.RUnlock()
	}
	if found {
		return price
	}
	return c.ask(key)
}

func (c *Catalog) read(price int) {
	if isSlow && price == 0 {
		time.Sleep(time.Hour)
	}
}

func (c *Catalog) ask(key string) int {
	c.misses <- key
	return <-c.filled
}

func (c *Catalog) load() {
	for key := range c.misses {
		c.set(key, len(key))
		c.filled <- len(key)
	}
}

func (c *Catalog) set(key string, price int) {
	c.mu.Lock()
	defer c.mu.Unlock()
	c.prices[key] = price
}

func customer(c *Catalog, number int, shop *sync.WaitGroup) {
	defer shop.Done()
	time.Sleep(time.Duration(number) * 50 * time.Millisecond)
	c.get(fmt.Sprint("item-", number))
}

func look() {
	time.Sleep(time.Second)
	pprof.Lookup("goroutine").WriteTo(os.Stdout, 2)
	os.Exit(0)
}

func main() {
	c := &Catalog{prices: map[string]int{"item-0": 0}, misses: make(chan string), filled: make(chan int)}
	go c.load()
	customers := []int{1, 2, 3}
	if isSlow {
		customers = []int{0, 1, 2, 3}
	}
	var shop sync.WaitGroup
	for _, number := range customers {
		shop.Add(1)
		go customer(c, number, &shop)
	}
	go look()
	shop.Wait()
}
