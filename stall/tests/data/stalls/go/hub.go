// A hub that passes news on to its subscribers, as chat servers have. `stuck`: a subscriber whose connection is gone
// wants to leave, while the hub sends to it. `healthy`: it only writes slowly.
package main

import (
	"errors"
	"fmt"
	"log"
	"net/http"
	_ "net/http/pprof"
	"os"
	"os/signal"
	"syscall"
	"time"
)

var healthy = os.Args[1] == "healthy"

type Client struct {
	name string
	send chan string
	hub  *Hub
}

type Hub struct {
	join    chan *Client
	leave   chan *Client
	publish chan string
	clients []*Client
}

// run is the one goroutine that has the list of clients.
func (h *Hub) run() {
	for {
		select {
		case c := <-h.join:
			h.clients = append(h.clients, c)
			go c.pump()
		case c := <-h.leave:
			for i, other := range h.clients {
				if other == c {
					h.clients = append(h.clients[:i], h.clients[i+1:]...)
					close(c.send)
					break
				}
			}
		case news := <-h.publish:
			for _, c := range h.clients {
				c.send <- news
			}
		}
	}
}

// pump writes to the client what the hub sends.
func (c *Client) pump() {
	for news := range c.send {
		if err := c.write(news); err != nil {
			c.quit()
			return
		}
	}
}

func (c *Client) write(news string) error {
	if c.name == "desk-3" && news == "news 3" {
		if healthy {
			time.Sleep(45 * time.Second)
			return nil
		}
		time.Sleep(300 * time.Millisecond)
		return errors.New("broken pipe")
	}
	return nil
}

func (c *Client) quit() {
	c.hub.leave <- c
}

// feed is the source of the news.
func (h *Hub) feed() {
	for number := 1; ; number++ {
		h.publish <- fmt.Sprintf("news %d", number)
		time.Sleep(100 * time.Millisecond)
	}
}

// welcome lets a client in that comes late.
func (h *Hub) welcome(name string) {
	time.Sleep(2 * time.Second)
	h.join <- &Client{name: name, send: make(chan string), hub: h}
}

func heartbeat() {
	for range time.Tick(20 * time.Second) {
		log.Print("alive")
	}
}

func reload() {
	hangups := make(chan os.Signal, 1)
	signal.Notify(hangups, syscall.SIGHUP)
	for range hangups {
		log.Print("configuration read again")
	}
}

func main() {
	h := &Hub{join: make(chan *Client), leave: make(chan *Client), publish: make(chan string)}
	go h.run()
	for _, name := range []string{"desk-1", "desk-2", "desk-3", "desk-4"} {
		h.join <- &Client{name: name, send: make(chan string), hub: h}
	}
	go h.feed()
	go h.welcome("desk-5")
	go heartbeat()
	go reload()
	log.Fatal(http.ListenAndServe(os.Args[2], nil))
}
