// Services of a broker in one program, each with a connection. NAME:NEXT asks NEXT within its work and waits for the
// reply, NAME~NEXT asks and then takes its time. Each has work at once. Usage: desks HOST SERVICE ..
package main

import (
	"fmt"
	"net/http"
	_ "net/http/pprof"
	"os"
	"strings"
	"time"

	amqp "github.com/rabbitmq/amqp091-go"
)

type desk struct {
	name, next string
	waits      bool
	work, asks *amqp.Channel
	replies    string
	found      <-chan amqp.Delivery
}

func must(err error) {
	if err != nil {
		panic(err)
	}
}

func open(words, host string) *desk {
	at := strings.IndexAny(words, ":~")
	name, next := words[:at], words[at+1:]
	connection, err := amqp.DialConfig("amqp://127.0.0.1:"+os.Getenv("PORT"),
		amqp.Config{Properties: amqp.Table{"connection_name": name + "@" + host}})
	must(err)
	one := &desk{name: name, next: next, waits: words[at] == ':'}
	one.work, err = connection.Channel()
	must(err)
	one.asks, err = connection.Channel()
	must(err)
	must(one.work.Qos(1, 0, false))
	_, err = one.work.QueueDeclare(name, false, false, false, false, nil)
	must(err)
	_, err = one.work.QueueDeclare(next, false, false, false, false, nil)
	must(err)
	queue, err := one.asks.QueueDeclare("", false, false, true, false, nil)
	must(err)
	one.replies = queue.Name
	one.found, err = one.asks.Consume(queue.Name, "", true, true, false, false, nil)
	must(err)
	return one
}

func (one *desk) serve() {
	taken, err := one.work.Consume(one.name, "", false, false, false, false, nil)
	must(err)
	for message := range taken {
		one.handle(message)
		must(message.Ack(false))
	}
}

func (one *desk) handle(message amqp.Delivery) {
	must(one.asks.Publish("", one.next, false, false, amqp.Publishing{ReplyTo: one.replies, Body: []byte("7")}))
	if one.waits {
		<-one.found
	} else {
		time.Sleep(10 * time.Minute)
	}
	if message.ReplyTo != "" {
		must(one.work.Publish("", message.ReplyTo, false, false, amqp.Publishing{Body: []byte("7")}))
	}
}

func main() {
	go http.ListenAndServe("127.0.0.1:"+os.Getenv("PPROF"), nil)
	var all []*desk
	for _, words := range os.Args[2:] {
		all = append(all, open(words, os.Args[1]))
	}
	for _, one := range all {
		go one.serve()
	}
	time.Sleep(time.Second)
	for _, one := range all {
		must(one.work.Publish("", one.name, false, false, amqp.Publishing{Body: []byte("7")}))
	}
	fmt.Println("ready")
	select {}
}
