// A till that holds its stock while it asks the books, a program of another language, over TCP. The books ask it for a
// price before they answer, which needs the stock too. usage: till PORT-OF-PPROF PORT PORT-OF-BOOKS
package main

import (
	"bufio"
	"fmt"
	"net"
	"net/http"
	_ "net/http/pprof"
	"os"
	"sync"
	"time"
)

var stock sync.Mutex

func price(caller net.Conn) {
	for lines := bufio.NewReader(caller); ; {
		if _, err := lines.ReadString('\n'); err != nil {
			return
		}
		stock.Lock()
		fmt.Fprintln(caller, 7)
		stock.Unlock()
	}
}

func sell(books string) {
	to, err := net.Dial("tcp", "127.0.0.1:"+books)
	if err != nil {
		panic(err)
	}
	stock.Lock()
	defer stock.Unlock()
	fmt.Fprintln(to, "book")
	answer, _ := bufio.NewReader(to).ReadString('\n')
	fmt.Print(answer)
}

func count() {
	stock.Lock()
	fmt.Println("counted")
	stock.Unlock()
}

func main() {
	go http.ListenAndServe("127.0.0.1:"+os.Args[1], nil)
	port, err := net.Listen("tcp", "127.0.0.1:"+os.Args[2])
	if err != nil {
		panic(err)
	}
	go sell(os.Args[3])
	go func() {
		time.Sleep(time.Second)
		count()
	}()
	for {
		caller, err := port.Accept()
		if err != nil {
			panic(err)
		}
		go price(caller)
	}
}
