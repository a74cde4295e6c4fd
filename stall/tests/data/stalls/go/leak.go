package main

// Asks for a large page each minute and looks at its status alone. In the stuck twin nobody closes the body.
import (
	"fmt"
	"net/http"
	"os"
	"time"
)

func check(url string, stuck bool) error {
	answer, err := http.Get(url)
	if err != nil {
		return err
	}
	if !stuck {
		defer answer.Body.Close()
	}
	fmt.Println(answer.StatusCode)
	return nil
}

func main() {
	for {
		if err := check(os.Args[2], os.Args[1] == "stuck"); err != nil {
			fmt.Println(err)
		}
		time.Sleep(time.Minute)
	}
}
