// Seals a file, opens the message, and compares: go run ./example KEYRING FILE
package main

import (
	"bytes"
	"fmt"
	"os"

	"esdk.invalid/esdk"
)

func run(keyring, file string) error {
	ring, err := esdk.ReadKeyring(keyring)
	if err != nil {
		return err
	}
	text, err := os.ReadFile(file)
	if err != nil {
		return err
	}
	message, err := esdk.Sealing{Context: map[string]string{"file": file}}.All(ring, text)
	if err != nil {
		return err
	}
	back, context, err := esdk.Opening{}.All(ring, message)
	if err != nil {
		return err
	}
	fmt.Println("the text came back:", bytes.Equal(back, text) && context["file"] == file)
	_, _, err = esdk.Opening{}.All(ring, message[:len(message)-1])
	fmt.Println(err)
	return nil
}

func main() {
	if err := run(os.Args[1], os.Args[2]); err != nil {
		fmt.Fprintln(os.Stderr, err)
		os.Exit(1)
	}
}
