// Filter reads an application's output from standard input and writes the screen that it leaves.
//
//	CGO_CFLAGS=-I../../include CGO_LDFLAGS=-L../../crates/terminal_c/out go build -o filter .
//	./filter 80 24 < ../../docs/sessions/vim-80x24.bytes
package main

import (
	"fmt"
	"io"
	"os"
	"strconv"
)

func run() error {
	width, height := 80, 24
	if len(os.Args) == 3 {
		var err error
		if width, err = strconv.Atoi(os.Args[1]); err != nil {
			return err
		}
		if height, err = strconv.Atoi(os.Args[2]); err != nil {
			return err
		}
	}
	terminal, err := NewTerminal(width, height)
	if err != nil {
		return err
	}
	defer terminal.Close()
	if _, err = io.Copy(terminal, os.Stdin); err != nil {
		return err
	}
	text, err := terminal.ScreenText()
	if err != nil {
		return err
	}
	_, err = os.Stdout.Write(text)
	return err
}

func main() {
	if err := run(); err != nil {
		fmt.Fprintln(os.Stderr, "filter:", err)
		os.Exit(1)
	}
}
