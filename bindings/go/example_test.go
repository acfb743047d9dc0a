package bpfcanon_test

import (
	"bytes"
	"errors"
	"fmt"
	"log"
	"os"

	"bpfcanon"
)

// mov r1, r2 of a big-endian target.
func ExampleCanonInsns() {
	program := []byte{0xbf, 0x12, 0, 0, 0, 0, 0, 0}
	canonical, err := bpfcanon.CanonInsns(bpfcanon.Big, bpfcanon.Little, program)
	if err != nil {
		log.Fatal(err)
	}
	fmt.Printf("% x\n", canonical)
	// Output: bf 21 00 00 00 00 00 00
}

// The fault of a program has an offset and a cause.
func ExampleFaultError() {
	program := []byte{0x95, 0, 0, 0, 0, 0, 0, 0, 0x04, 0x10, 0, 0, 5, 0, 0, 0}
	_, err := bpfcanon.CanonInsns(bpfcanon.Little, bpfcanon.Little, program)
	var fault *bpfcanon.FaultError
	if errors.As(err, &fault) {
		fmt.Println(fault.Offset, fault.Cause.String())
	}
	if errors.Is(err, bpfcanon.ErrInsnSrc) {
		fmt.Println("is this the other byte order?")
	}
	fmt.Println(err)
	// Output:
	// 9 Src
	// is this the other byte order?
	// bpfcanon: byte 9: Src: no instruction with this opcode has this source register
}

// A program from a listing, and its conformance groups.
func ExampleReadInsns() {
	program, err := bpfcanon.ReadInsns(bpfcanon.Little, []byte("mul32 r0, 3 ; the result\nexit\n"))
	if err != nil {
		log.Fatal(err)
	}
	groups, err := bpfcanon.GroupsOf(bpfcanon.Little, program)
	if err != nil {
		log.Fatal(err)
	}
	fmt.Printf("% x\n%v\n", program, groups)
	// Output:
	// 24 00 00 00 03 00 00 00 95 00 00 00 00 00 00 00
	// base32 divmul32
}

func ExampleShowInsns() {
	listing, err := bpfcanon.ShowInsns(bpfcanon.Big, []byte{0xbf, 0x12, 0, 0, 0, 0, 0, 0, 0x95, 0, 0, 0, 0, 0, 0, 0})
	if err != nil {
		log.Fatal(err)
	}
	os.Stdout.Write(listing)
	// Output:
	// mov r1, r2
	// exit
}

// The types of a BTF file: one int.
func ExampleShowBTF() {
	types := []byte("\xeb\x9f\x01\x00\x00\x00\x00\x18\x00\x00\x00\x00\x00\x00\x00\x10\x00\x00\x00\x10\x00\x00\x00\x05" +
		"\x00\x00\x00\x01\x01\x00\x00\x00\x00\x00\x00\x04\x01\x00\x00\x20\x00int\x00")
	text, err := bpfcanon.ShowBTF(types)
	if err != nil {
		log.Fatal(err)
	}
	os.Stdout.Write(text)
	// Output: [1] int "int" size=4 encoding=signed offset=0 bits=32
}

// A stream that is cut inside an instruction. What is complete is written as it comes.
func ExampleInsnWriter() {
	var canonical bytes.Buffer
	w := bpfcanon.NewInsnWriter(&canonical, bpfcanon.Big, bpfcanon.Little)
	for _, piece := range []string{"\xbf\x12\x00\x00\x00", "\x00\x00\x00\x95"} {
		if _, err := w.Write([]byte(piece)); err != nil {
			log.Fatal(err)
		}
	}
	err := w.Close()
	fmt.Printf("% x\n%v\n", canonical.Bytes(), err)
	// Output:
	// bf 21 00 00 00 00 00 00
	// bpfcanon: byte 8: Truncated: the input ends inside an instruction
}
