package bpfcanon_test

import (
	"errors"
	"fmt"
	"log"
	"os"

	"bpfcanon"
)

// flowTable returns the types of a file that clang made.
func flowTable() *bpfcanon.BTF {
	file, err := os.ReadFile("../../testdata/flow_table.little.btf")
	if err != nil {
		log.Fatal(err)
	}
	types, err := bpfcanon.DecodeBTF(file)
	if err != nil {
		log.Fatal(err)
	}
	return types
}

// The members of all structs, with the kinds of their types.
func ExampleDecodeBTF() {
	types := flowTable()
	for _, it := range types.Types() {
		it, ok := it.(bpfcanon.Struct)
		if !ok {
			continue
		}
		for _, member := range it.Members {
			kind, err := types.Kind(member.Target)
			if err != nil {
				log.Fatal(err)
			}
			fmt.Printf("%s.%s: %v, %d bytes from the start\n", it.Name, member.Name, kind, member.BitOffset/8)
		}
	}
	// Output:
	// flow.source: union, 0 bytes from the start
	// flow.direction: enum, 16 bytes from the start
	// flow.closed: int, 20 bytes from the start
	// flow.retries: int, 20 bytes from the start
	// flow.load: float, 24 bytes from the start
	// flow.host: ptr, 32 bytes from the start
	// flow.name: ptr, 40 bytes from the start
}

// The values of an enum that has a name.
func ExampleBTF_ByName() {
	types := flowTable()
	for _, id := range types.ByName("direction") {
		it, err := types.Type(id)
		if err != nil {
			log.Fatal(err)
		}
		if it, ok := it.(bpfcanon.Enum); ok {
			for _, value := range it.Values {
				fmt.Println(value.Name, value.Value)
			}
		}
	}
	// Output:
	// OUTBOUND 4294967295
	// INBOUND 1
}

// The type of a variable without its qualifiers.
func ExampleBTF_Resolve() {
	types := flowTable()
	misses := types.ByName("misses")[0]
	it, err := types.Type(misses)
	if err != nil {
		log.Fatal(err)
	}
	id, err := types.Resolve(it.(bpfcanon.Var).Target)
	if err != nil {
		log.Fatal(err)
	}
	fmt.Println(types.Name(id))
	// Output: int <nil>
}

// The helper functions that a program calls, and where.
func ExampleDecodeInsns() {
	bytes, err := bpfcanon.ReadInsns(bpfcanon.Little, []byte("lddw r1, 5000000000\ncall 6\ncall 14\nexit\n"))
	if err != nil {
		log.Fatal(err)
	}
	program, err := bpfcanon.DecodeInsns(bpfcanon.Little, bytes)
	if err != nil {
		log.Fatal(err)
	}
	for i := 0; i < program.Len(); i++ {
		if call, ok := program.At(i).(bpfcanon.CallHelper); ok {
			fmt.Printf("helper %d at byte %d\n", call.ID, program.Offset(i))
		}
	}
	// Output:
	// helper 6 at byte 16
	// helper 14 at byte 24
}

// A program that returns 2, for a big-endian target.
func ExampleEncodeInsns() {
	program, err := bpfcanon.EncodeInsns(bpfcanon.Big, []bpfcanon.Insn{
		bpfcanon.ALU{Width: bpfcanon.W64, Op: bpfcanon.ALUMov, Dst: 0, Arg: bpfcanon.Imm(2)},
		bpfcanon.Exit{},
	})
	if err != nil {
		log.Fatal(err)
	}
	fmt.Printf("% x\n", program)
	// Output: b7 00 00 00 00 00 00 02 95 00 00 00 00 00 00 00
}

// There is no register 11.
func ExampleEncodeInsnError() {
	_, err := bpfcanon.EncodeInsns(bpfcanon.Little, []bpfcanon.Insn{
		bpfcanon.Exit{},
		bpfcanon.Load{Size: bpfcanon.SizeW, Dst: 11, Src: 1},
	})
	var refused *bpfcanon.EncodeInsnError
	if errors.As(err, &refused) {
		fmt.Println(refused.Index, refused.Insn.(bpfcanon.Load).Dst)
	}
	// Output: 1 r11
}
