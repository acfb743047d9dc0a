// Command cilium prints what cilium/ebpf reads from object files. An object on standard input is its length
// as a little-endian word of 32 bits, and its bytes. So is each answer on standard output: a text.
package main

import (
	"bufio"
	"bytes"
	"crypto/sha256"
	"encoding/binary"
	"fmt"
	"io"
	"os"
	"reflect"
	"sort"
	"strings"
	"time"

	"github.com/cilium/ebpf"
	"github.com/cilium/ebpf/asm"
	"github.com/cilium/ebpf/btf"
)

const patience = 20 * time.Second

// moved are the kinds of types that have other numbers in a canonical file.
var moved = map[string]bool{"*btf.Var": true, "*btf.Datasec": true, "*btf.Fwd": true, "*btf.typeTag": true, "*btf.TypeTag": true}

// view is the text about one object. Types are shown by a digest of what they are.
type view struct {
	strings.Builder
	ids     map[uintptr]int
	digests []string
}

func (v *view) types(spec *btf.Spec) {
	v.ids = make(map[uintptr]int)
	if spec == nil {
		return
	}
	var types []btf.Type
	for iter := spec.Iterate(); iter.Next(); {
		v.ids[reflect.ValueOf(iter.Type).Pointer()] = len(types)
		types = append(types, iter.Type)
	}
	texts := v.texts(types)
	var last []string
	for id, typ := range types {
		if moved[fmt.Sprintf("%T", typ)] {
			last = append(last, texts[id])
		} else {
			fmt.Fprintln(v, texts[id])
		}
	}
	sort.Strings(last)
	fmt.Fprintln(v, strings.Join(last, "\n"))
}

// texts are those of types. Each round tells types apart by what is one reference farther away.
func (v *view) texts(types []btf.Type) []string {
	texts := make([]string, len(types))
	v.digests = make([]string, len(types))
	for count, before := 0, -1; count > before; {
		digests, known := make([]string, len(types)), make(map[string]bool)
		for id, typ := range types {
			one := view{ids: v.ids, digests: v.digests}
			fmt.Fprintf(&one, "type %T ", typ)
			one.value(reflect.ValueOf(typ).Elem())
			texts[id] = one.String()
			digests[id] = fmt.Sprintf("#%x", sha256.Sum256([]byte(texts[id])))[:17]
			known[digests[id]] = true
		}
		before, count, v.digests = count, len(known), digests
	}
	return texts
}

func (v *view) value(value reflect.Value) {
	switch value.Kind() {
	case reflect.Interface:
		if value.IsNil() {
			v.WriteString("nil")
			return
		}
		v.value(value.Elem())
	case reflect.Ptr:
		if id, isType := v.ids[value.Pointer()]; isType {
			v.WriteString(v.digests[id])
		} else if value.IsNil() || value.Type() == reflect.TypeOf((*btf.Spec)(nil)) {
			v.WriteString("-")
		} else {
			v.value(value.Elem())
		}
	case reflect.Struct:
		v.WriteByte('{')
		for i := 0; i < value.NumField(); i++ {
			v.WriteString(value.Type().Field(i).Name + "=")
			v.value(value.Field(i))
			v.WriteByte(' ')
		}
		v.WriteByte('}')
	case reflect.Slice:
		v.WriteByte('[')
		for i := 0; i < value.Len(); i++ {
			v.value(value.Index(i))
			v.WriteByte(' ')
		}
		v.WriteByte(']')
	default:
		// A relocation has the number of its type beside the type.
		if !value.IsValid() || value.Type() != reflect.TypeOf(btf.TypeID(0)) {
			fmt.Fprintf(v, "%#v", value)
		}
	}
}

func (v *view) field(name string, value interface{}) {
	v.WriteString(" " + name + "=")
	v.value(reflect.ValueOf(value))
}

// program leaves out the source lines of instructions.
func (v *view) program(key string, program *ebpf.ProgramSpec) {
	fmt.Fprintf(v, "program %q", key)
	insns := program.Instructions
	program.Instructions = nil
	v.field("spec", *program)
	v.WriteByte('\n')
	for i := range insns {
		ins := &insns[i]
		fmt.Fprintf(v, "%#x %d %d %d %d %q %q", uint16(ins.OpCode), ins.Dst, ins.Src, ins.Offset, ins.Constant, ins.Symbol(), ins.Reference())
		v.field("function", btf.FuncMetadata((*asm.Instruction)(ins)))
		v.field("relocation", btf.CORERelocationMetadata(ins))
		v.WriteByte('\n')
	}
}

// look makes the view of an object. Its faults are met in the sequence of Go's maps, so they have no text.
func look(content []byte) (text string) {
	defer func() {
		if recover() != nil {
			text = "refused: panic"
		}
	}()
	spec, err := ebpf.LoadCollectionSpecFromReader(bytes.NewReader(content))
	if err != nil {
		return "refused"
	}
	v := new(view)
	v.types(spec.Types)
	fmt.Fprintln(v, spec.ByteOrder)
	for _, key := range sorted(reflect.ValueOf(spec.Maps)) {
		fmt.Fprintf(v, "map %q", key)
		v.field("spec", *spec.Maps[key])
		v.WriteByte('\n')
	}
	for _, key := range sorted(reflect.ValueOf(spec.Programs)) {
		v.program(key, spec.Programs[key])
	}
	return v.String()
}

func sorted(mapping reflect.Value) (keys []string) {
	for _, key := range mapping.MapKeys() {
		keys = append(keys, key.String())
	}
	sort.Strings(keys)
	return keys
}

func main() {
	in, out := bufio.NewReader(os.Stdin), bufio.NewWriter(os.Stdout)
	var length uint32
	for binary.Read(in, binary.LittleEndian, &length) == nil {
		content := make([]byte, length)
		if _, err := io.ReadFull(in, content); err != nil {
			return
		}
		answer := make(chan string, 1)
		go func() { answer <- look(content) }()
		text := "refused: no answer"
		select {
		case text = <-answer:
		case <-time.After(patience):
		}
		binary.Write(out, binary.LittleEndian, uint32(len(text)))
		out.WriteString(text)
		out.Flush()
	}
}
