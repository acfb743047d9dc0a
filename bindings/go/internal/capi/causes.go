package capi

// #include <bpfcanon.h>
import "C"

// Version returns the version of the library, for example "0.1.0".
func Version() string {
	return C.GoString(C.bpfcanon_version())
}

// The calls below return the name of a number, for example "Truncated", or a sentence that explains
// it. Both are "" for a number that isn't a cause.

func InsnCauseName(cause uint32) string {
	return C.GoString(C.bpfcanon_insn_cause_name(C.uint32_t(cause)))
}

func InsnCauseText(cause uint32) string {
	return C.GoString(C.bpfcanon_insn_cause_text(C.uint32_t(cause)))
}

func LineCauseName(cause uint32) string {
	return C.GoString(C.bpfcanon_line_cause_name(C.uint32_t(cause)))
}

func LineCauseText(cause uint32) string {
	return C.GoString(C.bpfcanon_line_cause_text(C.uint32_t(cause)))
}

func BTFCauseName(cause uint32) string {
	return C.GoString(C.bpfcanon_btf_cause_name(C.uint32_t(cause)))
}

func BTFCauseText(cause uint32) string {
	return C.GoString(C.bpfcanon_btf_cause_text(C.uint32_t(cause)))
}

func ObjectCauseName(cause uint32) string {
	return C.GoString(C.bpfcanon_object_cause_name(C.uint32_t(cause)))
}

func ObjectCauseText(cause uint32) string {
	return C.GoString(C.bpfcanon_object_cause_text(C.uint32_t(cause)))
}
