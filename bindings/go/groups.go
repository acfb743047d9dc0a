package bpfcanon

// #include <bpfcanon.h>
import "C"

import "strings"

// Groups is a set of conformance groups (RFC 9669 section 2.4): instructions that a runtime
// supports together. GroupBase64 includes GroupBase32, and likewise GroupAtomic64 and GroupDivmul64;
// GroupPacket is legacy packet access.
type Groups uint32

const (
	GroupBase32   Groups = C.BPFCANON_GROUP_BASE32
	GroupBase64   Groups = C.BPFCANON_GROUP_BASE64
	GroupAtomic32 Groups = C.BPFCANON_GROUP_ATOMIC32
	GroupAtomic64 Groups = C.BPFCANON_GROUP_ATOMIC64
	GroupDivmul32 Groups = C.BPFCANON_GROUP_DIVMUL32
	GroupDivmul64 Groups = C.BPFCANON_GROUP_DIVMUL64
	GroupPacket   Groups = C.BPFCANON_GROUP_PACKET
)

// groupNames lists the names of the groups in the order of their bits.
var groupNames = [...]string{
	"base32", "base64", "atomic32", "atomic64", "divmul32", "divmul64", "packet",
}

// Has reports whether the set contains all of the groups.
func (g Groups) Has(groups Groups) bool {
	return g&groups == groups
}

// String returns the names of the groups with spaces between them, for example "base32 base64". It
// is empty for the empty set.
func (g Groups) String() string {
	var names []string
	for bit, name := range groupNames {
		if g.Has(1 << bit) {
			names = append(names, name)
		}
	}
	return strings.Join(names, " ")
}
