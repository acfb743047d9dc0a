package bpfcanon_test

import (
	"testing"

	"bpfcanon"
)

// A set has the groups that are in it, by themselves and together, and no others. The vectors have the name of each.
func TestGroups(t *testing.T) {
	var groups []bpfcanon.Groups
	for group := bpfcanon.GroupBase32; group.String() != ""; group <<= 1 {
		groups = append(groups, group)
	}
	for i, group := range groups {
		if !group.Has(0) || bpfcanon.Groups(0).Has(group) {
			t.Errorf("%v has no groups, or is in none", group)
		}
		for k, other := range groups {
			both, isOne := group|other, i == k
			if group.Has(other) != isOne || group.Has(both) != isOne || !both.Has(group) || !both.Has(both) {
				t.Errorf("%v and %v: %v, %v", group, other, group.Has(other), group.Has(both))
			}
			if want := group.String() + " " + other.String(); i < k && both.String() != want {
				t.Errorf("%q, want %q", both, want)
			}
		}
	}
	if none := bpfcanon.Groups(0).String(); none != "" {
		t.Errorf("no groups are %q", none)
	}
}
