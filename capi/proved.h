/*
 * The calls that are written in Rattle (crates/bpfcanon_c), for bpfcanon.c only: this header is
 * not installed, and the library doesn't export them. They are those of bpfcanon.h with proved_ in
 * their names and uint8_t for characters. No pointer may be null, even if its length is 0, and
 * arrays of records are aligned as C aligns them.
 */
#ifndef BPFCANON_PROVED_H
#define BPFCANON_PROVED_H

#include "bpfcanon.h"

bpfcanon_answer bpfcanon_proved_btf_canon(uint32_t to, const uint8_t *bytes, size_t len,
                                          uint8_t *out, size_t capacity);
bpfcanon_answer bpfcanon_proved_btf_check(const uint8_t *bytes, size_t len);
bpfcanon_answer bpfcanon_proved_btf_decode(const uint8_t *bytes, size_t len,
                                           bpfcanon_btf_type *types, size_t types_capacity,
                                           bpfcanon_btf_item *items, size_t items_capacity);
bpfcanon_answer bpfcanon_proved_btf_encode(uint32_t to, const bpfcanon_btf_type *types,
                                           size_t types_count, const bpfcanon_btf_item *items,
                                           size_t items_count, const uint8_t *strings,
                                           size_t strings_len, uint8_t *out, size_t capacity);
bpfcanon_answer bpfcanon_proved_btf_same(const uint8_t *first, size_t first_len,
                                         const uint8_t *second, size_t second_len);
bpfcanon_answer bpfcanon_proved_btf_show(const uint8_t *bytes, size_t len, uint8_t *out,
                                         size_t capacity);

bpfcanon_answer bpfcanon_proved_insn_canon(uint32_t order, uint32_t to, const uint8_t *bytes,
                                           size_t len, uint8_t *out, size_t capacity);
bpfcanon_answer bpfcanon_proved_insn_decode(uint32_t order, const uint8_t *bytes, size_t len,
                                            bpfcanon_insn *out, size_t capacity);
bpfcanon_answer bpfcanon_proved_insn_encode(uint32_t to, const bpfcanon_insn *insns, size_t count,
                                            uint8_t *out, size_t capacity);
bpfcanon_answer bpfcanon_proved_insn_front(uint32_t order, uint32_t to, const uint8_t *bytes,
                                           size_t len, uint8_t *out, size_t capacity);
bpfcanon_answer bpfcanon_proved_insn_groups(uint32_t order, const uint8_t *bytes, size_t len);
bpfcanon_answer bpfcanon_proved_insn_read(uint32_t to, const uint8_t *text, size_t len,
                                          uint8_t *out, size_t capacity);
bpfcanon_answer bpfcanon_proved_insn_same(uint32_t first_order, const uint8_t *first,
                                          size_t first_len, uint32_t second_order,
                                          const uint8_t *second, size_t second_len);
bpfcanon_answer bpfcanon_proved_insn_show(uint32_t order, const uint8_t *bytes, size_t len,
                                          uint8_t *out, size_t capacity);

bpfcanon_answer bpfcanon_proved_object_canon(const uint8_t *bytes, size_t len, uint8_t *out,
                                             size_t capacity);
bpfcanon_answer bpfcanon_proved_object_check(const uint8_t *bytes, size_t len);
bpfcanon_answer bpfcanon_proved_object_key(const uint8_t *bytes, size_t len, uint8_t *out,
                                           size_t capacity);
bpfcanon_answer bpfcanon_proved_object_same(const uint8_t *first, size_t first_len,
                                            const uint8_t *second, size_t second_len);

#endif
