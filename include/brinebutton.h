/*
 * Brinebutton: questions about Bitcoin scripts, every answer proved.
 *
 * Link with crates/boundary/out/libboundary.a, which `rt lib` in crates/boundary makes (x86-64-v2; beside it nothing but the C library).
 *
 * One convention for all functions:
 * - The result is 0; or the number of a refusal, one of those that are listed below under 'The refusals'; or BB_SHORT_VALUES, which is no refusal but a
 *   mistake in the call.
 * - Every slice is a pointer and, directly after it, the number of its entries. A pointer must be valid for that many entries and aligned for them;
 *   where there are none it is not used, and may be NULL. Slices that are written must overlap no other.
 * - `values` (`number`, where it is called so) is the answer's own place. Each function says how many entries it must have at least, and what they
 *   are. The values of the answer stand at its front after the call; entries that an answer does not name are as they were.
 * - On a refusal the refusal's values stand at its front: one entry, the place (refusal 2) or what is needed (7); two entries, the place and how many bytes
 *   are missing (14 and 15); the others have none. The walk (bb_next, bb_advance) and the builder have their state before them. The entries behind are as
 *   they were.
 * - All other slices are as they were after a refusal, save one: refusals 2, 14 and 15 move the cursor that bb_advance is lent to the script's end. On
 *   success what lies behind the written bytes or entries is as it was.
 * - Where `values` has too few entries, or the cursor of bb_advance none, the result is BB_SHORT_VALUES, whatever the answer would be, and nothing at
 *   all is changed, `values` included. So 7 always means that an output is too short, and stands beside what is needed.
 * - A script is at most 4,194,304 bytes long; a longer one is BB_TOO_LONG.
 */
#ifndef BRINEBUTTON_H
#define BRINEBUTTON_H

#include <stddef.h>
#include <stdint.h>

#ifdef __cplusplus
extern "C" {
#endif

/* The refusals. 3 is retired, 14 and 15 are in its place; it is not used again. */
#define BB_TOO_LONG 1            /* a script, a builder's used length, read_scriptbool's bytes or a built script exceeds the limit */
#define BB_NON_MINIMAL 2         /* minimal mode: a push that has a shorter form; values: its place */
#define BB_NUMBER_TOO_LONG 4     /* a number to be read has over 4 bytes */
#define BB_NUMBER_NOT_MINIMAL 5  /* strict reader: not the writer's form */
#define BB_NUMBER_OUT_OF_RANGE 6 /* writing -2^63 */
#define BB_NO_ROOM 7             /* the lent output is shorter than what is needed; values: that, in bytes or entries */
#define BB_BAD_CURSOR 8          /* a position above the script's length */
#define BB_FEE_TOO_LARGE 9       /* rate times 4, or the rate then used times the size, exceeds 2^64 - 1 */
#define BB_PROGRAM_LENGTH 10     /* a witness program outside 2 to 40 bytes */
#define BB_PROGRAM_LENGTH_V0 11  /* version 0 and neither 20 nor 32 bytes */
#define BB_BAD_VERSION 12        /* a version above 16 */
#define BB_BAD_BUILDER 13        /* a length above the buffer's, or what is remembered is not the last used byte */
#define BB_LENGTH_CUT 14         /* the length bytes of a push are cut; values: its place, and how many of them are missing */
#define BB_BODY_CUT 15           /* the body of a push is cut; values: its place, and how many bytes of the body are missing */

/* No refusal: `values`, or the cursor of bb_advance, has too few entries. Nothing is changed. */
#define BB_SHORT_VALUES 255

/* The walk's mode. Any other number is the minimal mode too. */
#define BB_PLAIN 0
#define BB_MINIMAL 1

/* What the walk found. */
#define BB_END 0
#define BB_OPCODE 1
#define BB_PUSH 2

/* The sort of an opcode byte. */
#define BB_SORT_PUSH 0
#define BB_SORT_NUMBER 1
#define BB_SORT_PLAIN 2

/* The kind of a script: the first that fits. */
#define BB_P2PKH 1
#define BB_P2SH 2
#define BB_P2WPKH 3
#define BB_P2WSH 4
#define BB_P2TR 5
#define BB_P2A 6
#define BB_WITNESS 7
#define BB_P2PK 8
#define BB_MULTISIG 9
#define BB_OPRETURN 10
#define BB_OTHER 11

/* What a builder remembers where it remembers no opcode: this, or any larger number. */
#define BB_NOTHING 256

/* Opcodes. None is refused. */

/* The sort of an opcode byte. values, 2 entries: BB_SORT_PUSH and the number of length bytes, 0, 1, 2 or 4; or one of the other two. */
uint32_t bb_classify(uint8_t code, uint64_t *values, size_t values_len);
/* The number, 1 to 16, that a number opcode carries. values, 2 entries: 1 and the number; or 0 for any other byte. */
uint32_t bb_decode_pushnum(uint8_t code, uint64_t *values, size_t values_len);
/* The opcode that does the same and then verifies. values, 2 entries: 1 and the opcode; or 0 where there is none. */
uint32_t bb_opcode_to_verify(uint8_t code, uint64_t *values, size_t values_len);
/* The length of an opcode's name. values, 1 entry: that. */
uint32_t bb_name_len(uint8_t code, uint64_t *values, size_t values_len);
/* Writes an opcode's name, without an end mark. values, 1 entry: the bytes written. Refused: 7. */
uint32_t bb_write_name(uint8_t code, uint8_t *out, size_t out_len, uint64_t *values, size_t values_len);

/* Script numbers. */

/* How many bytes bb_write_scriptint needs. values, 1 entry: that. Refused: 6. */
uint32_t bb_scriptint_len(int64_t n, uint64_t *values, size_t values_len);
/* Writes a number in the fewest bytes. values, 1 entry: the bytes written. Refused: 6, 7. */
uint32_t bb_write_scriptint(int64_t n, uint8_t *out, size_t out_len, uint64_t *values, size_t values_len);
/* Reads a number of 0 to 4 bytes that is in the writer's form. number, 1 entry: it. Refused: 4, 5. */
uint32_t bb_read_scriptint(const uint8_t *v, size_t v_len, int64_t *number, size_t number_len);
/* Reads any 0 to 4 bytes as a number. number, 1 entry: it. Refused: 4. */
uint32_t bb_read_scriptint_non_minimal(const uint8_t *v, size_t v_len, int64_t *number, size_t number_len);
/* False for all-zero bytes, with or without 0x80 in the last. values, 1 entry: 1 for true, 0 for false. Refused: 1. */
uint32_t bb_read_scriptbool(const uint8_t *v, size_t v_len, uint64_t *values, size_t values_len);

/* The walk. */

/* The cursor at a script's front. values, 1 entry: 0. */
uint32_t bb_cursor_new(uint64_t *values, size_t values_len);
/*
 * What stands at a place. values, 6 entries: the place for the next call, and then BB_END; or BB_OPCODE, place, opcode; or BB_PUSH, place, number of
 * length bytes (0, 1, 2 or 4), place of the body, length of the body. Refused, in this order: 1, 8, 14, 2, 15: the place for the next call (the script's
 * end after 14, 2 and 15, else `at`), then after 14, 2 and 15 where the push starts, and then after 14 and 15 how many bytes are missing.
 */
uint32_t bb_next(const uint8_t *script, size_t script_len, size_t at, uint32_t mode, uint64_t *values, size_t values_len);
/* The body of the push at a place. values, 2 entries: where it lies and its length; 0 and 0 where bb_next gives no push, refusals included. Not refused. */
uint32_t bb_body(const uint8_t *script, size_t script_len, size_t at, uint32_t mode, uint64_t *values, size_t values_len);
/*
 * As bb_next, with the place lent and moved on: cursor, 1 entry, which is then the place for the next call, as the first value is. values, 6 entries: as
 * those of bb_next. Refused: as bb_next; 14, 2 and 15 move the cursor to the script's end, 1 and 8 leave it.
 */
uint32_t bb_advance(uint64_t *cursor, size_t cursor_len, const uint8_t *script, size_t script_len, uint32_t mode, uint64_t *values, size_t values_len);
/*
 * Every instruction's place, into a table. values, 2 entries, the second for refusals 14 and 15 alone: how many. Refused: 1; then 14, 2 or 15, as the walk
 * is, with the push's place and after 14 and 15 how many bytes are missing; then 7 with the entries needed.
 */
uint32_t bb_positions(const uint8_t *script, size_t script_len, uint32_t mode, uint32_t *table, size_t table_len, uint64_t *values, size_t values_len);

/* Templates. Each: values, 1 entry: 1 for yes, 0 for no. Refused: 1. */

uint32_t bb_is_p2sh(const uint8_t *script, size_t script_len, uint64_t *values, size_t values_len);
uint32_t bb_is_p2pkh(const uint8_t *script, size_t script_len, uint64_t *values, size_t values_len);
uint32_t bb_is_witness_program(const uint8_t *script, size_t script_len, uint64_t *values, size_t values_len);
uint32_t bb_is_p2wpkh(const uint8_t *script, size_t script_len, uint64_t *values, size_t values_len);
uint32_t bb_is_p2wsh(const uint8_t *script, size_t script_len, uint64_t *values, size_t values_len);
uint32_t bb_is_p2tr(const uint8_t *script, size_t script_len, uint64_t *values, size_t values_len);
uint32_t bb_is_p2a(const uint8_t *script, size_t script_len, uint64_t *values, size_t values_len);
uint32_t bb_is_p2pk(const uint8_t *script, size_t script_len, uint64_t *values, size_t values_len);
uint32_t bb_is_multisig(const uint8_t *script, size_t script_len, uint64_t *values, size_t values_len);
uint32_t bb_is_op_return(const uint8_t *script, size_t script_len, uint64_t *values, size_t values_len);
uint32_t bb_is_push_only(const uint8_t *script, size_t script_len, uint64_t *values, size_t values_len);

/* The witness version. values, 2 entries: 1 and the version, 0 to 16; or 0 where the script is no witness program. Refused: 1. */
uint32_t bb_witness_version(const uint8_t *script, size_t script_len, uint64_t *values, size_t values_len);
/* Where the key of a P2PK script lies. values, 3 entries: 1, place, length; or 0 for any other script. Refused: 1. */
uint32_t bb_p2pk_key(const uint8_t *script, size_t script_len, uint64_t *values, size_t values_len);
/* Where the last body of a script of pushes alone lies. values, 3 entries: 1, place, length; or 0 for any other script. Refused: 1. */
uint32_t bb_redeem_script(const uint8_t *script, size_t script_len, uint64_t *values, size_t values_len);
/* The part itself. values, 2 entries: place and length; 0 and 0 for nothing and for a script over the limit. Not refused. */
uint32_t bb_p2pk_key_part(const uint8_t *script, size_t script_len, uint64_t *values, size_t values_len);
/* The part itself. values, 2 entries: place and length; 0 and 0 for nothing and for a script over the limit. Not refused. */
uint32_t bb_redeem_part(const uint8_t *script, size_t script_len, uint64_t *values, size_t values_len);
/* Writes the script code of a P2WPKH script. values, 2 entries: 1 and the bytes written; or 0 for any other script. Refused: 1, 7. */
uint32_t bb_p2wpkh_script_code(const uint8_t *script, size_t script_len, uint8_t *out, size_t out_len, uint64_t *values, size_t values_len);
/* The first kind that fits, BB_P2PKH to BB_OTHER. values, 1 entry: that. Refused: 1. */
uint32_t bb_kind(const uint8_t *script, size_t script_len, uint64_t *values, size_t values_len);

/* Signature operations and dust. */

/* Signature operations, as a node counts them in a redeem script. values, 1 entry: the count. Refused: 1. */
uint32_t bb_count_sigops(const uint8_t *script, size_t script_len, uint64_t *values, size_t values_len);
/* The same with 20 for every CHECKMULTISIG. values, 1 entry: the count. Refused: 1. */
uint32_t bb_count_sigops_legacy(const uint8_t *script, size_t script_len, uint64_t *values, size_t values_len);
/* The least amount that is no dust at the default rate. values, 1 entry: satoshi. Refused: 1. */
uint32_t bb_minimal_non_dust(const uint8_t *script, size_t script_len, uint64_t *values, size_t values_len);
/* The same at a rate in satoshi per 1000 weight units. values, 1 entry: satoshi. Refused: 1, 9. */
uint32_t bb_minimal_non_dust_custom(const uint8_t *script, size_t script_len, uint64_t rate, uint64_t *values, size_t values_len);

/* The asm text. */

/* The text's length. values, 1 entry: that. Refused: 1. */
uint32_t bb_asm_len(const uint8_t *script, size_t script_len, uint64_t *values, size_t values_len);
/* Writes the text, without an end mark. values, 1 entry: the bytes written. Refused: 1, 7. */
uint32_t bb_write_asm(const uint8_t *script, size_t script_len, uint8_t *out, size_t out_len, uint64_t *values, size_t values_len);

/*
 * The builder: a script at the front of a buffer. Its state is two numbers, the used length and the opcode that is remembered (BB_NOTHING for none).
 * values, 3 entries: the state for the next call, two entries, and after refusal 7 the whole length that is needed. After a refusal that is the state
 * which the call got (BB_NOTHING for a larger number), and the buffer is as it was.
 */

/* An empty script, nothing remembered. values, 2 entries: 0 and BB_NOTHING. */
uint32_t bb_builder_new(uint64_t *values, size_t values_len);
/* A builder over the first bytes of a buffer. Refused: 1, 13. */
uint32_t bb_builder_start(const uint8_t *buffer, size_t buffer_len, size_t length, uint64_t *values, size_t values_len);
/* Appends an opcode byte. Refused: 1, 13, 1 on what is built, 7. */
uint32_t bb_builder_push_opcode(size_t length, uint32_t remembered, uint8_t *buffer, size_t buffer_len, uint8_t code, uint64_t *values, size_t values_len);
/* Appends a push of the body in the shortest length form. Refused: 1, 13, 1 on what is built, 7. */
uint32_t bb_builder_push_slice(size_t length, uint32_t remembered, uint8_t *buffer, size_t buffer_len, const uint8_t *body, size_t body_len, uint64_t *values, size_t values_len);
/* Appends a number: its opcode for -1 to 16, else a push. Refused: 1, 13, 6, 1 on what is built, 7. */
uint32_t bb_builder_push_int(size_t length, uint32_t remembered, uint8_t *buffer, size_t buffer_len, int64_t n, uint64_t *values, size_t values_len);
/* Appends an absolute lock time as a number. Refused: 1, 13, 1 on what is built, 7. */
uint32_t bb_builder_push_lock_time(size_t length, uint32_t remembered, uint8_t *buffer, size_t buffer_len, uint32_t locktime, uint64_t *values, size_t values_len);
/* Appends a sequence number as a number. Refused: 1, 13, 1 on what is built, 7. */
uint32_t bb_builder_push_sequence(size_t length, uint32_t remembered, uint8_t *buffer, size_t buffer_len, uint32_t sequence, uint64_t *values, size_t values_len);
/* Puts the remembered opcode's verify form in its place, or appends OP_VERIFY. Refused: 1, 13 and, where it appends, 1 on what is built, 7. */
uint32_t bb_builder_push_verify(size_t length, uint32_t remembered, uint8_t *buffer, size_t buffer_len, uint64_t *values, size_t values_len);
/* How many of the buffer's first bytes are the script. values, 1 entry: that; 0 for a builder that a call would refuse. Not refused. */
uint32_t bb_builder_as_bytes(size_t length, uint32_t remembered, const uint8_t *buffer, size_t buffer_len, uint64_t *values, size_t values_len);

/* Writes the script of a witness version and program. values, 1 entry: the bytes written. Refused: 12, 10, 11, 7. */
uint32_t bb_witness_program(uint8_t version, const uint8_t *program, size_t program_len, uint8_t *out, size_t out_len, uint64_t *values, size_t values_len);

/* Writes the inspector's screen of a script; the one line `refused 2800` for more than 2,800 bytes. values, 1 entry: the bytes written. Refused: 7. */
uint32_t bb_inspect(const uint8_t *script, size_t script_len, uint8_t *out, size_t out_len, uint64_t *values, size_t values_len);

#ifdef __cplusplus
}
#endif

#endif
