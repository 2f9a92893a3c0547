// Lowering RV64 instructions to BTOR2 lines, each with the address of its instruction, joining their edges into flags, and evaluating lines on
// given values, for a host in C. `rt lib` in crates/host writes out/libhost.a there, which defines these functions; it calls memcpy and memset
// and nothing else. What each gives is proved equal to a definition: crates/lowering/specs (Words, All), crates/join/specs (Words),
// crates/evaluation/specs (Evaluation) and crates/host/specs.
//
// All storage is the host's: a function takes a pointer and a length in elements, keeps neither, and allocates nothing. What is in use stands
// first; the elements after it are spare room, and an accepted call writes there, to STATE and to the single numbers that it sets only.
//
// WHAT A CALLER MUST SEE TO, for no function can: everything else is checked and refused by number.
//   A pointer is not NULL, even where its length is 0, and is aligned for its type.
//   It points to at least as many elements as the length says, all of them initialized, spare room too; they take less than 2^63 bytes.
//   Where there is no length, it points to one number, and `dynamics` to LANTHANUMBAT_DYNAMICS of them.
//   No area that a call writes overlaps another of the same call, and no other thread writes to or reads from it meanwhile.
//
// LIST: a line is 5 words, and its place is its index. Word by word:
//   0 from its lowest byte on (lanthanumbat_head makes one):
//     byte 0 kind: 1 const, 2 read, 3 write, 4 add, 5 sub, 6 mul, 7 udiv, 8 sdiv, 9 urem, 10 sll, 11 srl, 12 ult, 13 uext, 14 ite, 15 eq,
//       16 and, 17 or, 18 not, 19 state, 20 next, 21 input, 22 bad
//     byte 1 sort: 1 bit, 2 word of 64 bits, 3 memory, 11 to 17 an input of 1 to 7 bytes (docs/SORTS.md); the sort that uext extends from
//     byte 2 of a state, an input and a bad the name's area: 0 no name, 1 the host's, 2 ours
//     byte 3 two marks, for each of which we write 1: the low half (bits 24 to 27 of the word) is, of a state, not 0 where it has an init; the
//       high half (bits 28 to 31) is, of any line, not 0 where it has an address
//     bytes 4 to 7 identifier
//   1 first operand, as a place; the init of a state; the value of a const
//   2 3 second and third operand, as places; of a state, an input and a bad, which have none, the name's first byte in its area and its length
//   4 of a line that has an address, the address of the instruction that the line was lowered for; else it is not looked at, and we write 0
//   A lowering puts the mark and the address of its call, all 64 bits, on each line that it appends and on no other. A line that a join appends
//   has no address. A line of the start has what the host gave it: it stays as it is, and no check looks at it. What is printed, what a line
//   comes to and what is refused do not depend on the addresses of lines.
// NAMES: bytes of our area: the names of the bad lines that a lowering appends, at most 33 bytes each, and of the states that a join appends,
//   `kernel-mode-pc-flag-` and the address of a syscall in decimal, at most 40 bytes each.
// EDGES: an edge is 4 words: address to, address from, origin (0 regular, 1 branch, 2 syscall), place of the condition or UINT64_MAX.
// DISPATCHES: a dispatch that a lowering gives is 2 words: register, address from. Those that a join is given are not these (see there).
// BADS: a bad is 1 word: the place of a bad line.
// FLAGS: a flag is 2 words: address, place of the line that is 1 where the instruction at that address is done.
// SEQUENTIALS: a sequential is 1 word: the place of a next line.
// VALUES: what a state or an input of sort bit, word or an input's is, 2 words: place of its line, value.
// MEMORY: what a state or an input of sort memory has at an address, 3 words: place of its line, address, word.
//
// STATE: 85 words, which the host makes once for its start and hands from call to call:
//   0 lines in use   1 next identifier   2 bytes of NAMES in use   3 edges   4 dispatches   5 bads in use
//   from 6 on the places that stand for the 79 roles (crates/state):
//   6 7 the bits 0 and 1   8 9 the words 0 and 1   10 memory   11 counter   12 counter maximum   13 to 44 registers x0 to x31
//   45 to 75 flows of x1 to x31   76 flow of memory   77 of counter   78 of counter maximum   79 of division   80 of remainder
//   81 of access   82 of addition overflow   83 of multiplication overflow   84 of ecall
// The host may empty edges, dispatches and bads between calls by setting their counts to 0.
//
// REFUSALS: a function gives 0, or the number of the first refusal that applies, and then changes nothing:
//   1 kind not among the 50   2 a register field that the kind uses is above 31, or imm is outside its format   3 shift amount
//   4 Srliw by 0   5 rd is x0   6 Jalr with an offset under a register   7 no flag of sort bit where one is needed
//   8 no room for what the instruction or the join appends, or more than 1,048,576 lines   9 a count or an identifier too large, a run
//   outside the list, fewer than 85 words of state
//   10 identifiers at the start   11 a line that is not well formed   12 the sort rule   13 a role   14 the output is too short
//   15 an edge whose source has no flag, or a flag, kernel node, dynamic flag or starting flow that is no line with a value of sort bit
//   16 an unknown origin, a branch without a condition of sort bit, a dispatch of x0 or of no register or whose address node is no word
//   17 a line that is visited breaks the sort rule   18 a visit past the 100,000th   19 a list of more than 4,096 lines or above its storage,
//   an unknown kind or sort or an operand that is no earlier line with a value anywhere in it, a line asked for that has no value of sort bit or
//   word
#ifndef LANTHANUMBAT_H
#define LANTHANUMBAT_H

#include <stddef.h>
#include <stdint.h>

#ifdef __cplusplus
extern "C" {
#endif

enum {
    LANTHANUMBAT_LINE = 5,
    LANTHANUMBAT_EDGE = 4,
    LANTHANUMBAT_DISPATCH = 2,
    LANTHANUMBAT_FLAG = 2,
    LANTHANUMBAT_DYNAMICS = 31,
    LANTHANUMBAT_STATE = 85,
    LANTHANUMBAT_CALL = 7,
    LANTHANUMBAT_VALUE = 2,
    LANTHANUMBAT_CELL = 3,
    LANTHANUMBAT_MOST_LINES = 1048576,
    LANTHANUMBAT_BENCH_LINES = 4096,
    LANTHANUMBAT_MOST_VISITS = 100000
};

// A flag that is absent: the largest place, which no list reaches.
#define LANTHANUMBAT_NO_FLAG ((size_t)-1)

// The first word of a line. A number that its field cannot hold becomes the largest that it can, 255 for kind, sort and area and 2^32 - 1 for
// the identifier, which no start that is accepted has. init is 1 for any number but 0, and so is addressed, the mark of a line that has an
// address: the host puts the address into the line's last word. For constants: an argument may be evaluated twice.
#define LANTHANUMBAT_HEAD(identifier, kind, sort, area, init, addressed)                                                             \
    (LANTHANUMBAT_AT_MOST(identifier, 0xffffffffu) << 32 | (uint64_t)((addressed) != 0) << 28 | (uint64_t)((init) != 0) << 24 |      \
     LANTHANUMBAT_AT_MOST(area, 0xffu) << 16 | LANTHANUMBAT_AT_MOST(sort, 0xffu) << 8 | LANTHANUMBAT_AT_MOST(kind, 0xffu))
#define LANTHANUMBAT_AT_MOST(number, most) ((uint64_t)(number) < (most) ? (uint64_t)(number) : (uint64_t)(most))

// The same as a function.
static inline uint64_t lanthanumbat_head(uint64_t identifier, uint64_t kind, uint64_t sort, uint64_t area, uint64_t init,
                                         uint64_t addressed) {
    return LANTHANUMBAT_HEAD(identifier, kind, sort, area, init, addressed);
}

// Lowers one instruction. Refusals 9, 13, 1 to 8. An instruction appends at most 35 lines, 2 edges, a dispatch, or a bad and its name.
//   address         of the instruction, any number of 64 bits; each line that is appended has it, and the other lines stay as they are
//   kind            0 to 49: Lui Auipc Lb Lh Lw Ld Lbu Lhu Sb Sh Sw Sd Addi Sltiu Xori Ori Andi Slli Srli Srai Addiw Slliw Srliw Sraiw
//                   Add Sub Sll Sltu Srl Sra Or And Mul Div Divu Remu Addw Divw Subw Sllw Mulw Beq Bne Blt Bge Bltu Bgeu Jal Jalr Ecall
//   rd, rs1, rs2    registers; a field that the kind does not use is not looked at
//   imm             the immediate as a word of 64 bits, negative ones as two's complement
//   flag            the place of the line under which the instruction is done; LANTHANUMBAT_NO_FLAG where there is none
uint64_t lanthanumbat_lower(uint64_t *list, size_t list_words, uint8_t *names, size_t names_bytes, uint64_t *edges, size_t edges_words,
                            uint64_t *dispatches, size_t dispatches_words, uint64_t *bads, size_t bads_words, uint64_t *state,
                            size_t state_words, uint64_t address, uint64_t kind, uint64_t rd, uint64_t rs1, uint64_t rs2, uint64_t imm,
                            size_t flag);

// Lowers many instructions, one after the other, and stops at the first that is refused: what the accepted ones did stays. The roles are checked
// once, so this is much faster than a call for each. Each line has the address of the call that appended it. Gives how many were accepted.
//   calls           seven words a call: address, kind, rd, rs1, rs2, imm, flag, as above; words at the end that fill no call are not looked at
//   refusal         is set to the number of the refusal of the call at which it stopped, 0 where every call was accepted
size_t lanthanumbat_lower_all(uint64_t *list, size_t list_words, uint8_t *names, size_t names_bytes, uint64_t *edges, size_t edges_words,
                              uint64_t *dispatches, size_t dispatches_words, uint64_t *bads, size_t bads_words, uint64_t *state,
                              size_t state_words, const uint64_t *calls, size_t calls_words, uint64_t *refusal);

// Joins one address's edges, then its dispatches, each in the order given, into a flow. Refusals 9, 13, 15, 16, 8, each over the whole call before
// the next; a refused call changes nothing. Where the bits 0 and 1 have these values, the new flow is 1 exactly where the starting flow is or
// one of the edges and dispatches is active: an edge where the flag of its source is 1, and for a branch its condition too; a syscall edge where
// the state that it appends and `none` are 1; a dispatch where the dynamic flag of its register is 1 and the register equals the address node.
// An edge appends at most 5 lines, a dispatch at most 3; a syscall edge also takes a sequential and at most 40 bytes of NAMES. A flow that is at
// the bit 0's own place is replaced without an ite; without edges and dispatches nothing is appended. The lines that are appended have no address,
// since they are no instruction's: their mark and their last word are 0. No role changes, and how many edges, dispatches and bads are in use by
// STATE does not matter.
// The cost is linear in the edges times the flags: give the flags that the edges need, not all there are.
//   sequentials     get the place of the next line of each syscall edge
//   edges           as a lowering gives them, those that lead to the address; `address to` is not read, and a condition only of a branch
//   dispatches      2 words each: register, PLACE of the address node, a line of sort word with the address that is joined. A lowering gives
//                   the address from as the second word: that is no place, and its dispatches must not be handed on as they are
//   flags           the first for an address counts, but all must be lines with a value of sort bit
//   dynamics        31 places without a length: the dynamic flags of x1 to x31, which are 1 where a jump to that register's value is done
//   count, dispatched, flagged    how many edges, dispatches and flags are given
//   mode, none      the places of the node that is 1 in kernel mode, and of the one that is 1 outside it
//   used            how many sequentials are in use, and is set to how many are then
//   flow            the place of the starting flow, and is set to that of the new one
uint64_t lanthanumbat_join(uint64_t *list, size_t list_words, uint8_t *names, size_t names_bytes, uint64_t *sequentials,
                           size_t sequentials_words, uint64_t *state, size_t state_words, const uint64_t *edges, size_t edges_words,
                           const uint64_t *dispatches, size_t dispatches_words, const uint64_t *flags, size_t flags_words,
                           const uint64_t *dynamics, size_t count, size_t dispatched, size_t flagged, size_t mode, size_t none,
                           size_t *used, size_t *flow);

// Prints a run of lines as BTOR2 at the output's start, without their addresses. Refusals 9, 11 (both over the whole list), 14.
//   lines           how many lines the list has
//   host, ours      the areas of the names, as 1 and 2 in a named line's first word
//   from, count     the first place of the run, and how many lines it has
//   written         is set to the bytes of the text, 0 where the call is refused
// It is fastest with an output of 53 bytes for each line of the run, and for each line of the list that has a name its length and 10 more.
uint64_t lanthanumbat_print(const uint64_t *list, size_t list_words, size_t lines, const uint8_t *host, size_t host_bytes,
                            const uint8_t *ours, size_t ours_bytes, size_t from, size_t count, uint8_t *out, size_t out_bytes,
                            uint64_t *written);

// Checks a start that the host made. Refusals 9 to 13. Of names, edges, dispatches and bads only the lengths matter, and the addresses of lines
// do not.
//   host            the host's area of names
uint64_t lanthanumbat_check_start(const uint64_t *list, size_t list_words, const uint8_t *host, size_t host_bytes, const uint8_t *names,
                                  size_t names_bytes, const uint64_t *edges, size_t edges_words, const uint64_t *dispatches,
                                  size_t dispatches_words, const uint64_t *bads, size_t bads_words, const uint64_t *state,
                                  size_t state_words);

// Evaluates the line at place `asked` on given values: BTOR2's operators, and for states and inputs what VALUES and MEMORY say; no init and no
// next is used. Refusals 19, then 18 and 17 in the order of the visits. Nothing but `value` and `visits` is written, and a refused call leaves
// both as they were. Names, identifiers and addresses are not read, so that a list may have any.
// A visit is one look at a line. There is no memory of earlier ones, so that a line that two others name is visited twice with all that it
// names. Operands are visited in printed order, all of them, but of an ite the condition and then the chosen branch, of a read or a write the
// address before the memory, and of a write the value only where its address is the one that is asked for, else its memory.
// Before the first visit the whole list is checked. A visit of a state or an input then goes through VALUES or MEMORY up to the first record for
// it: give the records that the line needs.
// A visit waits on the stack for those of its operands, with up to 272 bytes in a build for x86-64: 4,096 lines, each of which waits for the one
// before, take 1.12 MB. Have 2 MB for a call, or 500 bytes for each line and 8 KB: too little stack is no refusal.
//   list, lines     the list, and how many of its lines count, at most LANTHANUMBAT_BENCH_LINES: of a longer one those up to the line asked for do
//   values          the first record for a line counts, 0 where there is none; a value is taken modulo 2 to the width of the line's sort
//   memory          the first record for a line and an address counts, 0 where there is none
//                   a record for another line has no effect; words at the end that fill no record are not looked at
//   asked           the place of a line with a value of sort bit or word
//   value, visits   are set to the line's value and to the number of visits, at most LANTHANUMBAT_MOST_VISITS
uint64_t lanthanumbat_evaluate(const uint64_t *list, size_t list_words, size_t lines, const uint64_t *values, size_t values_words,
                               const uint64_t *memory, size_t memory_words, size_t asked, uint64_t *value, uint64_t *visits);

// Tells which instruction a line was lowered for. Where `place` is one of the first `lines` places, the list's words reach over its line, and the
// line has an address, it gives 1 and sets `address` to it. Else it gives 0 and leaves `address` as it was. It refuses nothing.
//   list, lines     the list, and how many lines it has
//   place           of the line
//   address         is set to the address of the line's instruction
uint64_t lanthanumbat_address(const uint64_t *list, size_t list_words, size_t lines, size_t place, uint64_t *address);

#ifdef __cplusplus
}
#endif

#endif
