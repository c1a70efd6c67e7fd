/* The proved verifier and machine for C callers: link target/staticlib/libexports.a, which
   `./hveitmar build` writes. docs/LAW.md says what the numbers mean.

   All calls take any bytes, always come to an end and keep nothing. None writes but hveitmar_run and
   hveitmar_take, into the bytes that are lent for it, and hveitmar_fill, into the bundle's pair bytes. */
#ifndef HVEITMAR_H
#define HVEITMAR_H

#include <stddef.h>
#include <stdint.h>

#ifdef __cplusplus
extern "C" {
#endif

/* Judges the bundle in these bytes. The functions below take the number apart. */
uint64_t hveitmar_verdict(const uint8_t *bundle, size_t length);

/* Judges the bundle under a lock order: the list has a level for each class, eight bytes. As
   hveitmar_verdict, and at each monitorenter every other reference of the row that owes a release
   must be of a strictly higher level than what is taken. */
uint64_t hveitmar_ordered(const uint8_t *bundle, size_t length, const uint8_t *levels,
                          size_t level_count);

/* Works the pairs of the bundle out and writes them: dip and end of every reference in use, the least
   that the verifier accepts. What stood in their place is not looked at, and no other byte changes. The
   number is taken apart as a verdict is: 0; 1 to 8, pair bytes aside; 23 where a record shares a byte
   with another or with the directory; 22 where no pairs would do. With a refusal no byte changes. */
uint64_t hveitmar_fill(uint8_t *bundle, size_t length);

/* All answers of a schedule from the fresh machine, mixed into one number: each answer is added
   to 31 times what was there, modulo 2^32, and the first is the fresh machine's own. A step is
   one byte: the low four bits are the thread, the top bit says that an allocation fails. */
uint64_t hveitmar_digest(const uint8_t *bundle, size_t length, const uint8_t *schedule, size_t steps);

/* The same of steps of any thread number: threads[i], and fails[i] is 1 where an allocation
   fails, else 0; past the end of fails it is 0. */
uint64_t hveitmar_answers(const uint8_t *bundle, size_t length, const uint8_t *threads, size_t steps,
                          const uint8_t *fails, size_t flags);

/* A class's record: its offset in the low half, its length in the upper one. Both are 0 where
   there is no such class, or the bundle draws one of the verdicts 1 to 6. */
uint64_t hveitmar_record(const uint8_t *bundle, size_t length, uint8_t class_number);

/* How many objects a thread holds in a state, told by its held word. A state is 2,537 bytes, as
   the program hveitmar_trace takes it. HVEITMAR_NO_STATE is given where the bytes are none; else
   hveitmar_held_answer and hveitmar_held_number take the number apart. */
uint32_t hveitmar_held(const uint8_t *bundle, size_t length, const uint8_t *state, size_t state_length,
                       uint8_t thread);

#define HVEITMAR_NO_STATE UINT32_C(0xFFFF0000)

/* What a step of this thread would meet after a schedule from the fresh machine, whatever it would
   answer; the schedule is that of hveitmar_digest. 0 is given where the thread does not live; else
   hveitmar_opcode, hveitmar_operand, hveitmar_address and hveitmar_object take the number apart. */
uint64_t hveitmar_meets(const uint8_t *bundle, size_t length, const uint8_t *schedule, size_t steps,
                        uint8_t thread);

/* Runs a schedule on a bundle that is accepted, from the fresh machine. The bundle is judged once. A
   step is one byte: the low three bits are the thread, the top bit says that an allocation fails, the
   others say nothing. Steps that answer 3, 4 or 5 are passed over; no other answer arises.
   hveitmar_run_answer is 0 where it was run, 19 where the bundle is refused and nothing was run, 24
   where out has fewer than HVEITMAR_STATE_BYTES and nothing was judged or run.
   With 0 and 19 the first HVEITMAR_STATE_BYTES of out are the last state, as the program
   hveitmar_trace takes it; with 19 it has no live thread and no object, and all are 0. All other
   bytes of out stay as they are. out must not overlap what is lent for reading, bundle and
   schedule. */
uint64_t hveitmar_run(const uint8_t *bundle, size_t length, const uint8_t *schedule, size_t steps,
                      uint8_t *out, size_t out_length);

#define HVEITMAR_STATE_BYTES 2537

/* Reads the usage in these bytes, such as L.L.(^L.0*^L.0). hveitmar_number, hveitmar_dip,
   hveitmar_end and hveitmar_reliable take the number apart. */
uint64_t hveitmar_usage(const uint8_t *text, size_t length);

/* Takes a method from a class file: reads its Code attribute, which begins with the index of its name,
   and writes a record's instructions into out, four bytes each. The classes are indices of the constant
   pool, two bytes each, the upper one first; the first eight are read, and a class number is the first
   place of its index. hveitmar_take_answer is 0, or refused: 30 to 34. The rest of out stays as it is,
   and on a refusal all does. */
uint64_t hveitmar_take(const uint8_t *attribute, size_t length, const uint8_t *classes,
                       size_t classes_length, uint8_t *out, size_t out_length);

/* Of a verdict 0: accepted; 1 to 10: refused; under a lock order also 25: a lock is taken out of
   order, and 26: there are not eight levels. Of pairs 0: written; 1 to 8, 22 and 23: refused. Of a
   usage 0: read; 40 to 43: refused. */
static inline unsigned hveitmar_number(uint64_t verdict) { return verdict & 0xFF; }

/* The class of a refusal; of an accepted bundle, how many classes it has. */
static inline unsigned hveitmar_class(uint64_t verdict) { return verdict >> 8 & 0xFF; }

/* The address of a refusal, from 1; of what is met, the instruction's address field; 0 where there
   is none. */
static inline unsigned hveitmar_address(uint64_t verdict) { return verdict >> 16 & 0xFFFF; }

/* Why a rule fails, 0 to 3; with every verdict but 9 it is 0. */
static inline unsigned hveitmar_why(uint64_t verdict) { return (unsigned)(verdict >> 32); }

/* 0, or refused as a step is: 17, 18 or 5. */
static inline unsigned hveitmar_held_answer(uint32_t held) { return held >> 8; }

/* How many objects, 0 to 32; of a refusal 0. */
static inline unsigned hveitmar_held_number(uint32_t held) { return held & 0xFF; }

/* The number of the instruction that is met, 1 to 14. */
static inline unsigned hveitmar_opcode(uint64_t met) { return met & 0xFF; }

/* Its operand. */
static inline unsigned hveitmar_operand(uint64_t met) { return met >> 8 & 0xFF; }

/* The object whose lock monitorenter takes or monitorexit gives back, 0 to 31; else -1. */
static inline int hveitmar_object(uint64_t met) { return (int)(met >> 32) - 1; }

/* 0, 19 or 24. */
static inline unsigned hveitmar_run_answer(uint64_t run) { return run & 0xFF; }

/* How many steps answered 0, 1 or 2, where the answer is 0. */
static inline uint64_t hveitmar_run_steps(uint64_t run) { return run >> 8; }

/* The bundle's verdict, where the answer is 19. */
static inline uint64_t hveitmar_run_verdict(uint64_t run) { return run >> 8; }

/* 0, or 30 to 34. */
static inline unsigned hveitmar_take_answer(uint64_t taken) { return taken & 0xFF; }

/* How many instructions were written; of a refusal, the first offender's offset in the code. */
static inline uint32_t hveitmar_take_number(uint64_t taken) { return (uint32_t)(taken >> 32); }

/* How far below its present count a thread may go, 0 to 63; of a refusal 0. */
static inline unsigned hveitmar_dip(uint64_t usage) { return usage >> 8 & 0xFF; }

/* The highest net change at the end, -63 to 63; of a refusal 0. */
static inline int hveitmar_end(uint64_t usage) { return (int)(usage >> 16 & 0xFF) - 64; }

/* 1 if the usage is safe for an object that the thread does not hold, else 0. */
static inline int hveitmar_reliable(uint64_t usage) { return usage >> 24 & 1; }

#ifdef __cplusplus
}
#endif

#endif
