/* The proved gate for weavers in C: link target/staticlib/libgate.a, which `./hveitmar build` writes.
   docs/LAW.md says what the numbers mean. */
#ifndef HVEITMAR_GATE_H
#define HVEITMAR_GATE_H

#include <stddef.h>
#include <stdint.h>

#ifdef __cplusplus
extern "C" {
#endif

/* Takes one to eight classes, works out their pairs, checks the whole, and writes the finished bundle
   into out: records in class order, directory, trailer. The verifier accepts what is written, and its
   instructions are the ones given. exception is the class of what is thrown. Each slice has all classes
   one after the other:

     directory     six bytes a class: how many arguments, variables, stack places and fields it has, and
                   in two bytes, the high one first, how many instructions;
     descriptors   a byte for each argument and then for each field: 255 is an integer, another number a
                   class;
     instructions  four bytes each: opcode, operand, and in two the address field;
     kinds         for each row two bytes, kind and class, of each variable and then of each stack place
                   from the top; both are 0 where a place is not in use;
     depths        a byte for each row: how many stack places are in use.

   It takes any bytes and numbers, always comes to an end and keeps nothing. Nothing is written but the
   bundle; with a refusal, nothing is. out must not overlap the five slices. A call takes some 140,000
   bytes of stack. */
uint64_t hveitmar_gate(uint32_t classes, uint32_t exception, const uint8_t *directory,
                       size_t directory_length, const uint8_t *descriptors, size_t descriptors_length,
                       const uint8_t *instructions, size_t instructions_length, const uint8_t *kinds,
                       size_t kinds_length, const uint8_t *depths, size_t depths_length, uint8_t *out,
                       size_t out_length);

/* 0: written. 27: there are not one to eight classes, or a slice is not as long as they and their
   numbers ask; then 1, 3, 4, 6, 7, 8: as the verifier refuses; 22: no pairs make it accept; 24: out is
   too short. */
static inline unsigned hveitmar_gate_number(uint64_t gate) { return gate & 0xFF; }

/* The class that 4, 6, 7 and 8 name; with 0, how many classes there are. */
static inline unsigned hveitmar_gate_class(uint64_t gate) { return gate >> 8 & 0xFF; }

/* The address that 7 and 8 name, from 1; else 0. */
static inline unsigned hveitmar_gate_address(uint64_t gate) { return gate >> 16 & 0xFFFF; }

/* How many bytes are written; of a refusal 0. */
static inline size_t hveitmar_gate_length(uint64_t gate) { return (size_t)(gate >> 32); }

#ifdef __cplusplus
}
#endif

#endif
