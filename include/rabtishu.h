/*
 * rabtishu.h: the C interface of Rabtishu, a compiler from ABC-VHDL to cycle tables for countdown boards.
 *
 * The functions are those of crates/api_c, proved to meet contracts by the definitions in crates/spec_interface/specs/CInterface.antt.
 * `rt lib` in crates/api_c proves and builds the library, crates/api_c/out/libapi_c.a; `./install` installs it as librabtishu.a, with this header and a
 * file for pkg-config.
 * No function allocates memory, keeps anything between calls, reads or writes a file, or fails in another way than by its answer.
 *
 * What a call is lent
 *   text, image     n bytes; a text has no ending 0
 *   inputs          ni numbers, one for each data input (the clock is none) in the order of the text; in rabtishu_cycles so many for each row, end to end
 *   outputs         no numbers, one for each output; in rabtishu_cycles so many for each row, end to end
 *   state           49 numbers: the place, 16 output slots, 32 variable slots
 *   answer          3 numbers: the refusal's number or 0; its place or 0; a count
 *   answers         na numbers: three for each row of rabtishu_cycles, those that rabtishu_cycle answers
 * Each pointer with a length must point to that many elements; state and answer must point to 49 and 3. Each must be aligned for its type.
 * All memory that is lent must be initialised: the proofs speak of memory that holds numbers. Read in fact are text and inputs in every call, image in
 * rabtishu_open, rabtishu_fresh, rabtishu_cycle and rabtishu_cycles, and state in rabtishu_cycle, rabtishu_cycles and rabtishu_direct; all else is only
 * written.
 * What is written (image, outputs, state, answers, answer) must not overlap anything else that the call is lent.
 * A length of 0 is fine; nothing is then read or written through its pointer, which may be NULL.
 *
 * What a call writes
 *   answer is written by every call. Nothing else is written where answer[0] is not 0.
 *   An accepted compile writes the image's own bytes, the first answer[2] of the buffer, and no other.
 *   rabtishu_cycles, where answer[0] is 0, writes all of answers, and what its rows would write singly: a row that is refused leaves its own part of the
 *   outputs and the state as they were before it; the state is not written at all if every row is refused.
 *
 * The state's place is 512 for the beginning, else the line of a wait. It is a full 32-bit number: a place outside 0 to 65535 is refused as any
 * other wrong place is. Unused slots are 0, a std_logic slot is 0 or 1.
 *
 * Refusals, in the order in which a call comes to them; within one number the lowest place is told, and 3 and 4 are one stage
 *    No  given for                                                        place
 *     1  text longer than 16384 bytes                                     0
 *     2  byte that begins no token, malformed word                        its first byte
 *     3  no sentence                                                      first token that cannot continue, or the text's length
 *     4  limit passed                                                     token that passes it
 *     5  name unknown, declared twice, of the wrong kind, output read     that name
 *     6  wrong type                                                       operator, target, `if`, `while`, or value
 *     7  output or variable group without value                           its first name
 *     8  wrong clock                                                      that name
 *     9  wrong class of a while's body or of the process body             `while`; `process`
 *    10  image buffer too short                                           bytes needed
 *    11  image: form, count, pairs, length, lines section                 0
 *    12  image: signature                                                 0
 *    13  image: lines or code                                             lowest bad line, or the line count
 *    17  many rows: a length that is not the count's due                  0
 *    14  input or output row of a wrong length; wrong input value         0; its index
 *    15  place or slot of the state                                       0
 *    16  result of +, -, *, / or sign outside integer                     its line
 *    18  zero divisor of /, mod or rem                                    its line
 * 16 and 18 are one stage: the operator that is reached first is told.
 * Places of 1 to 9 are byte offsets of the text. Every place and every count is at most 65535 and is told as it is.
 *
 * Stack: rabtishu_compile, rabtishu_direct_fresh and rabtishu_direct keep their arrays on the stack of the caller's thread, about 230,000 bytes; every
 * call has been run on the largest texts and images in a stack of 1 MiB.
 */
#ifndef RABTISHU_H
#define RABTISHU_H

#include <stddef.h>
#include <stdint.h>

#ifdef __cplusplus
extern "C" {
#endif

/* A text to its image in a buffer of `room` bytes. Refusals 1 to 10; the count is the number of image bytes. A buffer of exactly that length is enough. */
void rabtishu_compile(const uint8_t *text, size_t n, uint8_t *image, size_t room, uint32_t answer[3]);

/* Checks an image, whatever its bytes are. Refusals 11 to 13; the count is 0. */
void rabtishu_open(const uint8_t *image, size_t n, uint32_t answer[3]);

/* The fresh state of an image: place 512 and the initial values. Refusals 11 to 13; the count is 0. */
void rabtishu_fresh(const uint8_t *image, size_t n, int32_t state[49], uint32_t answer[3]);

/* One cycle on an image: the state advances, and the output row gets all outputs. Refusals 11 to 16 and 18; the count is the number of lines performed,
 * the wait that the cycle ends on included. The image is checked in every call. */
void rabtishu_cycle(const uint8_t *image, size_t n, int32_t state[49], const int32_t *inputs, size_t ni, int32_t *outputs, size_t no,
                    uint32_t answer[3]);

/* Many cycles on an image that is checked once: `count` rows, each from the state that the row before it left, on its own part of inputs and outputs.
 * What is left equals what `count` calls of rabtishu_cycle leave, one for each row.
 * Refusals of the call are 11 to 13, then 17 unless ni is count times the data inputs, no is count times the outputs and na is 3 times count, as exact
 * products, however large count is. A refused call writes nothing but answer, also where count is 0. The count in answer[2] is 0.
 * In a call that is taken each row has three numbers in its own part of answers: the refusal's number or 0, its place or 0, the lines performed or 0.
 * Refusals of a row are 14 (its values only, the place being the index in its own row), 15, 16 and 18; the rows behind it follow all the same.
 * A count of 0 with lengths 0 is taken and writes nothing but answer. Memory as for the others: inputs, outputs and answers are aligned for their types,
 * may be NULL where their length is 0, and neither outputs nor answers overlap anything else. */
void rabtishu_cycles(const uint8_t *image, size_t n, int32_t state[49], size_t count, const int32_t *inputs, size_t ni, int32_t *outputs, size_t no,
                     uint32_t *answers, size_t na, uint32_t answer[3]);

/* The fresh state of a text, without an image. Refusals 1 to 9; the count is 0. */
void rabtishu_direct_fresh(const uint8_t *text, size_t n, int32_t state[49], uint32_t answer[3]);

/* One cycle from a text, without an image; the text is read in every call. Refusals 1 to 9, 14 to 16 and 18; the count is as for rabtishu_cycle. */
void rabtishu_direct(const uint8_t *text, size_t n, int32_t state[49], const int32_t *inputs, size_t ni, int32_t *outputs, size_t no,
                     uint32_t answer[3]);

/* The length of the token that starts at a place of a text, or 0 where none starts: for 1 to 9, the token is text[place .. place + length]. */
size_t rabtishu_token_at(const uint8_t *text, size_t n, size_t place);

#ifdef __cplusplus
}
#endif

#endif
