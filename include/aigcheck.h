/* aigcheck over memory: the judge of circuits with certificates and stimuli, as a static library (crates/aigcheck_c).
 *
 * Texts are bytes with a length; they may hold any bytes and need no end. None is kept after the call. A call takes memory by
 * malloc, realloc and free, and gives it back before it returns. Two calls may run at the same time.
 *
 * What each call ensures is proved of the library (crates/aigcheck_c/src/lib.rt has it as contracts), but when AIGCHECK_NONE comes, which is tested
 * alone. What a caller has to see to, since nothing checks it: each pointer is of as many bytes as its length says, which no other call writes
 * meanwhile; `line` is of `room` bytes that are the caller's alone; `count` points to a size_t; and malloc aligns as C wants it. A pointer is not null,
 * also where its length is 0.
 */
#ifndef AIGCHECK_H
#define AIGCHECK_H

#include <stddef.h>
#include <stdint.h>

#ifdef __cplusplus
extern "C" {
#endif

/* The room that is enough for each line. */
#define AIGCHECK_ROOM 32

/* What the calls answer. */
#define AIGCHECK_YES 0
#define AIGCHECK_NO 1
#define AIGCHECK_NONE 3

/* Whether the certificate (docs/CERTIFICATE.md) is accepted for the circuit (AIGER 1.9, binary where its second byte is `i`, else ASCII).
 *
 * AIGCHECK_YES: the bytes of `circuit` spell a circuit and those of `certificate`, to their end, a certificate that is accepted for it. The first
 *   *count bytes of `line` are "yes safe P\n", where P is the property that the certificate names: no run of that circuit which keeps its constraints
 *   sets that bad literal, or the output that is taken as one, at any time or, for a justice property, holds more rounds of it than the circuit has states.
 * AIGCHECK_NO: there is a reason for which they are not, and the bytes are "no NUMBER\n" with its number (docs/FAULTS.md). Nothing is said of the property.
 *   A certificate that is accepted by the definition never gets this answer.
 * AIGCHECK_NONE: memory was refused, or `room` is less than the line has bytes (AIGCHECK_ROOM is enough). *count is 0.
 */
uint8_t aigcheck_safe(const uint8_t *circuit, size_t circuit_length, const uint8_t *certificate, size_t certificate_length,
                      uint8_t *line, size_t room, size_t *count);

/* Whether the stimulus shows its violation in the circuit; as above, with the line "yes run P\n": the one replay of the stimulus is a run of the circuit
 * that keeps its constraints, and sets the bad literal, or the output that is taken as one, at its last time, or closes a lasso in which each wanted literal is set.
 * A stimulus that shows it never gets AIGCHECK_NO.
 */
uint8_t aigcheck_run(const uint8_t *circuit, size_t circuit_length, const uint8_t *stimulus, size_t stimulus_length,
                     uint8_t *line, size_t room, size_t *count);

#ifdef __cplusplus
}
#endif

#endif
