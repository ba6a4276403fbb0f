/*
 * Muckposy for C: the six operations of the proved library, as the archive has them.
 *
 * The archive is for x86-64 Linux; it calls memcpy and memset and nothing else. Link it as any static library:
 *
 *     cc -I include service.c lib/libmuckposy.a
 *
 * Texts and rooms are lent as a pointer and a length, for the time of the call alone. What is lent:
 *
 *   - A pointer is to as many elements as its length says, and to whole numbers where they are numbers. Where the
 *     length is 0 nothing is read or written, but give a pointer that is not null.
 *   - What is written, a room or an output, is lent to that one parameter alone, and nobody else uses it meanwhile.
 *
 * Nothing else is asked of a caller: every operation takes any bytes and any numbers. There is no state and no
 * allocation, so threads may call at once. An operation takes up to 112 KiB of the caller's stack: give threads 256.
 */

#ifndef MUCKPOSY_H
#define MUCKPOSY_H

#include <stddef.h>
#include <stdint.h>

#ifdef __cplusplus
extern "C" {
#endif

/* How many numbers a room has. */
#define MUCKPOSY_ROOM_NUMBERS 16384

/* No written policy is longer, in bytes. */
#define MUCKPOSY_RESULT_BYTES 6144

/* Why a call was refused. Of several that apply, the lowest number is given. */
enum muckposy_reason {
    MUCKPOSY_ROOM_LENGTH = 1,       /* a room is not 16,384 numbers long */
    MUCKPOSY_POLICY_TOO_LONG = 2,   /* the policy is longer than 16,384 bytes */
    MUCKPOSY_POLICY_NOT_JSON = 3,   /* the policy is not a JSON text in UTF-8 */
    MUCKPOSY_POLICY_LAYOUT = 4,     /* the policy is JSON, but not laid out as a policy */
    MUCKPOSY_POLICY_LIMIT = 5,      /* the policy has more or longer parts than the limits let it have */
    MUCKPOSY_ROOM_CONTENT = 6,      /* a room holds something that cannot come from this policy */
    MUCKPOSY_RECORD_TOO_LONG = 7,   /* the record is longer than 8,192 bytes */
    MUCKPOSY_RECORD_NOT_JSON = 8,   /* the record is not a JSON text in UTF-8 */
    MUCKPOSY_RECORD_LAYOUT = 9,     /* the record is JSON, but not laid out as a record or over a limit */
    MUCKPOSY_NOTHING_ALLOWED = 10,  /* the log leaves no Allow statement to write */
    MUCKPOSY_RESULT_TOO_LONG = 11,  /* the written policy would be longer than 6,144 bytes */
    MUCKPOSY_OUTPUT_TOO_SHORT = 12  /* the output is too short for the written policy */
};

/* What a policy says of a record. */
enum muckposy_outcome {
    MUCKPOSY_ALLOWED = 1,           /* an Allow statement matches and no Deny statement does */
    MUCKPOSY_EXPLICITLY_DENIED = 2, /* a Deny statement matches */
    MUCKPOSY_IMPLICITLY_DENIED = 3  /* no statement matches */
};

/* What every operation answers. A refused call has changed nothing that was lent. */
typedef struct muckposy_reply {
    uint64_t number;   /* 0 where the call was done, otherwise enum muckposy_reason */
    size_t place;      /* for 3 and 8 how many bytes of the text could still begin a JSON text; otherwise 0 */
    uint64_t decision; /* decide and feed: enum muckposy_outcome; otherwise, and where refused, 0 */
    size_t detail;     /* decide and feed: the first statement that decides, counted from 1, or 0 where none does;
                          finish and restate: how many bytes were written; otherwise, and where refused, 0 */
} muckposy_reply;

/* What the policy decides on a record. Refused by 2 to 5 and 7 to 9. */
muckposy_reply muckposy_decide(const uint8_t *policy, size_t policy_length,
                               const uint8_t *record, size_t record_length);

/* Decides on a record and, where the policy allows it, charges it to the room. Refused by 1 to 9. */
muckposy_reply muckposy_feed(const uint8_t *policy, size_t policy_length,
                             const uint8_t *record, size_t record_length,
                             uint32_t *room, size_t room_length);

/* Takes what another room of the same policy holds into the first. Refused by 1 to 6, on account of either room. */
muckposy_reply muckposy_join(const uint8_t *policy, size_t policy_length,
                             uint32_t *room, size_t room_length,
                             const uint32_t *other, size_t other_length);

/* Writes the refined policy to the output's first bytes, with no zero behind it. Refused by 1 to 6 and 10 to 12. */
muckposy_reply muckposy_finish(const uint8_t *policy, size_t policy_length,
                               const uint32_t *room, size_t room_length,
                               uint8_t *output, size_t output_length);

/* Writes the policy as it is, in the form in which finish writes. Refused by 2 to 5, 11 and 12. */
muckposy_reply muckposy_restate(const uint8_t *policy, size_t policy_length,
                                uint8_t *output, size_t output_length);

/* Makes a room empty, whatever it held: all zeros. Refused by 1. */
muckposy_reply muckposy_fresh(uint32_t *room, size_t room_length);

#ifdef __cplusplus
}
#endif

#endif
