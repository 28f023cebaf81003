/* grass.h: the verifier of list programs as a library.
 *
 *     unsigned char reply[65536];
 *     struct grass_ended ended;
 *     grass_answer(GRASS_CHECK, text, length, 0, 0, reply, sizeof reply, &ended);
 *
 * A text is bytes and their count; it is read, and never kept. A reply goes into the caller's bytes, and nobody else
 * owns or frees anything. All lengths are in bytes. `ended.length` is the length of the reply; if that is more than the
 * room (status GRASS_NO_ROOM), nothing is written, and the same call with room for so many bytes answers. If memory
 * runs out, the status is GRASS_OUT_OF_MEMORY, and the next call begins afresh. Calls share nothing, so threads may
 * call at the same time, each with a reply and an `ended` of its own. No call reads or writes a file.
 */
#ifndef GRASS_H
#define GRASS_H

#include <stddef.h>
#include <stdint.h>

#ifdef __cplusplus
extern "C" {
#endif

/* Statuses: those of the program grass. */
enum grass_status {
    GRASS_DONE = 0,          /* verified, accepted or listed */
    GRASS_REFUTED = 1,
    GRASS_NO_MODE = 2,
    GRASS_TEXT_REFUSED = 4,  /* the text: too long, no program, a broken rule, a limit */
    GRASS_OTHER_REFUSED = 5, /* the log or the drawing, or there is no condition of this number */
    GRASS_NO_ROOM = 6,
    GRASS_OUT_OF_MEMORY = 7
};

enum grass_mode {
    GRASS_CHECK = 0,
    GRASS_SMALLEST = 1,
    GRASS_PATHS = 2,
    GRASS_LOG = 3,
    GRASS_ENTAIL = 4,  /* the text is a question */
    GRASS_RECHECK = 5, /* the other text is a proof log */
    GRASS_REPLAY = 6   /* the other text is a drawing */
};

struct grass_ended {
    uint32_t status;
    uint32_t count; /* of grass_conditions: how many conditions the program has */
    size_t length;
};

/* What `grass MODE` answers. `other` is the second text of a mode that has two, else it may be empty. */
void grass_answer(uint32_t mode, const unsigned char *text, size_t length, const unsigned char *other,
                  size_t other_length, unsigned char *reply, size_t room, struct grass_ended *ended);

/* A line for each of at most `most` conditions after the first `skip`, in their order:
 * `valid: condition N, DESCRIPTION at LINE:COLUMN` or `refuted: ..`. */
void grass_conditions(const unsigned char *text, size_t length, uint32_t skip, uint32_t most, unsigned char *reply,
                      size_t room, struct grass_ended *ended);

/* The smallest counterexample of a condition, by its number from 1: its story and, from the first `<` on, its picture
 * (SVG). Where the condition is valid, the status is GRASS_DONE and the reply is empty. */
void grass_shown(const unsigned char *text, size_t length, uint32_t number, unsigned char *reply, size_t room,
                 struct grass_ended *ended);

#ifdef __cplusplus
}
#endif

#endif
