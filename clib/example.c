/* Checks the program on standard input, and tells the smallest counterexample of each condition that is refuted. */
#include <stdio.h>
#include <stdlib.h>
#include <string.h>

#include "grass.h"

enum { MOST = 1 << 20, ROOM = 1 << 20 };
static unsigned char text[MOST], reply[ROOM];

static void tell(size_t length, uint32_t number) {
    struct grass_ended ended;
    grass_shown(text, length, number, reply, sizeof reply, &ended);
    if (ended.status != GRASS_REFUTED) return;
    unsigned char *picture = memchr(reply, '<', ended.length);
    fwrite(reply, 1, picture ? (size_t)(picture - reply) : ended.length, stdout);
}

int main(void) {
    struct grass_ended ended;
    size_t length = fread(text, 1, sizeof text, stdin);
    grass_answer(GRASS_CHECK, text, length, text, 0, reply, sizeof reply, &ended);
    unsigned status = ended.status;
    fwrite(reply, 1, status == GRASS_NO_ROOM ? 0 : ended.length, stdout);
    grass_conditions(text, length, 0, 0, reply, sizeof reply, &ended);
    for (uint32_t number = 1; number <= ended.count; number++) tell(length, number);
    return (int)status;
}
