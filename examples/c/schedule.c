/*
 * Builds a schedule record by record, takes it apart again, and writes its bytes to standard output:
 *     target/c/schedule | ./play --explain
 * Each call is its kind and its numbers; the library knows how they stand in bytes. A writer opens record 0, is granted, lets go, and the
 * record's word is shown.
 */
#include <stdio.h>
#include "brancove.h"

static const struct call {
    uint64_t kind, first, second, third;
} calls[] = {
    {BRANCOVE_KIND_OPEN, 0, BRANCOVE_WRITER, 0}, /* record, mode */
    {BRANCOVE_KIND_STEP, 0, 0, 0},               /* slot */
    {BRANCOVE_KIND_RELEASE, 0, 0, 0},            /* slot */
    {BRANCOVE_KIND_SHOW, 0, 0, 0},               /* record */
};
enum { COUNT = sizeof calls / sizeof *calls };

int main(void) {
    uint8_t bytes[64];
    size_t length = 0, place = 0;
    for (int i = 0; i < COUNT; i++) {
        brancove_placed put = brancove_schedule_write(bytes, sizeof bytes, length, calls[i].kind, calls[i].first, calls[i].second, calls[i].third);
        if (put.number != BRANCOVE_ACCEPTED) {
            fprintf(stderr, "schedule: call %d is refused with %d\n", i + 1, put.number);
            return 1;
        }
        length = put.place;
    }
    for (int i = 0; i < COUNT; i++) {
        brancove_standing at = brancove_schedule_read(bytes, length, place);
        if (at.number != BRANCOVE_ACCEPTED || at.kind != calls[i].kind || at.first != calls[i].first || at.second != calls[i].second || at.third != calls[i].third) {
            fprintf(stderr, "schedule: call %d does not come back\n", i + 1);
            return 1;
        }
        place = at.next;
    }
    if (brancove_schedule_read(bytes, length, place).kind != BRANCOVE_KIND_NONE) /* the end stands there */
        return 1;
    return fwrite(bytes, 1, length, stdout) != length;
}
