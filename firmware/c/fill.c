/*
 * What the header's own functions do, without the library. gondzselu_fill_.. against RULES 3.3 and
 * 5: every step with present numbers, then with numbers that would wrap into present ones; and
 * gondzselu_taken of every number, against RULES 4.2. Ends with 1 if one is otherwise. C11 and C++.
 */
#include <stdio.h>
#include <string.h>

#include "gondzselu.h"

static uint8_t a[8];
static int wrong;

static void expect(int code, const char *bytes, int given) {
    if (given != code || memcmp(a, bytes, 8) != 0) {
        fprintf(stderr, "fill: code %d gives %d,", code, given);
        for (int k = 0; k < 8; k++) fprintf(stderr, " %02X", a[k]);
        fprintf(stderr, "\n");
        wrong = 1;
    }
    memset(a, 0xEE, sizeof a); /* so that a byte left out shows at the next */
}

int main(void) {
    memset(a, 0xEE, sizeof a);
    expect(1, "\x0F\x1F\0\0\0\0\0\0", gondzselu_fill_request_read(a, 15, 31));
    expect(2, "\x02\x03\x01\0\x78\x56\x34\x12",
           gondzselu_fill_request_update(a, 2, 3, GONDZSELU_SET, 0x12345678));
    expect(2, "\xFF\xFE\x04\0\xFF\xFF\xFF\xFF",
           gondzselu_fill_request_update(a, 255, 254, GONDZSELU_OR, 0xFFFFFFFF));
    expect(2, "\0\0\x02\0\x03\0\0\0",
           gondzselu_fill_request_update(a, 0, 0, GONDZSELU_ADD_STAYS_AT_THE_TOP, 3));
    expect(2, "\0\0\x03\0\x03\0\0\0", gondzselu_fill_request_update(a, 0, 0, GONDZSELU_LARGER, 3));
    expect(2, "\0\0\x05\0\x03\0\0\0",
           gondzselu_fill_request_update(a, 0, 0, GONDZSELU_ADD_COMES_ROUND, 3));
    expect(3, "\x01\0\0\0\0\0\0\0", gondzselu_fill_perform(a, 1));
    expect(4, "\x02\x07\0\0\0\0\0\0", gondzselu_fill_send_read(a, 2, 7));
    expect(5, "\x03\0\0\0\0\0\0\0", gondzselu_fill_send_update(a, 3));
    expect(6, "\x04\0\0\0\0\0\0\0", gondzselu_fill_dispatch(a, 4));
    expect(7, "\x05\0\0\0\0\0\0\0", gondzselu_fill_take_broadcast(a, 5));
    expect(8, "\x06\0\0\0\0\0\0\0", gondzselu_fill_take_single(a, 6));
    expect(9, "\x07\0\0\0\0\0\0\0", gondzselu_fill_deliver(a, 7));
    expect(10, "\x08\0\0\0\0\0\0\0", gondzselu_fill_report(a, 8));
    expect(1, "\xFF\xFF\0\0\0\0\0\0", gondzselu_fill_request_read(a, 256, 0x10001));
    expect(2, "\xFF\xFF\xFF\0\0\x01\0\0", gondzselu_fill_request_update(a, 257, 258, 259, 256));
    expect(4, "\xFF\xFF\0\0\0\0\0\0", gondzselu_fill_send_read(a, 0xFFFFFF00, 512));
    expect(6, "\xFF\0\0\0\0\0\0\0", gondzselu_fill_dispatch(a, 0x1000000));
    expect(10, "\xFF\0\0\0\0\0\0\0", gondzselu_fill_report(a, 256));
    for (int k = 0; k < 256; k++)
        if (gondzselu_taken((uint8_t)k) != (k == 0 || k == 100)) {
            fprintf(stderr, "fill: result %d is taken, or is not, wrongly\n", k);
            wrong = 1;
        }
    return wrong;
}
