#include <stdio.h>
#include "pq.h"

int main(void) {
    static uint8_t text[1024], why[64];
    struct pq_bytes words = {(const uint8_t *)"solve\nmatrix\n1\n", 15}, file = {(const uint8_t *)"110\n011\n", 8}, none = {NULL, 0};
    struct pq_room reply = {text, sizeof text, 0}, line = {why, sizeof why, 0};
    uint8_t status = pq_run(words, file, none, &reply, &line);
    printf("%d\n%.*s", status, (int)reply.length, text);
    return status > 1;
}
