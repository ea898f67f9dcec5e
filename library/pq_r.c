/* The calls for R's `.C`, which passes each argument by its address: bytes as raw vectors, lengths as doubles. */
#include "pq.h"

/* Writes the version, as much of it as there is room for, and its length. */
void pq_r_version(uint8_t *version, double *length) {
    const char *told = pq_version();
    size_t room = (size_t)*length, at = 0;
    for (; at < room && told[at]; at++) version[at] = (uint8_t)told[at];
    *length = (double)at;
}

void pq_r_run(uint8_t *words, double *words_length, uint8_t *first, double *first_length, uint8_t *second, double *second_length,
              uint8_t *reply, double *reply_length, uint8_t *line, double *line_length, int *status) {
    struct pq_bytes asked = {words, (size_t)*words_length}, one = {first, (size_t)*first_length}, other = {second, (size_t)*second_length};
    struct pq_room answer = {reply, (size_t)*reply_length, 0}, why = {line, (size_t)*line_length, 0};
    *status = pq_run(asked, one, other, &answer, &why);
    *reply_length = (double)answer.length;
    *line_length = (double)why.length;
}
