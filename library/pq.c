/* The proved call `pq_c_run` behind a look at the pointers, which the proof takes for granted. Not proved itself. */
#include "pq.h"

uint8_t pq_c_run(const uint8_t *words, size_t words_length, const uint8_t *first, size_t first_length, const uint8_t *second, size_t second_length,
                 uint8_t *out, size_t out_room, size_t *written, uint8_t *err, size_t err_room, size_t *told);

/* The places from `begin` to before `end`. */
struct span {
    uintptr_t begin;
    uintptr_t end;
};

static struct span span_of(const void *at, size_t length) {
    struct span found = {(uintptr_t)at, (uintptr_t)at + length};
    return found;
}

/* Whether there may be so many bytes here: no object is longer than PTRDIFF_MAX, or goes over the end of memory. */
static int is_sound(const void *at, size_t length) {
    return length == 0 || (at != NULL && length <= PTRDIFF_MAX && (uintptr_t)at + length >= (uintptr_t)at);
}

/* Whether a place lies in both; none lies in a span without bytes. */
static int meet(struct span one, struct span other) {
    uintptr_t begin = one.begin > other.begin ? one.begin : other.begin, end = one.end < other.end ? one.end : other.end;
    return begin < end;
}

/* Whether each span from `from` on meets none before it. */
static int are_apart(const struct span *spans, int count, int from) {
    for (int i = from; i < count; i++)
        for (int j = 0; j < i; j++)
            if (meet(spans[i], spans[j])) return 0;
    return 1;
}

/* A place for a slice without bytes. */
static uint8_t nothing[1];

const char *pq_version(void) {
    return PQ_VERSION;
}

uint8_t pq_run(struct pq_bytes words, struct pq_bytes first, struct pq_bytes second, struct pq_room *reply, struct pq_room *line) {
    if (reply == NULL || line == NULL || !is_sound(words.at, words.length) || !is_sound(first.at, first.length) ||
        !is_sound(second.at, second.length) || !is_sound(reply->at, reply->room) || !is_sound(line->at, line->room))
        return PQ_POINTERS;
    struct span spans[] = {span_of(words.at, words.length), span_of(first.at, first.length), span_of(second.at, second.length),
                           span_of(reply->at, reply->room), span_of(line->at, line->room), span_of(reply, sizeof *reply),
                           span_of(line, sizeof *line)};
    if (!are_apart(spans, 7, 3)) return PQ_POINTERS;
    return pq_c_run(words.length ? words.at : nothing, words.length, first.length ? first.at : nothing, first.length,
                    second.length ? second.at : nothing, second.length, reply->room ? reply->at : nothing, reply->room, &reply->length,
                    line->room ? line->at : nothing, line->room, &line->length);
}
