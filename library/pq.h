/* pq in memory: the proved solver as a library. scripts/library.py builds libpq.so; docs/LIBRARY.md shows its use. */
#ifndef PQ_H
#define PQ_H

#include <stddef.h>
#include <stdint.h>

#ifdef __cplusplus
extern "C" {
#endif

/* Bytes to be read. `at` may be null where `length` is 0. */
struct pq_bytes {
    const uint8_t *at;
    size_t length;
};

/* Room for bytes, and how many of them there are after a call. `at` may be null where `room` is 0. */
struct pq_room {
    uint8_t *at;
    size_t room;
    size_t length;
};

/* A pointer is null, a length is more than any object has, or what is written would overlap with something else that is passed. Nothing
   was run, and nothing was written: the lengths in `reply` and `line` are as they were. */
#define PQ_POINTERS 64

/* Does what the words ask for, as the program does. `words` has one word a line, in UTF-8, for instance "solve\ntable\n1\n"; the files
   of a command are named 1 and 2, and lie in `first` and `second`. The reply goes to `reply`, and the line that says what stood in its
   way to `line`. Both lengths are set, and the bytes behind them stay as they were.

   The result is the program's status: 0 and 1 with a reply; 2 the words are outside the grammar, or no UTF-8; 3 a file is refused; 4 the
   words name another file than 1 and 2, and no file before it is refused; 5 the reply has too little room, which its first bytes fill, so
   call again with more; 6 memory is refused. Or it is PQ_POINTERS. A word's line ends in "\n" or in "\r\n"; the last may have none. No
   words at all are outside the grammar.

   On 2 to 6 the line is that of the program, whole, with its "\n". Where `line` has less room than it takes, there is none; 64 bytes are
   enough, which is tested and not proved. On 0 and 1 there is no line.

   Nothing is kept between calls, so threads may call at a time. A thread that calls needs a stack of 2 MiB, which those of Linux with
   glibc have. */
uint8_t pq_run(struct pq_bytes words, struct pq_bytes first, struct pq_bytes second, struct pq_room *reply, struct pq_room *line);

/* The version of the library, for instance "0.9.0". It ends in a zero byte, and stays where it is. */
const char *pq_version(void);

#ifdef __cplusplus
}
#endif

#endif
