/* The proved host of filters, as a static library: libhost_lib.a, which `rt lib` makes in crates/host_lib.
 *
 * A session is a host of one chain of modules, which was checked; a filter in the language for authors is compiled to one. It has any number of
 * connections, each with requests one after another.
 * What each function is proved to do stands at its text, crates/host_lib/src/lib.rt; tests/header.py compares that with this file.
 *
 * The caller owes:
 *  - A handle begins as { 0 }, which holds no session, and is changed by these functions alone. It is not copied while it is in use.
 *  - A handle is in one call at a time. It may go from thread to thread, ordered by a lock or by a thread's start or join.
 *  - Each pointer is to memory of its type and of the length that is given, and is never null, not even where the length is 0.
 *    What one argument points to overlaps nothing that another one of the same call does.
 *  - No call is made from a signal handler, nor in the forked child of a process that had threads.
 *  - The three functions on memory, at the end.
 *
 * Any bytes, numbers and lengths may be given beside that, and any handle that holds a session or none.
 */
#ifndef CIDAWRU_H
#define CIDAWRU_H

#include <stdbool.h>
#include <stddef.h>
#include <stdint.h>

#ifdef __cplusplus
extern "C" {
#endif

/* A handle: holds a session, or none. */
struct cidawru {
    unsigned char *at;
    bool held; /* whether it holds one */
};

/* A text of a chain, and that of its certificate. */
struct cidawru_lengths {
    size_t text;        /* how long the module's is, or the filter's */
    size_t certificate; /* how long the certificate's is. One of length 0 is made; a filter's is not read, as the compiler makes one */
    uint32_t kind;      /* CIDAWRU_MODULE or CIDAWRU_FILTER */
};

/* The kinds of texts: a module, and a filter in the language for authors. */
enum { CIDAWRU_MODULE, CIDAWRU_FILTER };

/* Why a chain is refused. */
struct cidawru_told {
    uint32_t what;    /* a CIDAWRU_TOLD_ number; 0 where it is taken */
    uint32_t code;    /* the code of the line, 1 to 11 of a module's and 1 to 3 of a certificate's; or a CIDAWRU_RULE_ number */
    uint64_t module;  /* which text, from 0 on */
    uint64_t place;   /* the line of a text or certificate, from 1 on; or the instruction, from 0 on */
    uint64_t column;  /* of a filter: the column in the line, from 1 on */
    uint64_t message; /* how many bytes the message has; the buffer has its front */
};

enum {
    CIDAWRU_TOLD_NO_CHAIN = 1, /* no text, or over 16; or the lengths are not together that of the texts, or of the settings */
    CIDAWRU_TOLD_NO_MEMORY,    /* there is no memory */
    CIDAWRU_TOLD_NO_MODULE,    /* a text is no module: module, place (line), code */
    CIDAWRU_TOLD_NO_CERT,      /* a text is no certificate: module, place (line), code */
    CIDAWRU_TOLD_REFUSED,      /* a module is refused: module, place (instruction), code (rule) */
    CIDAWRU_TOLD_HELD,         /* the handle holds a session already, which stays */
    CIDAWRU_TOLD_NO_FILTER,    /* a filter is not compiled: module, place (line), column, message. The place is 0 for the value of a setting, and for
                                  an internal error */
    CIDAWRU_TOLD_NO_SETTING,   /* a setting is none, or no filter has a param for it: message */
    CIDAWRU_TOLD_NO_KIND       /* a text is of no kind: module */
};

/* The rule that a module fails. F1 to F10 are 1 to 10: the instruction may have that fault. */
enum {
    CIDAWRU_RULE_F1 = 1,
    CIDAWRU_RULE_F10 = 10,
    CIDAWRU_RULE_SHAPE,
    CIDAWRU_RULE_ENTRY,
    CIDAWRU_RULE_FLOW,
    CIDAWRU_RULE_EXIT,
    CIDAWRU_RULE_REQUEST
};

/* What a call answers. From CIDAWRU_NO_MEMORY on it is refused. */
enum {
    CIDAWRU_DONE,           /* it was done; of cidawru_run: the call ended well */
    CIDAWRU_FAILED,         /* cidawru_run alone: the call ended, and the filter failed */
    CIDAWRU_GOES_ON,        /* cidawru_run alone: so many steps were made, and the call is to be run on */
    CIDAWRU_NO_MEMORY,      /* there is no memory; no connection is changed */
    CIDAWRU_NO_NAMES,       /* no name is left to give out */
    CIDAWRU_BROKE_MEMORY,   /* the connection is broken, now or before: there was no memory */
    CIDAWRU_BROKE_NAMES,    /* .. no name was left */
    CIDAWRU_BROKE_BUDGET,   /* .. a call met the budget of instructions */
    CIDAWRU_NO_CONNECTION,  /* no connection has this number */
    CIDAWRU_BUSY,           /* a call is running: cidawru_run is due */
    CIDAWRU_IDLE,           /* cidawru_run alone: no call is running */
    CIDAWRU_IN_REQUEST,     /* a request is open */
    CIDAWRU_NOT_IN_REQUEST, /* no request is open */
    CIDAWRU_AFTER_EOS,      /* data stands behind an EOS among the pieces */
    CIDAWRU_NO_KIND,        /* cidawru_piece alone: there is no such kind */
    CIDAWRU_NO_SESSION,     /* the handle holds none */
    CIDAWRU_NO_FILE,        /* of a file: not answered, since no piece is one */
    CIDAWRU_FAULT           /* an instruction had a fault, now or before: not answered, which is proved */
};

/* The kinds of pieces. A TRANSIENT piece's bytes are copied too: the word is what the filters see. */
enum { CIDAWRU_HEAP, CIDAWRU_TRANSIENT, CIDAWRU_IMMORTAL, CIDAWRU_POOL, CIDAWRU_FLUSH, CIDAWRU_EOS };

/* Makes a session of a chain of `count` texts, 1 to 16. They stand one after another: a module or a filter, its certificate, the next one ..;
 * together they are `texts_length` bytes. The words of `setting_count` settings stand one after another as well: PARAM=VALUE, for each filter that
 * has such a param, or FILTER.PARAM=VALUE, for those that begin with `filter FILTER` alone; of two for one param the last counts. A call executes
 * at most `budget` instructions.
 *
 * False: the handle holds what it held, `told` has why, and the buffer as much of the message as there is room for: a line that ends with LF,
 * `line L, column C: WHAT`, `cannot set NAME: WHY` or `internal error: WHAT`. First the settings are read, then all texts, from the first on, where
 * filters are compiled; then each setting must be one of them; then certificates that are missing are made; then each module is checked. The first
 * refusal of these is told. */
bool cidawru_new(struct cidawru *handle, const unsigned char *texts, size_t texts_length, const struct cidawru_lengths *lengths,
                 size_t count, const unsigned char *settings, size_t settings_length, const size_t *setting_lengths,
                 size_t setting_count, uint64_t budget, struct cidawru_told *told, unsigned char *buffer, size_t room);

/* Ends a session, with all that it holds; the handle is as { 0 } again. It needs no memory. Of a handle that holds none: does nothing. */
void cidawru_free(struct cidawru *handle);

/* Opens a connection. `number` is how the other calls name it, from 1 on; 0 where it is refused. The `open` handlers are to be run:
 * cidawru_run. Refused: NO_NAMES, NO_MEMORY. */
uint32_t cidawru_open(struct cidawru *handle, uint64_t *number);

/* A request begins. The `init` handlers are to be run. Refused: NO_CONNECTION, BROKE_.., BUSY, IN_REQUEST, NO_NAMES, NO_MEMORY. */
uint32_t cidawru_begin(struct cidawru *handle, uint64_t number);

/* Adds a piece, behind those that this connection is brought next. Its bytes are copied; of a FLUSH and an EOS they are left out.
 * Refused: NO_CONNECTION, NO_KIND, NO_MEMORY; then the pieces of this connection are dropped. */
uint32_t cidawru_piece(struct cidawru *handle, uint64_t number, uint32_t kind, const unsigned char *bytes, size_t length);

/* Brings the pieces of this connection, as one brigade. `main` of the first filter is to be run. Refused: NO_CONNECTION, BROKE_.., BUSY,
 * NOT_IN_REQUEST, AFTER_EOS, NO_NAMES, NO_MEMORY. It has no pieces afterwards, done or refused. */
uint32_t cidawru_bring(struct cidawru *handle, uint64_t number);

/* Runs what an open, a begin or a bring began, by at most `most` steps (0 is as 1), or to its end where that comes before; UINT64_MAX is to
 * the end. Answers DONE, FAILED, GOES_ON, BROKE_.., NO_CONNECTION, IDLE. */
uint32_t cidawru_run(struct cidawru *handle, uint64_t number, uint64_t most);

/* The length of the output since it was taken last; 0 where there is no such connection or session. Where it fits into `room` bytes it is
 * copied to the front of `buffer`, and is taken; else nothing is changed. It needs no memory, and a broken connection tells it too. */
size_t cidawru_output(struct cidawru *handle, uint64_t number, unsigned char *buffer, size_t room);

/* The request ends: its pool is destroyed. Pieces that were not brought are dropped. Refused: NO_CONNECTION, BROKE_.., BUSY, NOT_IN_REQUEST,
 * NO_MEMORY. */
uint32_t cidawru_end(struct cidawru *handle, uint64_t number);

/* The connection is closed, in any state, with its pieces and its output. Refused: NO_CONNECTION; NO_MEMORY, and then it is still there. */
uint32_t cidawru_close(struct cidawru *handle, uint64_t number);

/* The library takes its memory by these three, and by nothing else. The toolchain's C library defines them over malloc, realloc and free
 * (liblibc_c.a); a program may define them in its place, to count and to refuse. A block is aligned to `align`, a power of two up to 16. Where
 * `size` is 0 a block of `align` bytes is meant. Refused is { false, p }, where p is not null and points to a byte that stays for good.
 * rattle_realloc keeps the first `kept` bytes; where it refuses, the block stays as it was. The session in hand is refused as NO_MEMORY or
 * breaks one connection by BROKE_MEMORY. cidawru_free and cidawru_output ask for none. */
struct rattle_tried {
    bool ok;
    void *p;
};
struct rattle_tried rattle_alloc(size_t size, size_t align);
struct rattle_tried rattle_realloc(void *p, size_t kept, size_t size, size_t align);
void rattle_dealloc(void *p);

#ifdef __cplusplus
}
#endif

#endif
