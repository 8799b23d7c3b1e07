/* Chains of checked filters, and sessions of them, as a module of a server holds them: what both modules share.
 *
 * A chain is read and checked while the configuration is read. A session is taken for a request or a connection and given back; each is with
 * one user at a time, so no two threads are in one. What a session holds of memory is counted, and is refused past the chain's limit. */
#ifndef CHECKED_SESSION_H
#define CHECKED_SESSION_H

#include <pthread.h>

/* A server loads its modules into one space of names: none of these is seen there. */
#pragma GCC visibility push(hidden)
#include "cidawru.h"

enum {
    CHAIN_MODULES = 16,          /* the most modules and filters of a chain */
    CHAIN_SETTINGS = 64,         /* the most settings of its params */
    CHAIN_BUDGET = 1000000,      /* instructions of a call, where nothing else is said */
    CHAIN_LIMIT = 64 << 20,      /* bytes that a session may hold, likewise */
    CHAIN_LEAST_LIMIT = 1 << 20, /* the least limit that may be set */
    CHAIN_PIECES = 65536,        /* the most bytes that a call is brought */
    CHAIN_HOLD = 65536           /* bytes of output that are held before the first are passed on */
};

enum {
    SMALL_SIZES = 192, /* lists of freed blocks: those of list k have 16 k bytes */
    SMALL_MOST = 2048  /* 16 bytes each, in all of them */
};

struct session {
    struct cidawru handle;
    uint64_t budget;   /* instructions that a call may execute */
    size_t held, most; /* bytes of memory that the library holds for it, and may hold */
    void *small[SMALL_SIZES + 1]; /* blocks that it freed, to be taken again; `held` is without them */
    size_t small_held;
    bool limited;      /* it was refused some, since it was taken */
    bool spent;        /* no name is left: it is not used again */
    struct session *next;
};

/* Texts one after another. */
struct texts {
    unsigned char *bytes; /* null: none */
    size_t length;
};

/* Modules in their order, with certificates where they have some, and filters; settings; and the sessions of this process that nobody uses. */
struct chain {
    char *files[CHAIN_MODULES];
    struct texts texts, settings; /* modules, filters and certificates; words PARAM=VALUE */
    size_t count, setting_count;  /* of modules and filters; of settings */
    struct cidawru_lengths lengths[CHAIN_MODULES];
    size_t setting_lengths[CHAIN_SETTINGS];
    struct session *idle;
    unsigned idle_count;
    pthread_mutex_t lock; /* of the idle ones */
};

/* The empty chain. */
void chain_begin(struct chain *);

/* Whether a word of the configuration is a setting, PARAM=VALUE or FILTER.PARAM=VALUE, and no name of a file. */
bool is_setting(const char *word);

/* Adds the filter of a file whose name ends in .filter; of any other file the module, and the certificate of FILE.cert where that is there. False:
 * `why` has a line that says what is wrong. */
bool chain_add(struct chain *, const char *file, char *why, size_t room);

/* Adds a setting, likewise. */
bool chain_set(struct chain *, const char *word, char *why, size_t room);

/* Whether the chain is accepted; else `why` has a line with the file, the line or the instruction, and the code or the rule; of a filter the line,
 * the column and what is wrong. */
bool chain_check(struct chain *, char *why, size_t room);

/* Frees the sessions that nobody uses. */
void chain_rest(struct chain *);

/* Frees all of a chain. */
void chain_free(struct chain *);

/* A session with no connection, whose calls execute at most `budget` instructions, and which holds at most `limit` bytes; null where there is no
 * memory. */
struct session *session_take(struct chain *, uint64_t budget, size_t limit);

/* Closes a connection of the session, where `number` is not 0, and gives the session back. A limit does not hold for this. */
void session_give(struct chain *, struct session *, uint64_t number);

/* The calls of cidawru.h of these names, by this session. */
uint32_t session_open(struct session *, uint64_t *number);
uint32_t session_begin(struct session *, uint64_t number);
uint32_t session_piece(struct session *, uint64_t number, uint32_t kind, const void *bytes, size_t length);
uint32_t session_bring(struct session *, uint64_t number);
uint32_t session_run(struct session *, uint64_t number, uint64_t most);
size_t session_output(struct session *, uint64_t number, void *buffer, size_t room);
uint32_t session_end(struct session *, uint64_t number);

/* What a code means that is not CIDAWRU_DONE, for a log. */
const char *session_cause(const struct session *, uint32_t code);

#pragma GCC visibility pop
#endif
