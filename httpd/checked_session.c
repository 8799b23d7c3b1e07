/* Chains and sessions of both modules, and the library's memory. */
#include "checked_session.h"
#include <errno.h>
#include <malloc.h>
#include <stdio.h>
#include <stdlib.h>
#include <string.h>
#include <sys/stat.h>

enum {
    TEXT_MOST = 16 << 20, /* bytes of a text */
    MESSAGE_MOST = 2048,  /* bytes of a message */
    KEPT_MOST = 1 << 20,  /* bytes that a session may hold and be kept */
    IDLE_MOST = 1024      /* sessions that are kept */
};

/* The session whose call this thread is in; null where nothing is counted. Each block that is taken or freed reads it, and by this model
 * without a call. */
static _Thread_local struct session *in_hand __attribute__((tls_model("initial-exec")));

static unsigned char no_block[16];

/* Whether the session in hand may hold so many bytes more. */
static bool may_hold(size_t more)
{
    if (!in_hand || (in_hand->held < in_hand->most && more <= in_hand->most - in_hand->held))
        return true;
    in_hand->limited = true;
    return false;
}

static struct rattle_tried counted(void *p, size_t before)
{
    if (!p)
        return (struct rattle_tried){false, no_block};
    if (in_hand)
        in_hand->held += malloc_usable_size(p) - before;
    return (struct rattle_tried){true, p};
}

/* A small block that the session freed before; else a new one, whose size is one of those of the lists. */
static void *small_block(struct session *session, size_t wanted)
{
    size_t list = (wanted + 15) / 16;
    void *p = session->small[list];
    if (!p)
        return malloc(16 * list);
    session->small[list] = *(void **)p;
    session->small_held -= list;
    return p;
}

struct rattle_tried rattle_alloc(size_t size, size_t align)
{
    size_t wanted = size ? size : align;
    if (!may_hold(wanted))
        return counted(NULL, 0);
    return counted(in_hand && wanted <= 16 * SMALL_SIZES ? small_block(in_hand, wanted) : malloc(wanted), 0);
}

struct rattle_tried rattle_realloc(void *p, size_t kept, size_t size, size_t align)
{
    size_t wanted = size ? size : align, before = malloc_usable_size(p);
    void *moved = wanted <= before || may_hold(wanted - before) ? realloc(p, wanted) : NULL;
    struct rattle_tried tried = counted(moved, before);
    (void)kept;
    return tried.ok ? tried : (struct rattle_tried){false, p};
}

void rattle_dealloc(void *p)
{
    struct session *session = in_hand;
    if (session) {
        size_t bytes = malloc_usable_size(p), list = bytes / 16;
        session->held -= bytes;
        if (list <= SMALL_SIZES && session->small_held + list <= SMALL_MOST) {
            *(void **)p = session->small[list];
            session->small[list] = p;
            session->small_held += list;
            return;
        }
    }
    free(p);
}

static void free_small(struct session *session)
{
    for (size_t list = 0; list <= SMALL_SIZES; list++)
        for (void *p = session->small[list], *next; p; p = next) {
            next = *(void **)p;
            free(p);
        }
}

void chain_begin(struct chain *chain)
{
    memset(chain, 0, sizeof *chain);
    pthread_mutex_init(&chain->lock, NULL);
}

/* Makes room for so many bytes behind the others; null where there is no memory. */
static unsigned char *room_behind(struct texts *texts, size_t more)
{
    unsigned char *bytes = realloc(texts->bytes, texts->length + more + 1);
    if (bytes)
        texts->bytes = bytes;
    return bytes ? bytes + texts->length : NULL;
}

/* Puts the text of a file behind the others. A file that is not there is an empty text where it is `optional`. */
static bool add_text(struct texts *texts, const char *name, bool optional, size_t *length, char *why, size_t room)
{
    struct stat info;
    unsigned char *bytes;
    FILE *file = fopen(name, "rb");
    const char *wrong = NULL;
    *length = 0;
    if (!file && optional && errno == ENOENT)
        return true;
    if (!file || fstat(fileno(file), &info) != 0)
        wrong = strerror(errno);
    else if (!S_ISREG(info.st_mode) || info.st_size > TEXT_MOST)
        wrong = "no regular file of at most 16 MiB";
    else if (!(bytes = room_behind(texts, (size_t)info.st_size)))
        wrong = "no memory";
    else {
        *length = fread(bytes, 1, (size_t)info.st_size, file);
        texts->length += *length;
        if (*length != (size_t)info.st_size)
            wrong = "cannot be read";
    }
    if (file)
        fclose(file);
    if (wrong)
        snprintf(why, room, "%s: %s", name, wrong);
    return !wrong;
}

static bool is_filter_name(const char *file)
{
    static const char END[] = ".filter";
    size_t length = strlen(file), end = sizeof END - 1;
    return length >= end && !memcmp(file + length - end, END, end);
}

bool is_setting(const char *word)
{
    return strchr(word, '=') != NULL;
}

bool chain_add(struct chain *chain, const char *file, char *why, size_t room)
{
    char cert[4096];
    size_t index = chain->count;
    if (index == CHAIN_MODULES || snprintf(cert, sizeof cert, "%s.cert", file) >= (int)sizeof cert) {
        snprintf(why, room, index == CHAIN_MODULES ? "a chain has 1 to 16 modules" : "%.80s..: too long a name", file);
        return false;
    }
    chain->files[index] = strdup(file);
    if (!chain->files[index]) {
        snprintf(why, room, "no memory");
        return false;
    }
    chain->count++;
    chain->lengths[index].kind = is_filter_name(file) ? CIDAWRU_FILTER : CIDAWRU_MODULE;
    return add_text(&chain->texts, file, false, &chain->lengths[index].text, why, room) &&
           (is_filter_name(file) || add_text(&chain->texts, cert, true, &chain->lengths[index].certificate, why, room));
}

bool chain_set(struct chain *chain, const char *word, char *why, size_t room)
{
    size_t length = strlen(word);
    unsigned char *bytes = chain->setting_count < CHAIN_SETTINGS ? room_behind(&chain->settings, length) : NULL;
    if (!bytes) {
        snprintf(why, room, chain->setting_count < CHAIN_SETTINGS ? "no memory" : "a chain takes at most 64 settings");
        return false;
    }
    memcpy(bytes, word, length);
    chain->settings.length += length;
    chain->setting_lengths[chain->setting_count++] = length;
    return true;
}

/* Why a chain is refused: what the library tells, and the front of its message. */
struct refused {
    struct cidawru_told told;
    unsigned char message[MESSAGE_MOST];
};

/* The line that tells why a chain is refused. */
static void tell(const struct chain *chain, const struct refused *refused, char *why, size_t room)
{
    static const char *const RULES[] = {"shape", "entry", "flow", "exit", "request"};
    const struct cidawru_told *told = &refused->told;
    const char *file = told->module < chain->count ? chain->files[told->module] : "";
    unsigned long long place = told->place;
    int length = told->message < MESSAGE_MOST ? (int)told->message : MESSAGE_MOST;
    if (length > 0 && refused->message[length - 1] == '\n')
        length--;
    if (told->what == CIDAWRU_TOLD_NO_MODULE)
        snprintf(why, room, "%s: asm line %llu code %u", file, place, (unsigned)told->code);
    else if (told->what == CIDAWRU_TOLD_NO_CERT)
        snprintf(why, room, "%s.cert: cert line %llu code %u", file, place, (unsigned)told->code);
    else if (told->what == CIDAWRU_TOLD_REFUSED && told->code >= CIDAWRU_RULE_SHAPE && told->code <= CIDAWRU_RULE_REQUEST)
        snprintf(why, room, "%s: refused at %llu: %s", file, place, RULES[told->code - CIDAWRU_RULE_SHAPE]);
    else if (told->what == CIDAWRU_TOLD_REFUSED)
        snprintf(why, room, "%s: refused at %llu: F%u", file, place, (unsigned)told->code);
    else if (told->what == CIDAWRU_TOLD_NO_FILTER)
        snprintf(why, room, "%s: %.*s", file, length, (const char *)refused->message);
    else if (told->what == CIDAWRU_TOLD_NO_SETTING)
        snprintf(why, room, "%.*s", length, (const char *)refused->message);
    else
        snprintf(why, room, told->what == CIDAWRU_TOLD_NO_MEMORY ? "no memory" : "a chain has 1 to 16 modules");
}

static void end_session(struct session *session)
{
    in_hand = session;
    cidawru_free(&session->handle);
    in_hand = NULL;
    free_small(session);
    free(session);
}

/* The bytes, or what is no null pointer where there are none. */
static const unsigned char *bytes_of(const struct texts *texts)
{
    static const unsigned char none[1];
    return texts->bytes ? texts->bytes : none;
}

/* A new session; null where the chain is refused, as `refused` says. */
static struct session *new_session(const struct chain *chain, uint64_t budget, size_t limit, struct refused *refused)
{
    bool made;
    struct session *session = calloc(1, sizeof *session);
    if (!session) {
        refused->told = (struct cidawru_told){.what = CIDAWRU_TOLD_NO_MEMORY};
        return NULL;
    }
    session->budget = budget;
    session->most = SIZE_MAX; /* a chain that was accepted is made, whatever that takes */
    in_hand = session;
    made = cidawru_new(&session->handle, bytes_of(&chain->texts), chain->texts.length, chain->lengths, chain->count, bytes_of(&chain->settings),
                       chain->settings.length, chain->setting_lengths, chain->setting_count, budget, &refused->told, refused->message, MESSAGE_MOST);
    in_hand = NULL;
    session->most = limit;
    if (made)
        return session;
    free_small(session);
    free(session);
    return NULL;
}

bool chain_check(struct chain *chain, char *why, size_t room)
{
    struct refused refused;
    struct session *session = new_session(chain, CHAIN_BUDGET, SIZE_MAX, &refused);
    if (session)
        end_session(session);
    else
        tell(chain, &refused, why, room);
    return session != NULL;
}

void chain_rest(struct chain *chain)
{
    struct session *session;
    pthread_mutex_lock(&chain->lock);
    session = chain->idle;
    chain->idle = NULL;
    chain->idle_count = 0;
    pthread_mutex_unlock(&chain->lock);
    while (session) {
        struct session *next = session->next;
        end_session(session);
        session = next;
    }
}

void chain_free(struct chain *chain)
{
    chain_rest(chain);
    for (size_t k = 0; k < CHAIN_MODULES; k++)
        free(chain->files[k]);
    free(chain->texts.bytes);
    free(chain->settings.bytes);
    pthread_mutex_destroy(&chain->lock);
}

struct session *session_take(struct chain *chain, uint64_t budget, size_t limit)
{
    struct refused refused;
    struct session *session, **at;
    pthread_mutex_lock(&chain->lock);
    for (at = &chain->idle; *at && (*at)->budget != budget; at = &(*at)->next) {
        /* of another location */
    }
    session = *at;
    if (session) {
        *at = session->next;
        chain->idle_count--;
    }
    pthread_mutex_unlock(&chain->lock);
    if (!session)
        return new_session(chain, budget, limit, &refused);
    session->most = limit;
    session->limited = false;
    return session;
}

void session_give(struct chain *chain, struct session *session, uint64_t number)
{
    bool kept = !session->spent;
    session->most = SIZE_MAX;
    in_hand = session;
    if (number)
        kept = cidawru_close(&session->handle, number) == CIDAWRU_DONE && kept;
    in_hand = NULL;
    if (kept && session->held <= KEPT_MOST) {
        pthread_mutex_lock(&chain->lock);
        kept = chain->idle_count < IDLE_MOST;
        if (kept) {
            session->next = chain->idle;
            chain->idle = session;
            chain->idle_count++;
        }
        pthread_mutex_unlock(&chain->lock);
        if (kept)
            return;
    }
    end_session(session);
}

/* The end of a call. */
static uint32_t called(struct session *session, uint32_t code)
{
    in_hand = NULL;
    session->spent |= code == CIDAWRU_NO_NAMES || code == CIDAWRU_BROKE_NAMES;
    return code;
}

uint32_t session_open(struct session *session, uint64_t *number)
{
    in_hand = session;
    return called(session, cidawru_open(&session->handle, number));
}

uint32_t session_begin(struct session *session, uint64_t number)
{
    in_hand = session;
    return called(session, cidawru_begin(&session->handle, number));
}

uint32_t session_piece(struct session *session, uint64_t number, uint32_t kind, const void *bytes, size_t length)
{
    in_hand = session;
    return called(session, cidawru_piece(&session->handle, number, kind, bytes, length));
}

uint32_t session_bring(struct session *session, uint64_t number)
{
    in_hand = session;
    return called(session, cidawru_bring(&session->handle, number));
}

uint32_t session_run(struct session *session, uint64_t number, uint64_t most)
{
    in_hand = session;
    return called(session, cidawru_run(&session->handle, number, most));
}

size_t session_output(struct session *session, uint64_t number, void *buffer, size_t room)
{
    size_t length;
    in_hand = session;
    length = cidawru_output(&session->handle, number, buffer, room);
    in_hand = NULL;
    return length;
}

/* A limit does not hold for this. */
uint32_t session_end(struct session *session, uint64_t number)
{
    size_t most = session->most;
    uint32_t code;
    session->most = SIZE_MAX;
    in_hand = session;
    code = called(session, cidawru_end(&session->handle, number));
    session->most = most;
    return code;
}

const char *session_cause(const struct session *session, uint32_t code)
{
    switch (code) {
    case CIDAWRU_FAILED:
        return "a filter failed";
    case CIDAWRU_NO_MEMORY:
    case CIDAWRU_BROKE_MEMORY:
        return session && session->limited ? "the limit of memory was met" : "no memory";
    case CIDAWRU_NO_NAMES:
    case CIDAWRU_BROKE_NAMES:
        return "no name is left";
    case CIDAWRU_BROKE_BUDGET:
        return "the budget of instructions was met";
    case CIDAWRU_AFTER_EOS:
        return "data came behind the end";
    default:
        return "a call was not due";
    }
}
