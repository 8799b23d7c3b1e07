/* What a session of the static library costs: times of calls, and memory. The argument is a module's file. With a number behind it: makes so
 * many requests of 2 bytes, each on a connection of its own, and tells nothing, for a tool that counts instructions.
 *
 *     cc -O2 bench/session_costs.c httpd/checked_session.c -Ihttpd libhost_lib.a -lpthread -o session_costs
 *     valgrind --tool=callgrind ./session_costs filters/new.module 1000 */
#include "checked_session.h"
#include <stdio.h>
#include <stdlib.h>
#include <string.h>
#include <time.h>

enum { SESSIONS = 500, MIB = 1 << 20 };

static unsigned char bytes[CHAIN_PIECES], out[2 * MIB];

static double now(void)
{
    struct timespec at;
    clock_gettime(CLOCK_MONOTONIC, &at);
    return at.tv_sec * 1e6 + at.tv_nsec / 1e3;
}

static void must(uint32_t code)
{
    if (code != CIDAWRU_DONE) {
        printf("answered %u\n", (unsigned)code);
        exit(1);
    }
}

static void run(struct session *session, uint64_t number, uint32_t code)
{
    must(code);
    must(session_run(session, number, UINT64_MAX));
}

/* A request of a length, in calls of at most 64 KiB, which does not end. */
static void begin_and_bring(struct session *session, uint64_t number, size_t length)
{
    run(session, number, session_begin(session, number));
    do {
        size_t part = length < sizeof bytes ? length : sizeof bytes;
        length -= part;
        if (part)
            must(session_piece(session, number, CIDAWRU_HEAP, bytes, part));
        if (!length)
            must(session_piece(session, number, CIDAWRU_EOS, "", 0));
        run(session, number, session_bring(session, number));
        session_output(session, number, out, sizeof out);
    } while (length);
}

static void request(struct session *session, uint64_t number, size_t length)
{
    begin_and_bring(session, number, length);
    must(session_end(session, number));
}

/* Requests as httpd has them where a connection of the chain is one request. */
static void count(struct chain *chain, long requests)
{
    while (requests-- > 0) {
        uint64_t number;
        struct session *session = session_take(chain, 1000000, SIZE_MAX);
        if (!session)
            exit(1);
        run(session, number, session_open(session, &number));
        begin_and_bring(session, number, 2);
        session_give(chain, session, number);
    }
}

static double mean_held(struct session **sessions)
{
    size_t held = 0;
    for (int k = 0; k < SESSIONS; k++)
        held += sessions[k]->held;
    return held / 1024.0 / SESSIONS;
}

int main(int argc, char **argv)
{
    static struct session *sessions[SESSIONS];
    static uint64_t numbers[SESSIONS];
    static const size_t LENGTHS[] = {2, CHAIN_PIECES, MIB};
    struct chain chain;
    char why[4400];
    double start;
    chain_begin(&chain);
    memset(bytes, 'a', sizeof bytes);
    if (argc < 2 || argc > 3 || !chain_add(&chain, argv[1], why, sizeof why) || !chain_check(&chain, why, sizeof why)) {
        printf("%s\n", argc == 2 || argc == 3 ? why : "session_costs MODULE [REQUESTS]");
        return 1;
    }
    if (argc == 3) {
        count(&chain, atol(argv[2]));
        chain_free(&chain);
        return 0;
    }
    start = now();
    for (int k = 0; k < SESSIONS; k++)
        if (!(sessions[k] = session_take(&chain, 100000000, SIZE_MAX)))
            return 1;
    printf("a session: %.1f us, %.1f KiB", (now() - start) / SESSIONS, mean_held(sessions));
    for (int k = 0; k < SESSIONS; k++)
        run(sessions[k], numbers[k], session_open(sessions[k], &numbers[k]));
    printf("; with a connection %.1f KiB", mean_held(sessions));
    for (size_t at = 0; at < 3; at++) {
        for (int k = 0; k < SESSIONS; k++)
            request(sessions[k], numbers[k], LENGTHS[at]);
        printf("; after %zu bytes %.1f KiB", LENGTHS[at], mean_held(sessions));
    }
    printf("\n");
    for (size_t at = 0; at < 3; at++) {
        int count = at == 0 ? 100000 : at == 1 ? 5000 : 500;
        start = now();
        for (int k = 0; k < count; k++)
            request(sessions[0], numbers[0], LENGTHS[at]);
        printf("a request of %zu bytes: %.2f us\n", LENGTHS[at], (now() - start) / count);
    }
    for (int k = 0; k < SESSIONS; k++)
        session_give(&chain, sessions[k], numbers[k]);
    chain_free(&chain);
    return 0;
}
