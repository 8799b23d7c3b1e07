/* Threads that take sessions of one chain from its list and give them back, for a tool that looks for races: sessions MODULE THREADS TIMES.
 * The module makes capitals. The exit status is 0 where each request answered what it should. */
#include "checked_session.h"
#include <stdio.h>
#include <stdlib.h>
#include <string.h>

static struct chain chain;
static int times;

/* A request of a session, on a connection of its own. */
static int asks(struct session *session, uint64_t *number)
{
    unsigned char out[8];
    return session_open(session, number) || session_run(session, *number, UINT64_MAX) || session_begin(session, *number) ||
           session_run(session, *number, UINT64_MAX) || session_piece(session, *number, CIDAWRU_TRANSIENT, "hello", 5) ||
           session_piece(session, *number, CIDAWRU_EOS, "", 0) || session_bring(session, *number) ||
           session_run(session, *number, UINT64_MAX) || session_output(session, *number, out, sizeof out) != 5 || memcmp(out, "HELLO", 5);
}

static void *go(void *bad)
{
    for (int k = 0; k < times; k++) {
        uint64_t number = 0;
        struct session *session = session_take(&chain, 1000000, 1 << 20);
        if (!session || asks(session, &number))
            *(int *)bad = 1;
        if (session)
            session_give(&chain, session, number);
    }
    return NULL;
}

int main(int argc, char **argv)
{
    pthread_t threads[64];
    int bad[64] = {0}, worst = 0, count = argc == 4 ? atoi(argv[2]) : 0;
    char why[4400];
    chain_begin(&chain);
    if (count < 1 || count > 64 || !chain_add(&chain, argv[1], why, sizeof why) || !chain_check(&chain, why, sizeof why))
        return 2;
    times = atoi(argv[3]);
    for (int k = 0; k < count; k++)
        if (pthread_create(&threads[k], NULL, go, &bad[k]))
            return 2;
    for (int k = 0; k < count; k++) {
        pthread_join(threads[k], NULL);
        worst |= bad[k];
    }
    chain_free(&chain);
    return worst;
}
