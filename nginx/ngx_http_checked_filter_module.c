/* A body filter of nginx whose modules were checked.
 *
 *     checked_filter FILE.. [PARAM=VALUE]..;   reads and checks the modules of a chain with the configuration, and filters what this http, server
 *                                              or location answers. A file whose name ends in .filter is compiled; params of such filters may be
 *                                              set. checked_filter off; ends that
 *
 * A worker has one thread. So calls of a chain run in slices, and between them other connections have their turn. The header waits until there
 * is output to pass on: a filter that fails before that costs a 500, and afterwards the connection. */
#include <ngx_config.h>
#include <ngx_core.h>
#include <ngx_http.h>
#include "checked_session.h"

enum {
    SLICE = 20000,  /* steps of a call in a turn: some 0.3 ms */
    CALLS = 8,      /* calls in a turn */
    BUFFERED = 0x08 /* of a request: no filter of nginx's own has this bit */
};

extern ngx_module_t ngx_http_checked_filter_module;
#define TAG ((ngx_buf_tag_t)&ngx_http_checked_filter_module)

typedef struct {
    struct chain *chain; /* null: none */
    ngx_int_t budget;
    size_t limit;
} checked_conf_t;

typedef enum { TO_OPEN, TO_BEGIN, TO_BRING } due_t;

/* A response on its way through the filter. */
typedef struct {
    checked_conf_t *conf;
    struct session *session; /* null: none is taken */
    uint64_t number;
    ngx_chain_t *in;          /* what came and is not brought yet */
    ngx_chain_t *held, *busy; /* what was put out: not passed on yet, and passed on but not sent yet */
    ngx_chain_t **end, *free; /* of what is held; links of buffers that were sent */
    ngx_buf_t *final;         /* the last of what is held; null where nothing is */
    size_t held_length;
    due_t due;                /* the call that comes next */
    unsigned running : 1;     /* a call is under way */
    unsigned flush : 1;       /* what is held is to be passed on */
    unsigned last : 1;        /* the EOS was brought */
    unsigned paused : 1;      /* the turn ended in the middle */
    unsigned header_sent : 1;
    unsigned over : 1;        /* nothing more is put out */
    unsigned failed : 1;
    unsigned replaced : 1;    /* another response took its place, of an error */
} response_t;

static ngx_http_output_header_filter_pt next_header;
static ngx_http_output_body_filter_pt next_body;

/* ---- a response ---- */

static void finish(void *data)
{
    response_t *response = data;
    if (response->session)
        session_give(response->conf->chain, response->session, response->number);
    response->session = NULL;
}

/* Ends a response that cannot go on. */
static ngx_int_t fail(ngx_http_request_t *r, response_t *response, const char *cause)
{
    ngx_log_error(NGX_LOG_ERR, r->connection->log, 0, "checked_filter %s: %V: %s", response->conf->chain->files[0], &r->uri, cause);
    finish(response);
    response->failed = 1;
    r->buffered &= ~BUFFERED;
    if (response->header_sent || r != r->main)
        return NGX_ERROR;
    return ngx_http_filter_finalize_request(r, &ngx_http_checked_filter_module, NGX_HTTP_INTERNAL_SERVER_ERROR);
}

static ngx_int_t header_filter(ngx_http_request_t *r)
{
    checked_conf_t *conf = ngx_http_get_module_loc_conf(r, ngx_http_checked_filter_module);
    response_t *response = ngx_http_get_module_ctx(r, ngx_http_checked_filter_module);
    ngx_pool_cleanup_t *cleanup;
    if (response) {
        finish(response);
        response->replaced = 1;
        r->buffered &= ~BUFFERED;
        return next_header(r);
    }
    if (!conf->chain || r->filter_finalize || r->headers_out.status < NGX_HTTP_OK || r->headers_out.status == NGX_HTTP_NO_CONTENT ||
        r->headers_out.status == NGX_HTTP_NOT_MODIFIED)
        return next_header(r);
    ngx_http_clear_content_length(r);
    ngx_http_clear_accept_ranges(r);
    ngx_http_weak_etag(r);
    if (r->method == NGX_HTTP_HEAD || r->header_only)
        return next_header(r);
    response = ngx_pcalloc(r->pool, sizeof *response);
    cleanup = ngx_pool_cleanup_add(r->pool, 0);
    if (!response || !cleanup)
        return NGX_ERROR;
    response->conf = conf;
    response->end = &response->held;
    cleanup->handler = finish;
    cleanup->data = response;
    ngx_http_set_ctx(r, response, ngx_http_checked_filter_module);
    if (r->headers_out.status == NGX_HTTP_PARTIAL_CONTENT)
        return fail(r, response, "a part of a body is not filtered");
    r->filter_need_in_memory = 1;
    if (r == r->main)
        r->main_filter_need_in_memory = 1;
    return NGX_OK;
}

/* ---- what is passed on ---- */

static void hold(response_t *response, ngx_chain_t *link)
{
    link->next = NULL;
    *response->end = link;
    response->end = &link->next;
    response->final = link->buf;
}

/* Holds the output of a call, in a buffer that was sent before where there is one with room. */
static uint32_t take_output(ngx_http_request_t *r, response_t *response)
{
    size_t length = session_output(response->session, response->number, "", 0);
    ngx_chain_t *link = length ? ngx_chain_get_free_buf(r->pool, &response->free) : NULL;
    ngx_buf_t *buf;
    if (!length)
        return CIDAWRU_DONE;
    if (!link)
        return CIDAWRU_NO_MEMORY;
    buf = link->buf;
    if ((size_t)(buf->end - buf->start) < length) {
        if (buf->start)
            ngx_pfree(r->pool, buf->start);
        buf->start = ngx_palloc(r->pool, length);
        buf->end = buf->start ? buf->start + length : NULL;
        if (!buf->start)
            return CIDAWRU_NO_MEMORY;
    }
    *buf = (ngx_buf_t){.start = buf->start, .pos = buf->start, .last = buf->start + length, .end = buf->end, .temporary = 1, .tag = TAG};
    session_output(response->session, response->number, buf->pos, length);
    hold(response, link);
    response->held_length += length;
    return CIDAWRU_DONE;
}

/* Passes on what is held, and pushes what was passed on before. */
static ngx_int_t send_body(ngx_http_request_t *r, response_t *response)
{
    ngx_int_t rc = next_body(r, response->held);
    ngx_chain_update_chains(r->pool, &response->free, &response->busy, &response->held, TAG);
    response->held_length = 0;
    response->end = &response->held;
    response->final = NULL;
    return rc;
}

/* Passes on what is held, behind the header, and says at its end that it is to be sent, or that it is the last. Where nothing is held a
 * buffer without bytes says so. */
static ngx_int_t pass_on(ngx_http_request_t *r, response_t *response)
{
    ngx_chain_t *none = response->final ? NULL : ngx_alloc_chain_link(r->pool);
    ngx_int_t rc;
    if (!response->final) {
        if (!none || !(none->buf = ngx_calloc_buf(r->pool)))
            return NGX_ERROR;
        none->buf->sync = 1;
        hold(response, none);
    }
    response->final->flush = response->flush;
    response->final->last_buf = response->over && r == r->main;
    response->final->last_in_chain = response->over;
    response->flush = 0;
    if (!response->header_sent) {
        response->header_sent = 1;
        if (response->over && r == r->main)
            r->headers_out.content_length_n = response->held_length;
        rc = next_header(r);
        if (rc == NGX_ERROR || rc > NGX_OK || r->header_only)
            return NGX_ERROR;
    }
    return send_body(r, response);
}

/* ---- what comes ---- */

/* Adds pieces of what came, up to a FLUSH, the end, or so many bytes. */
static uint32_t gather(ngx_http_request_t *r, response_t *response, int *any)
{
    size_t pending = 0;
    uint32_t code = CIDAWRU_DONE;
    while (response->in && pending < CHAIN_PIECES && !response->flush && !response->last && code == CIDAWRU_DONE) {
        ngx_chain_t *link = response->in;
        ngx_buf_t *buf = link->buf;
        size_t length = ngx_buf_in_memory(buf) ? ngx_min((size_t)(buf->last - buf->pos), CHAIN_PIECES - pending) : 0;
        if (length) {
            code = session_piece(response->session, response->number, CIDAWRU_TRANSIENT, buf->pos, length);
            buf->pos += length;
            pending += length;
            *any = 1;
        }
        if (ngx_buf_in_memory(buf) && buf->pos < buf->last)
            break;
        buf->file_pos = buf->file_last;
        response->flush = buf->flush || (r->upstream && buf->recycled);
        response->last = buf->last_buf || (r != r->main && buf->last_in_chain);
        response->in = link->next;
        ngx_free_chain(r->pool, link);
    }
    if (code == CIDAWRU_DONE && (response->flush || response->last)) {
        code = session_piece(response->session, response->number, response->last ? CIDAWRU_EOS : CIDAWRU_FLUSH, "", 0);
        *any = 1;
    }
    return code;
}

/* Begins the call that is due; none is running then where nothing is there to bring. */
static uint32_t begin_call(ngx_http_request_t *r, response_t *response)
{
    uint32_t code;
    int any = 0;
    switch (response->due) {
    case TO_OPEN:
        response->session = session_take(response->conf->chain, response->conf->budget, response->conf->limit);
        if (!response->session)
            return CIDAWRU_NO_MEMORY;
        response->due = TO_BEGIN;
        response->running = 1;
        return session_open(response->session, &response->number);
    case TO_BEGIN:
        response->due = TO_BRING;
        response->running = 1;
        return session_begin(response->session, response->number);
    default:
        code = gather(r, response, &any);
        response->running = any;
        return any && code == CIDAWRU_DONE ? session_bring(response->session, response->number) : code;
    }
}

/* The end of a turn: others come first. It is as where a rate is limited, but for no time. */
static ngx_int_t pause_turn(ngx_http_request_t *r, response_t *response)
{
    ngx_event_t *write = r->connection->write;
    r->buffered |= BUFFERED;
    if (!write->delayed) {
        write->delayed = write->timedout = 1;
        response->paused = 1;
        if (!write->timer_set)
            ngx_add_timer(write, 60000); /* a worker that is to end waits for timers */
        ngx_post_event(write, &ngx_posted_next_events);
    }
    return NGX_AGAIN;
}

/* A turn: calls, in slices, as long as there is something to bring and the client takes what comes out. */
static ngx_int_t work(ngx_http_request_t *r, response_t *response)
{
    for (int calls = 0;; calls++) {
        uint32_t code = CIDAWRU_DONE;
        ngx_int_t rc = response->busy ? send_body(r, response) : NGX_OK;
        if (rc == NGX_ERROR)
            return rc;
        if (response->busy) {
            r->buffered |= BUFFERED;
            return NGX_AGAIN;
        }
        if (!response->running) {
            if (calls == CALLS)
                return pause_turn(r, response);
            code = begin_call(r, response);
            if (code == CIDAWRU_DONE && !response->running)
                break;
        }
        if (code == CIDAWRU_DONE)
            code = session_run(response->session, response->number, SLICE);
        if (code == CIDAWRU_GOES_ON)
            return pause_turn(r, response);
        response->running = 0;
        if (code == CIDAWRU_DONE)
            code = take_output(r, response);
        if (code != CIDAWRU_DONE)
            return fail(r, response, session_cause(response->session, code));
        if (response->last) {
            finish(response);
            response->over = 1;
            r->buffered &= ~BUFFERED;
            return pass_on(r, response);
        }
        if ((response->flush || response->held_length >= CHAIN_HOLD) && pass_on(r, response) == NGX_ERROR)
            return NGX_ERROR;
    }
    r->buffered &= ~BUFFERED;
    return NGX_OK;
}

static ngx_int_t body_filter(ngx_http_request_t *r, ngx_chain_t *in)
{
    response_t *response = ngx_http_get_module_ctx(r, ngx_http_checked_filter_module);
    if (!response || response->replaced)
        return next_body(r, in);
    if (response->failed || response->over)
        return response->failed ? NGX_ERROR : next_body(r, NULL);
    if (response->paused) {
        response->paused = 0;
        r->connection->write->delayed = r->connection->write->timedout = 0;
        if (r->connection->write->timer_set)
            ngx_del_timer(r->connection->write);
    }
    if (in && ngx_chain_add_copy(r->pool, &response->in, in) != NGX_OK)
        return NGX_ERROR;
    return work(r, response);
}

/* ---- the configuration ---- */

static void free_chain(void *data)
{
    chain_free(data);
}

static char *refuse(ngx_conf_t *cf, const char *why)
{
    ngx_conf_log_error(NGX_LOG_EMERG, cf, 0, "checked_filter: %s", why);
    return NGX_CONF_ERROR;
}

static char *set_filter(ngx_conf_t *cf, ngx_command_t *command, void *data)
{
    checked_conf_t *conf = data;
    ngx_str_t *words = cf->args->elts;
    ngx_pool_cleanup_t *cleanup;
    char why[4400];
    if (conf->chain != NGX_CONF_UNSET_PTR)
        return "is duplicate";
    conf->chain = NULL;
    if (cf->args->nelts == 2 && !ngx_strcmp(words[1].data, "off"))
        return NGX_CONF_OK;
    cleanup = ngx_pool_cleanup_add(cf->pool, sizeof *conf->chain);
    if (!cleanup)
        return NGX_CONF_ERROR;
    conf->chain = cleanup->data;
    chain_begin(conf->chain);
    cleanup->handler = free_chain;
    for (ngx_uint_t k = 1; k < cf->args->nelts; k++) {
        int set = is_setting((char *)words[k].data);
        if (!set && ngx_conf_full_name(cf->cycle, &words[k], 1) != NGX_OK)
            return NGX_CONF_ERROR;
        if (!(set ? chain_set : chain_add)(conf->chain, (char *)words[k].data, why, sizeof why))
            return refuse(cf, why);
    }
    return chain_check(conf->chain, why, sizeof why) ? NGX_CONF_OK : refuse(cf, why);
}

static void *create_conf(ngx_conf_t *cf)
{
    checked_conf_t *conf = ngx_pcalloc(cf->pool, sizeof *conf);
    if (conf) {
        conf->chain = NGX_CONF_UNSET_PTR;
        conf->budget = NGX_CONF_UNSET;
        conf->limit = NGX_CONF_UNSET_SIZE;
    }
    return conf;
}

static char *merge_conf(ngx_conf_t *cf, void *above, void *data)
{
    checked_conf_t *from = above, *conf = data;
    ngx_conf_merge_ptr_value(conf->chain, from->chain, NULL);
    ngx_conf_merge_value(conf->budget, from->budget, CHAIN_BUDGET);
    ngx_conf_merge_size_value(conf->limit, from->limit, CHAIN_LIMIT);
    if (conf->budget < 1 || conf->limit < CHAIN_LEAST_LIMIT)
        return refuse(cf, "checked_filter_budget is at least 1, and checked_filter_limit at least 1m");
    return NGX_CONF_OK;
}

static ngx_int_t begin(ngx_conf_t *cf)
{
    next_header = ngx_http_top_header_filter;
    ngx_http_top_header_filter = header_filter;
    next_body = ngx_http_top_body_filter;
    ngx_http_top_body_filter = body_filter;
    return NGX_OK;
}

#define EVERYWHERE (NGX_HTTP_MAIN_CONF | NGX_HTTP_SRV_CONF | NGX_HTTP_LOC_CONF)
#define AT(field) offsetof(checked_conf_t, field)
static ngx_command_t commands[] = {
    {ngx_string("checked_filter"), EVERYWHERE | NGX_CONF_1MORE, set_filter, NGX_HTTP_LOC_CONF_OFFSET, 0, NULL},
    {ngx_string("checked_filter_budget"), EVERYWHERE | NGX_CONF_TAKE1, ngx_conf_set_num_slot, NGX_HTTP_LOC_CONF_OFFSET, AT(budget), NULL},
    {ngx_string("checked_filter_limit"), EVERYWHERE | NGX_CONF_TAKE1, ngx_conf_set_size_slot, NGX_HTTP_LOC_CONF_OFFSET, AT(limit), NULL},
    ngx_null_command
};

static ngx_http_module_t context = {NULL, begin, NULL, NULL, NULL, NULL, create_conf, merge_conf};

ngx_module_t ngx_http_checked_filter_module = {NGX_MODULE_V1, &context, commands, NGX_HTTP_MODULE, NULL, NULL, NULL, NULL, NULL, NULL, NULL,
                                               NGX_MODULE_V1_PADDING};
