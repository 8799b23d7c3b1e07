/* Output filters of Apache httpd whose modules were checked.
 *
 *     CheckedFilter NAME FILE.. [PARAM=VALUE]..   reads and checks the modules of a chain with the configuration, and makes them the output filter
 *                                                 NAME. A file whose name ends in .filter is compiled; the params of such filters may be set
 *
 * The data of each brigade is brought to a session of the chain in pieces; what it puts out becomes heap buckets. The lifetimes that were
 * proved are those of the pieces in the session: no bucket of httpd gets to a module. */
#include "httpd.h"
#include "http_config.h"
#include "http_core.h"
#include "http_log.h"
#include "http_protocol.h"
#include "http_request.h"
#include "util_filter.h"
#include "apr_lib.h"
#include "apr_strings.h"
#include "checked_session.h"

extern module AP_MODULE_DECLARE_DATA checked_filter_module;
APLOG_USE_MODULE(checked_filter);

enum {
    FILTERS = 256,
    WORDS = 64 /* of a line: httpd leaves out those behind them */
};

/* A filter of the configuration. */
struct checked {
    const char *name;
    int by_connection; /* a connection of the chain is one of httpd, and else a request */
    uint64_t budget;
    apr_size_t limit;
    struct chain chain;
};

/* A connection of a chain. No two requests are in one. */
struct bound {
    struct checked *checked;
    struct session *session; /* null: none is taken */
    uint64_t number;         /* of its connection; 0: none is open */
    int busy;                /* in a request */
    struct bound *next;      /* of the same connection of httpd */
};

/* A response on its way through a filter. */
struct response {
    struct checked *checked;
    struct bound *bound;
    apr_bucket_brigade *out; /* what was put out and is not passed on yet */
    apr_size_t held;         /* bytes in it */
    apr_size_t pending;      /* bytes of pieces that are not brought yet */
    int waits;               /* there are such pieces */
    int begun;               /* the request of the chain is open */
    int passed;              /* something was passed on */
    int over;                /* nothing more is brought */
    int ended;               /* the EOS was passed on */
    apr_status_t status;     /* when it is over: what further brigades are answered */
};

static struct checked *filters[FILTERS]; /* of this configuration */
static int filters_count;

/* What the lines CheckedFilter that follow have. */
static uint64_t budget;
static apr_size_t limit;
static int by_connection;

/* ---- what a request is bound to ---- */

/* The connection of httpd is gone. */
static apr_status_t unbind(void *data)
{
    for (struct bound *bound = *(struct bound **)data; bound; bound = bound->next)
        if (bound->session)
            session_give(&bound->checked->chain, bound->session, bound->number);
    return APR_SUCCESS;
}

/* The bound ones of a connection of httpd. */
static struct bound **bound_to(conn_rec *c)
{
    struct bound **first = ap_get_module_config(c->conn_config, &checked_filter_module);
    if (!first) {
        first = apr_pcalloc(c->pool, sizeof *first);
        ap_set_module_config(c->conn_config, &checked_filter_module, first);
        apr_pool_cleanup_register(c->pool, first, unbind, apr_pool_cleanup_null);
    }
    return first;
}

/* One that is in no request. A subrequest can be under way beside its request, in another. */
static struct bound *find_bound(request_rec *r, struct checked *checked)
{
    struct bound *bound, **first = checked->by_connection ? bound_to(r->connection) : NULL;
    for (bound = first ? *first : NULL; bound; bound = bound->next)
        if (bound->checked == checked && !bound->busy)
            return bound;
    bound = apr_pcalloc(first ? r->connection->pool : r->pool, sizeof *bound);
    bound->checked = checked;
    if (first) {
        bound->next = *first;
        *first = bound;
    }
    return bound;
}

/* The request is over, whether or not its EOS came. What is kept for further requests is what did not break. */
static apr_status_t finish(void *data)
{
    struct response *response = data;
    struct bound *bound = response->bound;
    if (!response->begun)
        return APR_SUCCESS;
    response->begun = bound->busy = 0;
    if (!bound->checked->by_connection || session_end(bound->session, bound->number) != CIDAWRU_DONE) {
        session_give(&bound->checked->chain, bound->session, bound->number);
        bound->session = NULL;
        bound->number = 0;
    }
    return APR_SUCCESS;
}

/* Runs what a call began, to its end. */
static uint32_t to_end(struct bound *bound, uint32_t code)
{
    return code == CIDAWRU_DONE ? session_run(bound->session, bound->number, UINT64_MAX) : code;
}

/* The request of the chain begins. */
static uint32_t begin(request_rec *r, struct response *response)
{
    struct bound *bound = find_bound(r, response->checked);
    uint32_t code = CIDAWRU_DONE;
    if (!bound->session)
        bound->session = session_take(&bound->checked->chain, bound->checked->budget, bound->checked->limit);
    if (!bound->session)
        return CIDAWRU_NO_MEMORY;
    response->bound = bound;
    response->begun = bound->busy = 1;
    apr_pool_cleanup_register(r->pool, response, finish, apr_pool_cleanup_null);
    if (!bound->number)
        code = to_end(bound, session_open(bound->session, &bound->number));
    return code == CIDAWRU_DONE ? to_end(bound, session_begin(bound->session, bound->number)) : code;
}

/* ---- what is passed on ---- */

static apr_status_t pass_on(ap_filter_t *filter, struct response *response)
{
    apr_status_t status;
    if (APR_BRIGADE_EMPTY(response->out))
        return APR_SUCCESS;
    response->held = 0;
    response->passed = 1;
    status = ap_pass_brigade(filter->next, response->out);
    apr_brigade_cleanup(response->out);
    if (status != APR_SUCCESS) { /* the client is gone, say */
        response->over = 1;
        response->status = status;
        finish(response);
    }
    return status;
}

/* Ends a response that cannot go on, by 500 where no header was sent; else it is broken off, and the connection is closed. */
static apr_status_t fail_by(ap_filter_t *filter, struct response *response, const char *cause)
{
    request_rec *r = filter->r, *top = r;
    int sent;
    while (top->main)
        top = top->main;
    sent = top->sent_bodyct && (response->passed || r != top); /* mod_proxy says so before it is */
    ap_log_rerror(APLOG_MARK, APLOG_ERR, 0, r, "CheckedFilter %s: %s %s: %s", response->checked->name, r->method, r->uri, cause);
    response->over = response->ended = 1;
    response->status = AP_FILTER_ERROR;
    finish(response);
    apr_brigade_cleanup(response->out);
    if (sent)
        r->connection->keepalive = AP_CONN_CLOSE;
    APR_BRIGADE_INSERT_TAIL(response->out, ap_bucket_error_create(sent ? HTTP_BAD_GATEWAY : HTTP_INTERNAL_SERVER_ERROR, NULL, r->pool,
                                                                  filter->c->bucket_alloc));
    APR_BRIGADE_INSERT_TAIL(response->out, apr_bucket_eos_create(filter->c->bucket_alloc));
    return pass_on(filter, response);
}

static apr_status_t fail(ap_filter_t *filter, struct response *response, uint32_t code)
{
    return fail_by(filter, response, session_cause(response->bound ? response->bound->session : NULL, code));
}

/* Brings the pieces that wait, and puts the output behind what is held. */
static uint32_t bring(ap_filter_t *filter, struct response *response)
{
    struct bound *bound = response->bound;
    char few[512]; /* takes a short output at once, whose length is not known before */
    uint32_t code = to_end(bound, session_bring(bound->session, bound->number));
    apr_size_t length = session_output(bound->session, bound->number, few, sizeof few);
    response->pending = 0;
    response->waits = 0;
    if (code == CIDAWRU_DONE && length > 0) {
        char *bytes = apr_bucket_alloc(length, filter->c->bucket_alloc);
        if (!bytes)
            return CIDAWRU_NO_MEMORY;
        if (length <= sizeof few)
            memcpy(bytes, few, length);
        else
            session_output(bound->session, bound->number, bytes, length);
        APR_BRIGADE_INSERT_TAIL(response->out, apr_bucket_heap_create(bytes, length, apr_bucket_free, filter->c->bucket_alloc));
        response->held += length;
    }
    return code;
}

/* Brings what waits, and passes on where enough is held, or `now`. Of a HEAD nothing more is wanted then: a FLUSH sends its header. */
static apr_status_t bring_and_pass(ap_filter_t *filter, struct response *response, int now)
{
    int head = filter->r->header_only;
    apr_status_t status;
    uint32_t code = response->waits ? bring(filter, response) : CIDAWRU_DONE;
    if (code != CIDAWRU_DONE)
        return fail(filter, response, code);
    if (!now && response->held < CHAIN_HOLD)
        return APR_SUCCESS;
    if (now || head)
        APR_BRIGADE_INSERT_TAIL(response->out, apr_bucket_flush_create(filter->c->bucket_alloc));
    status = pass_on(filter, response);
    if (status == APR_SUCCESS && head) {
        response->over = 1;
        finish(response);
    }
    return status;
}

/* ---- what comes ---- */

static apr_status_t add_piece(ap_filter_t *filter, struct response *response, uint32_t kind, const char *bytes, apr_size_t length)
{
    uint32_t code = session_piece(response->bound->session, response->bound->number, kind, bytes, length);
    response->waits = 1;
    response->pending += length;
    return code == CIDAWRU_DONE ? APR_SUCCESS : fail(filter, response, code);
}

/* The bytes of a bucket. Where they are long in coming, what there is so far goes on before they are waited for. */
static apr_status_t read_bucket(ap_filter_t *filter, struct response *response, apr_bucket *at, const char **bytes, apr_size_t *length)
{
    apr_status_t status = apr_bucket_read(at, bytes, length, APR_NONBLOCK_READ);
    if (APR_STATUS_IS_EAGAIN(status)) {
        status = bring_and_pass(filter, response, 1);
        if (status != APR_SUCCESS || response->over)
            return status;
        status = apr_bucket_read(at, bytes, length, APR_BLOCK_READ);
    }
    return status == APR_SUCCESS ? status : fail_by(filter, response, "the content cannot be read");
}

static apr_status_t on_data(ap_filter_t *filter, struct response *response, apr_bucket *at)
{
    const char *bytes = NULL;
    apr_size_t length = 0;
    uint32_t kind = APR_BUCKET_IS_TRANSIENT(at) ? CIDAWRU_TRANSIENT : APR_BUCKET_IS_IMMORTAL(at) ? CIDAWRU_IMMORTAL : CIDAWRU_HEAP;
    apr_status_t status = read_bucket(filter, response, at, &bytes, &length);
    while (status == APR_SUCCESS && !response->over && length > 0) {
        apr_size_t part = CHAIN_PIECES - response->pending < length ? CHAIN_PIECES - response->pending : length;
        status = part > 0 ? add_piece(filter, response, kind, bytes, part) : bring_and_pass(filter, response, 0);
        bytes += part;
        length -= part;
    }
    return status;
}

/* Takes out what may not pass a filter that is done with a response: data, and an end that was passed on before. */
static void only_told(apr_bucket_brigade *brigade, int with_eos)
{
    for (apr_bucket *at = APR_BRIGADE_FIRST(brigade), *next; at != APR_BRIGADE_SENTINEL(brigade); at = next) {
        next = APR_BUCKET_NEXT(at);
        if (!APR_BUCKET_IS_METADATA(at) || (APR_BUCKET_IS_EOS(at) && !with_eos))
            apr_bucket_delete(at);
    }
}

/* The end: its output goes on, with the EOS and what stands behind it. */
static apr_status_t on_eos(ap_filter_t *filter, struct response *response, apr_bucket_brigade *brigade)
{
    uint32_t code;
    apr_bucket *eos = APR_BRIGADE_FIRST(brigade);
    apr_status_t status = add_piece(filter, response, CIDAWRU_EOS, "", 0);
    if (status != APR_SUCCESS || response->over)
        return status;
    code = bring(filter, response);
    if (code != CIDAWRU_DONE)
        return fail(filter, response, code);
    response->over = response->ended = 1;
    finish(response);
    APR_BUCKET_REMOVE(eos);
    APR_BRIGADE_INSERT_TAIL(response->out, eos);
    only_told(brigade, 0);
    APR_BRIGADE_CONCAT(response->out, brigade);
    return pass_on(filter, response);
}

/* An error takes the place of the response. */
static apr_status_t on_error(ap_filter_t *filter, struct response *response, apr_bucket_brigade *brigade)
{
    response->over = 1;
    finish(response);
    apr_brigade_cleanup(response->out);
    only_told(brigade, 1);
    return ap_pass_brigade(filter->next, brigade);
}

/* The first bucket of a brigade, which it leaves. */
static apr_status_t on_bucket(ap_filter_t *filter, struct response *response, apr_bucket_brigade *brigade)
{
    apr_status_t status = APR_SUCCESS;
    apr_bucket *at = APR_BRIGADE_FIRST(brigade);
    if (APR_BUCKET_IS_EOS(at))
        return on_eos(filter, response, brigade);
    if (AP_BUCKET_IS_ERROR(at))
        return on_error(filter, response, brigade);
    if (APR_BUCKET_IS_FLUSH(at)) {
        status = add_piece(filter, response, CIDAWRU_FLUSH, "", 0);
        if (status == APR_SUCCESS && !response->over)
            status = bring_and_pass(filter, response, 1);
    } else if (APR_BUCKET_IS_METADATA(at)) {
        status = bring_and_pass(filter, response, 0);
        if (status == APR_SUCCESS && !response->over) {
            APR_BUCKET_REMOVE(at);
            APR_BRIGADE_INSERT_TAIL(response->out, at);
            return status;
        }
    } else
        status = on_data(filter, response, at);
    apr_bucket_delete(at);
    return status;
}

/* ---- a response ---- */

/* What was said of the body is not true of what comes out. An entity tag is weak: it holds for what is alike, and not for parts of it. */
static void adjust_header(request_rec *r)
{
    static const char *const NAMES[] = {"Content-Length", "Content-MD5", "Digest", "Content-Digest", "Repr-Digest", "Accept-Ranges"};
    const char *tag = apr_table_get(r->headers_out, "ETag");
    for (size_t k = 0; k < sizeof NAMES / sizeof *NAMES; k++)
        apr_table_unset(r->headers_out, NAMES[k]);
    if (tag && strncmp(tag, "W/", 2))
        apr_table_setn(r->headers_out, "ETag", apr_pstrcat(r->pool, "W/", tag, NULL));
}

static struct response *new_response(ap_filter_t *filter, struct checked *checked)
{
    struct response *response = apr_pcalloc(filter->r->pool, sizeof *response);
    response->checked = checked;
    response->out = apr_brigade_create(filter->r->pool, filter->c->bucket_alloc);
    filter->ctx = response;
    return response;
}

static apr_status_t begin_response(ap_filter_t *filter, struct response *response)
{
    uint32_t code;
    adjust_header(filter->r);
    if (filter->r->status == HTTP_PARTIAL_CONTENT || apr_table_get(filter->r->headers_out, "Content-Range"))
        return fail_by(filter, response, "a part of a body is not filtered");
    code = begin(filter->r, response);
    return code == CIDAWRU_DONE ? APR_SUCCESS : fail(filter, response, code);
}

static apr_status_t on_brigade(struct checked *checked, ap_filter_t *filter, apr_bucket_brigade *brigade)
{
    struct response *response = filter->ctx;
    apr_status_t status = APR_SUCCESS;
    if (!response && AP_STATUS_IS_HEADER_ONLY(filter->r->status)) {
        adjust_header(filter->r);
        ap_remove_output_filter(filter);
        return ap_pass_brigade(filter->next, brigade);
    }
    if (!response) {
        response = new_response(filter, checked);
        status = begin_response(filter, response);
    } else if (response->over) {
        status = response->status;
        only_told(brigade, !response->ended);
        return status == APR_SUCCESS && !APR_BRIGADE_EMPTY(brigade) ? ap_pass_brigade(filter->next, brigade) : status;
    }
    while (status == APR_SUCCESS && !response->over && !APR_BRIGADE_EMPTY(brigade))
        status = on_bucket(filter, response, brigade);
    if (status == APR_SUCCESS && !response->over)
        status = bring_and_pass(filter, response, 0);
    apr_brigade_cleanup(brigade);
    return status;
}

/* A backend is asked for the whole of a body: what comes out is cut into ranges, and not what goes in. */
static int before_handler(ap_filter_t *filter)
{
    if (filter->r->proxyreq) {
        apr_table_unset(filter->r->headers_in, "Range");
        apr_table_unset(filter->r->headers_in, "If-Range");
    }
    return OK;
}

/* A function for each filter: httpd does not tell a filter under which name it was registered, where mod_filter calls it. */
#define ENTRY(n) static apr_status_t entry_##n(ap_filter_t *filter, apr_bucket_brigade *brigade) { return on_brigade(filters[0x##n], filter, brigade); }
#define NAME_OF(n) entry_##n,
#define ROW(of, n) of(n##0) of(n##1) of(n##2) of(n##3) of(n##4) of(n##5) of(n##6) of(n##7) of(n##8) of(n##9) of(n##a) of(n##b) of(n##c) of(n##d) of(n##e) of(n##f)
#define ROWS(of) ROW(of, 0) ROW(of, 1) ROW(of, 2) ROW(of, 3) ROW(of, 4) ROW(of, 5) ROW(of, 6) ROW(of, 7) \
                 ROW(of, 8) ROW(of, 9) ROW(of, a) ROW(of, b) ROW(of, c) ROW(of, d) ROW(of, e) ROW(of, f)
ROWS(ENTRY)
static const ap_out_filter_func ENTRIES[FILTERS] = {ROWS(NAME_OF)};

/* ---- the configuration ---- */

static apr_status_t free_chain(void *data)
{
    chain_free(data);
    return APR_SUCCESS;
}

/* Adds a word of the directive: a setting, or the file of a module or of a filter. False: `why` has what is wrong. */
static int add_word(cmd_parms *cmd, struct chain *chain, const char *word, char *why, apr_size_t room)
{
    const char *file;
    if (is_setting(word))
        return chain_set(chain, word, why, room);
    file = ap_server_root_relative(cmd->pool, word);
    if (!file)
        apr_snprintf(why, room, "%s: no name of a file", word);
    return file && chain_add(chain, file, why, room);
}

/* Reads and checks the files of a filter. */
static const char *load(cmd_parms *cmd, struct checked *checked, int count, char *const words[])
{
    char why[4400];
    int k = 0;
    while (k < count && add_word(cmd, &checked->chain, words[k], why, sizeof why))
        k++;
    if (k < count || !chain_check(&checked->chain, why, sizeof why))
        return apr_psprintf(cmd->pool, "CheckedFilter %s: %s", checked->name, why);
    return NULL;
}

static const char *add_filter(cmd_parms *cmd, void *config, int argc, char *const argv[])
{
    struct checked *checked;
    char *name;
    const char *wrong = ap_check_cmd_context(cmd, GLOBAL_ONLY);
    (void)config;
    if (wrong)
        return wrong;
    if (argc < 2)
        return "CheckedFilter: a name, and the files of 1 to 16 modules or filters";
    if (argc == WORDS)
        return "CheckedFilter: at most 62 files and settings";
    if (filters_count == FILTERS)
        return "CheckedFilter: there are 256 filters already";
    name = apr_pstrdup(cmd->pool, argv[0]);
    ap_str_tolower(name);
    if (ap_get_output_filter_handle(name))
        return apr_psprintf(cmd->pool, "CheckedFilter %s: there is a filter of this name", argv[0]);
    checked = apr_pcalloc(cmd->pool, sizeof *checked);
    checked->name = apr_pstrdup(cmd->pool, argv[0]);
    checked->by_connection = by_connection;
    checked->budget = budget;
    checked->limit = limit;
    chain_begin(&checked->chain);
    apr_pool_cleanup_register(cmd->pool, &checked->chain, free_chain, apr_pool_cleanup_null);
    wrong = load(cmd, checked, argc - 1, argv + 1);
    if (wrong)
        return wrong;
    filters[filters_count] = checked;
    ap_register_output_filter_protocol(name, ENTRIES[filters_count++], before_handler, AP_FTYPE_RESOURCE,
                                       AP_FILTER_PROTO_CHANGE | AP_FILTER_PROTO_CHANGE_LENGTH);
    return NULL;
}

/* A number of decimal digits, at least `least`; 0 where the word is none. */
static uint64_t number_of(const char *word, uint64_t least)
{
    char *end;
    apr_int64_t value;
    errno = 0;
    value = apr_isdigit(*word) ? apr_strtoi64(word, &end, 10) : 0;
    return value > 0 && errno == 0 && !*end && (uint64_t)value >= least ? (uint64_t)value : 0;
}

static const char *set_budget(cmd_parms *cmd, void *config, const char *word)
{
    const char *wrong = ap_check_cmd_context(cmd, GLOBAL_ONLY);
    (void)config;
    if (wrong)
        return wrong;
    budget = number_of(word, 1);
    return budget ? NULL : "CheckedFilterBudget: a number of instructions";
}

static const char *set_limit(cmd_parms *cmd, void *config, const char *word)
{
    const char *wrong = ap_check_cmd_context(cmd, GLOBAL_ONLY);
    (void)config;
    if (wrong)
        return wrong;
    limit = (apr_size_t)number_of(word, CHAIN_LEAST_LIMIT);
    return limit ? NULL : "CheckedFilterLimit: a number of bytes, at least 1048576";
}

static const char *set_scope(cmd_parms *cmd, void *config, const char *word)
{
    const char *wrong = ap_check_cmd_context(cmd, GLOBAL_ONLY);
    (void)config;
    if (wrong)
        return wrong;
    by_connection = !ap_cstr_casecmp(word, "connection");
    return by_connection || !ap_cstr_casecmp(word, "request") ? NULL : "CheckedFilterScope: request or connection";
}

static int begin_configuration(apr_pool_t *pool, apr_pool_t *log, apr_pool_t *temporary)
{
    (void)pool, (void)log, (void)temporary;
    filters_count = 0;
    budget = CHAIN_BUDGET;
    limit = CHAIN_LIMIT;
    by_connection = 0;
    return OK;
}

/* A child ends. */
static apr_status_t rest(void *data)
{
    (void)data;
    for (int k = 0; k < filters_count; k++)
        chain_rest(&filters[k]->chain);
    return APR_SUCCESS;
}

static void begin_child(apr_pool_t *pool, server_rec *server)
{
    (void)server;
    apr_pool_cleanup_register(pool, NULL, rest, apr_pool_cleanup_null);
}

static const command_rec commands[] = {
    AP_INIT_TAKE_ARGV("CheckedFilter", add_filter, NULL, RSRC_CONF,
                      "a name, the files of 1 to 16 modules or filters, and PARAM=VALUE; FILE.cert has the certificate of a module"),
    AP_INIT_TAKE1("CheckedFilterBudget", set_budget, NULL, RSRC_CONF, "how many instructions a call may execute, of the filters below"),
    AP_INIT_TAKE1("CheckedFilterLimit", set_limit, NULL, RSRC_CONF, "how many bytes of memory a request may hold, of the filters below"),
    AP_INIT_TAKE1("CheckedFilterScope", set_scope, NULL, RSRC_CONF, "whether a connection of the filters below is a request or a connection"),
    {NULL}
};

static void declare(apr_pool_t *pool)
{
    (void)pool;
    ap_hook_pre_config(begin_configuration, NULL, NULL, APR_HOOK_MIDDLE);
    ap_hook_child_init(begin_child, NULL, NULL, APR_HOOK_MIDDLE);
}

module AP_MODULE_DECLARE_DATA checked_filter_module = {STANDARD20_MODULE_STUFF, NULL, NULL, NULL, NULL, commands, declare, 0};
