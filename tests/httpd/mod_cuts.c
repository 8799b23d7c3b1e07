/* A handler of Apache httpd for tests: it answers with the body of the request, cut as the query says.
 *
 * The query is words with commas between them: a kind and a length, h3 (heap), t5 (transient), i2 (immortal), p4 (pool) or f6 (file), which
 * takes so many bytes of what is left; F, a FLUSH; E, the EOS; b, the end of a brigade, which is passed on. */
#include "httpd.h"
#include "http_config.h"
#include "http_protocol.h"
#include "util_filter.h"
#include "apr_strings.h"

/* The body of the request. */
static apr_status_t body_of(request_rec *r, char **bytes, apr_size_t *length)
{
    apr_bucket_brigade *brigade = apr_brigade_create(r->pool, r->connection->bucket_alloc);
    apr_status_t status;
    int over = 0;
    apr_bucket_brigade *all = apr_brigade_create(r->pool, r->connection->bucket_alloc);
    while (!over) {
        status = ap_get_brigade(r->input_filters, brigade, AP_MODE_READBYTES, APR_BLOCK_READ, 65536);
        if (status != APR_SUCCESS)
            return status;
        over = !APR_BRIGADE_EMPTY(brigade) && APR_BUCKET_IS_EOS(APR_BRIGADE_LAST(brigade));
        ap_save_brigade(NULL, &all, &brigade, r->pool);
    }
    status = apr_brigade_pflatten(all, bytes, length, r->pool);
    apr_brigade_destroy(all);
    return status;
}

static apr_bucket *in_file(request_rec *r, const char *bytes, apr_size_t length)
{
    apr_file_t *file;
    char *name = apr_pstrdup(r->pool, "/tmp/cuts.XXXXXX");
    if (apr_file_mktemp(&file, name, APR_FOPEN_CREATE | APR_FOPEN_READ | APR_FOPEN_WRITE | APR_FOPEN_DELONCLOSE, r->pool) != APR_SUCCESS ||
        apr_file_write_full(file, bytes, length, NULL) != APR_SUCCESS)
        return NULL;
    return apr_bucket_file_create(file, 0, length, r->pool, r->connection->bucket_alloc);
}

static apr_bucket *piece(request_rec *r, char kind, const char *bytes, apr_size_t length)
{
    apr_bucket_alloc_t *list = r->connection->bucket_alloc;
    switch (kind) {
    case 'h':
        return apr_bucket_heap_create(bytes, length, NULL, list);
    case 't':
        return apr_bucket_transient_create(bytes, length, list);
    case 'i':
        return apr_bucket_immortal_create(bytes, length, list);
    case 'p':
        return apr_bucket_pool_create(bytes, length, r->pool, list);
    case 'f':
        return in_file(r, bytes, length);
    default:
        return NULL;
    }
}

static int answer(request_rec *r)
{
    apr_bucket_brigade *out = apr_brigade_create(r->pool, r->connection->bucket_alloc);
    char *bytes, *state, *word;
    apr_size_t left;
    if (!r->handler || strcmp(r->handler, "cuts"))
        return DECLINED;
    if (body_of(r, &bytes, &left) != APR_SUCCESS)
        return HTTP_BAD_REQUEST;
    ap_set_content_type(r, "application/octet-stream");
    ap_set_content_length(r, left);
    for (word = apr_strtok(apr_pstrdup(r->pool, r->args ? r->args : ""), ",", &state); word; word = apr_strtok(NULL, ",", &state)) {
        apr_size_t length = strtoul(word + 1, NULL, 10);
        apr_bucket *at = *word == 'F' ? apr_bucket_flush_create(out->bucket_alloc) : *word == 'E' ? apr_bucket_eos_create(out->bucket_alloc) : NULL;
        if (*word == 'b') {
            if (ap_pass_brigade(r->output_filters, out) != APR_SUCCESS)
                return OK;
            apr_brigade_cleanup(out);
            continue;
        }
        if (!at) {
            if (length > left || !(at = piece(r, *word, bytes, length)))
                return HTTP_BAD_REQUEST;
            bytes += length;
            left -= length;
        }
        APR_BRIGADE_INSERT_TAIL(out, at);
    }
    ap_pass_brigade(r->output_filters, out);
    return OK;
}

static void declare(apr_pool_t *pool)
{
    (void)pool;
    ap_hook_handler(answer, NULL, NULL, APR_HOOK_MIDDLE);
}

AP_DECLARE_MODULE(cuts) = {STANDARD20_MODULE_STUFF, NULL, NULL, NULL, NULL, NULL, declare, 0};
