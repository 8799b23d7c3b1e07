/* An output filter of Apache httpd that makes letters a to z capitals, byte by byte: the peer of filters/upper.mod in bench/bytes.py. */
#include "httpd.h"
#include "http_config.h"
#include "util_filter.h"

static apr_status_t upper(ap_filter_t *filter, apr_bucket_brigade *brigade)
{
    apr_bucket *at = APR_BRIGADE_FIRST(brigade);
    while (at != APR_BRIGADE_SENTINEL(brigade)) {
        const char *bytes;
        apr_size_t length;
        apr_bucket *made;
        char *out;
        if (APR_BUCKET_IS_METADATA(at)) {
            at = APR_BUCKET_NEXT(at);
            continue;
        }
        apr_status_t status = apr_bucket_read(at, &bytes, &length, APR_BLOCK_READ);
        if (status != APR_SUCCESS)
            return status;
        out = apr_bucket_alloc(length + 1, filter->c->bucket_alloc);
        for (apr_size_t k = 0; k < length; k++) {
            unsigned char c = bytes[k];
            out[k] = c >= 'a' && c <= 'z' ? c - 32 : c;
        }
        made = apr_bucket_heap_create(out, length, apr_bucket_free, filter->c->bucket_alloc);
        APR_BUCKET_INSERT_BEFORE(at, made);
        apr_bucket *gone = at;
        at = APR_BUCKET_NEXT(at);
        apr_bucket_delete(gone);
    }
    return ap_pass_brigade(filter->next, brigade);
}

static void declare(apr_pool_t *pool)
{
    (void)pool;
    ap_register_output_filter("UPPER", upper, NULL, AP_FTYPE_RESOURCE);
}

AP_DECLARE_MODULE(upper_filter) = {STANDARD20_MODULE_STUFF, NULL, NULL, NULL, NULL, NULL, declare};
