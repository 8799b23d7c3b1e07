/* An output filter of Apache httpd that passes each brigade on: the peer of the identity filter in bench/serve.py. */
#include "httpd.h"
#include "http_config.h"
#include "util_filter.h"

static apr_status_t pass(ap_filter_t *filter, apr_bucket_brigade *brigade)
{
    return ap_pass_brigade(filter->next, brigade);
}

static void declare(apr_pool_t *pool)
{
    (void)pool;
    ap_register_output_filter("PASS", pass, NULL, AP_FTYPE_RESOURCE);
}

AP_DECLARE_MODULE(pass_filter) = {STANDARD20_MODULE_STUFF, NULL, NULL, NULL, NULL, NULL, declare};
