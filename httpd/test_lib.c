/* Calls each function of cidawru.h, and compares what it answers. In httpd/, once `rt lib` has made the library:
 *
 *     gcc -std=c11 -g -Wall -Wextra test_lib.c ../crates/host_lib/out/libhost_lib.a -o test_lib
 *     valgrind --error-exitcode=9 --leak-check=full ./test_lib ../filters
 *
 * It defines the three functions on memory itself: it counts the blocks, refuses the one that it is told to, and finds in the end that all are freed. */
#include "cidawru.h"
#include <stdio.h>
#include <stdlib.h>
#include <string.h>

static long blocks;      /* that are taken and not freed */
static long asked;       /* how often memory was asked for */
static long refuse_from; /* refuse from this asking on; 0: never */
static char spare;       /* where a refused pointer points */
static int wrong;
static const char *part = "";

static bool is_refused(void)
{
    asked++;
    return refuse_from && asked >= refuse_from;
}

struct rattle_tried rattle_alloc(size_t size, size_t align)
{
    struct rattle_tried tried = {false, &spare};
    void *p = is_refused() ? NULL : malloc(size ? size : align);
    if (p) {
        tried = (struct rattle_tried){true, p};
        blocks++;
    }
    return tried;
}

struct rattle_tried rattle_realloc(void *old, size_t kept, size_t size, size_t align)
{
    struct rattle_tried tried = {false, &spare};
    void *p = is_refused() ? NULL : realloc(old, size ? size : align);
    (void)kept;
    if (p)
        tried = (struct rattle_tried){true, p};
    return tried;
}

void rattle_dealloc(void *p)
{
    blocks--;
    free(p);
}

static void is(const char *what, unsigned long found, unsigned long due)
{
    if (found != due) {
        printf("%s: %s is %lu, due is %lu\n", part, what, found, due);
        wrong++;
    }
}

/* The texts of a chain, one after another, and settings. */
struct texts {
    unsigned char bytes[1 << 18], settings[2048];
    size_t length, settings_length;
    struct cidawru_lengths lengths[20];
    size_t setting_lengths[8];
    size_t count, setting_count;
};

static size_t add_file(struct texts *texts, const char *folder, const char *name)
{
    char path[512];
    FILE *file;
    size_t length = 0;
    snprintf(path, sizeof path, "%s/%s", folder, name);
    file = fopen(path, "rb");
    if (file) {
        length = fread(texts->bytes + texts->length, 1, sizeof texts->bytes - texts->length, file);
        fclose(file);
    } else {
        printf("%s is not there\n", path);
        wrong++;
    }
    texts->length += length;
    return length;
}

/* A module of the folder, with its certificate or without. */
static void add(struct texts *texts, const char *folder, const char *name, bool certified)
{
    char cert[256];
    struct cidawru_lengths *lengths = &texts->lengths[texts->count++];
    snprintf(cert, sizeof cert, "%s.cert", name);
    lengths->text = add_file(texts, folder, name);
    lengths->certificate = certified ? add_file(texts, folder, cert) : 0;
}

static void add_text(struct texts *texts, const char *module, const char *certificate)
{
    struct cidawru_lengths *lengths = &texts->lengths[texts->count++];
    lengths->text = strlen(module);
    lengths->certificate = strlen(certificate);
    memcpy(texts->bytes + texts->length, module, lengths->text);
    texts->length += lengths->text;
    memcpy(texts->bytes + texts->length, certificate, lengths->certificate);
    texts->length += lengths->certificate;
}

static void add_filter(struct texts *texts, const char *filter)
{
    add_text(texts, filter, "");
    texts->lengths[texts->count - 1].kind = CIDAWRU_FILTER;
}

static void set(struct texts *texts, const char *word)
{
    size_t length = strlen(word);
    texts->setting_lengths[texts->setting_count++] = length;
    memcpy(texts->settings + texts->settings_length, word, length);
    texts->settings_length += length;
}

/* The message of what was refused last. */
static unsigned char message[64];

static bool make(struct cidawru *handle, const struct texts *texts, uint64_t budget, struct cidawru_told *told)
{
    memset(message, '.', sizeof message);
    return cidawru_new(handle, texts->bytes, texts->length, texts->lengths, texts->count, texts->settings, texts->settings_length,
                       texts->setting_lengths, texts->setting_count, budget, told, message, sizeof message);
}

/* What a chain that is refused tells; `blocks` are all free again. */
static void refused(const char *name, const struct texts *texts, uint32_t what, uint64_t module, uint64_t place, uint32_t code)
{
    struct cidawru handle = {0};
    struct cidawru_told told = {9, 9, 9, 9, 9, 9};
    part = name;
    is("new", make(&handle, texts, 1000, &told), false);
    is("what", told.what, what);
    is("module", told.module, module);
    is("place", told.place, place);
    is("code", told.code, code);
    is("column", told.column, 0);
    is("message", told.message, 0);
    is("buffer", message[0], '.');
    is("held", handle.held, false);
    is("blocks", blocks, 0);
}

/* What a chain tells of whose filters or settings one is refused: the place, and the front of a message. */
static void refused_filter(const char *due, const struct texts *texts, uint32_t what, uint64_t module, uint64_t place, uint64_t column)
{
    struct cidawru handle = {0};
    struct cidawru_told told = {9, 9, 9, 9, 9, 9};
    size_t length = strlen(due), shown = length < sizeof message ? length : sizeof message;
    part = due;
    is("new", make(&handle, texts, 1000, &told), false);
    is("what", told.what, what);
    is("module", told.module, module);
    is("place", told.place, place);
    is("column", told.column, column);
    is("code", told.code, 0);
    is("length of the message", told.message, length);
    is("message", memcmp(message, due, shown), 0);
    is("behind it", shown == sizeof message || message[shown] == '.', true);
    is("held", handle.held, false);
    is("blocks", blocks, 0);
}

static const char PASSES[] = "module 1\nopen\n  ret ok\ninit\n  ret ok\nmain\n  jsent gone\n  pass in bad\n:gone\n  bclean in\n  ret ok\n:bad\n  bclean in\n  ret fail\nend\n";
static const char LOOPS[] = "module 1\nopen\n  ret ok\ninit\n  ret ok\nmain\n:again\n  jump again\nend\n";
static const char FAILS[] = "module 1\nopen\n  ret ok\ninit\n  ret ok\nmain\n  ret fail\nend\n";
static const char FAULTS[] = "module 1\nbrigade b0 req\nopen\n  ret ok\ninit\n  ret ok\nmain\n  bclean b0\n  ret ok\nend\n";

static const char WORD[] = "filter word\nparam word = \"x\"\nparam most = 3\nvar left = most\non byte b { if left > 0 { emit word left -= 1 } else { emit b } }\n";

static void tells_why_of_filters(void)
{
    static struct texts texts, none;
    static char name[100], due[160];
    add_text(&texts, PASSES, "");
    add_filter(&texts, "filter f\non byte b { emit c }\n");
    refused_filter("line 2, column 18: `c` is not declared\n", &texts, CIDAWRU_TOLD_NO_FILTER, 1, 2, 18);
    texts = none;
    add_filter(&texts, WORD);
    set(&texts, "most=4");
    set(&texts, "word.most=-4");
    refused_filter("cannot set word.most: a number from 0 to 4294967295 is due\n", &texts, CIDAWRU_TOLD_NO_FILTER, 0, 0, 0);
    texts.setting_count--;
    texts.settings_length -= strlen("word.most=-4");
    set(&texts, "last=4");
    refused_filter("cannot set last: no filter here has such a param\n", &texts, CIDAWRU_TOLD_NO_SETTING, 0, 0, 0);
    texts.settings_length--;
    refused("a setting too long", &texts, CIDAWRU_TOLD_NO_CHAIN, 0, 0, 0);
    texts.settings_length++;
    texts.setting_lengths[0] = SIZE_MAX;
    refused("a length too large", &texts, CIDAWRU_TOLD_NO_CHAIN, 0, 0, 0);
    texts = none;
    add_filter(&texts, WORD);
    set(&texts, "most");
    refused_filter("cannot set most: NAME=VALUE is due\n", &texts, CIDAWRU_TOLD_NO_SETTING, 0, 0, 0);
    texts = none;
    add_filter(&texts, WORD);
    memset(name, 'n', sizeof name - 1);
    name[98] = '=';
    set(&texts, name);
    snprintf(due, sizeof due, "cannot set %.98s: no filter here has such a param\n", name);
    refused_filter(due, &texts, CIDAWRU_TOLD_NO_SETTING, 0, 0, 0);
    texts = none;
    add_filter(&texts, WORD);
    add_text(&texts, PASSES, "");
    texts.lengths[1].kind = 2;
    refused("no kind", &texts, CIDAWRU_TOLD_NO_KIND, 1, 0, 0);
}

static void tells_why(void)
{
    static struct texts texts, none;
    refused("no module", &none, CIDAWRU_TOLD_NO_CHAIN, 0, 0, 0);
    add_text(&texts, PASSES, "");
    texts.length++;
    refused("a byte too many", &texts, CIDAWRU_TOLD_NO_CHAIN, 0, 0, 0);
    texts.length--;
    texts.lengths[0].certificate = SIZE_MAX;
    refused("a length too large", &texts, CIDAWRU_TOLD_NO_CHAIN, 0, 0, 0);
    texts.lengths[0].certificate = 0;
    for (int k = 1; k < 17; k++)
        add_text(&texts, PASSES, "");
    refused("17 modules", &texts, CIDAWRU_TOLD_NO_CHAIN, 0, 0, 0);
    texts = none;
    add_text(&texts, PASSES, "");
    add_text(&texts, "module 1\nopen\n  nonsense\n", "");
    refused("no module text", &texts, CIDAWRU_TOLD_NO_MODULE, 1, 3, 3);
    texts = none;
    add_text(&texts, PASSES, "nonsense\n");
    refused("no certificate text", &texts, CIDAWRU_TOLD_NO_CERT, 0, 1, 2);
    texts = none;
    add_text(&texts, PASSES, "");
    add_text(&texts, FAULTS, "");
    refused("a module with a fault", &texts, CIDAWRU_TOLD_REFUSED, 1, 2, 2);
    texts = none;
    add_text(&texts, FAULTS, "");
    add_text(&texts, "nonsense\n", "");
    refused("texts are read first", &texts, CIDAWRU_TOLD_NO_MODULE, 1, 1, 3);
}

static void of_no_session(void)
{
    struct cidawru handle = {0};
    unsigned char buffer[1] = {7};
    uint64_t number = 7;
    part = "no session";
    is("open", cidawru_open(&handle, &number), CIDAWRU_NO_SESSION);
    is("number", number, 0);
    is("begin", cidawru_begin(&handle, 1), CIDAWRU_NO_SESSION);
    is("piece", cidawru_piece(&handle, 1, CIDAWRU_EOS, buffer, 0), CIDAWRU_NO_SESSION);
    is("bring", cidawru_bring(&handle, 1), CIDAWRU_NO_SESSION);
    is("run", cidawru_run(&handle, 1, 1), CIDAWRU_NO_SESSION);
    is("output", cidawru_output(&handle, 1, buffer, 1), 0);
    is("buffer", buffer[0], 7);
    is("end", cidawru_end(&handle, 1), CIDAWRU_NO_SESSION);
    is("close", cidawru_close(&handle, 1), CIDAWRU_NO_SESSION);
    cidawru_free(&handle);
    is("held", handle.held, false);
    is("blocks", blocks, 0);
}

/* Runs to the end, by so many steps at a time. */
static uint32_t run(struct cidawru *handle, uint64_t number, uint64_t most)
{
    uint32_t code;
    do
        code = cidawru_run(handle, number, most);
    while (code == CIDAWRU_GOES_ON);
    return code;
}

static uint32_t piece(struct cidawru *handle, uint64_t number, uint32_t kind, const char *bytes)
{
    return cidawru_piece(handle, number, kind, (const unsigned char *)bytes, strlen(bytes));
}

static void says(struct cidawru *handle, uint64_t number, const char *due)
{
    unsigned char buffer[64];
    size_t length = strlen(due);
    memset(buffer, '.', sizeof buffer);
    if (length)
        is("output that does not fit", cidawru_output(handle, number, buffer, length - 1), length);
    is("left", buffer[0], '.');
    is("output", cidawru_output(handle, number, buffer, sizeof buffer), length);
    is("bytes", memcmp(buffer, due, length), 0);
    is("behind them", buffer[length], '.');
    is("output again", cidawru_output(handle, number, buffer, sizeof buffer), 0);
}

/* Two connections whose requests and pieces are interleaved, by so many steps at a time. */
static void serves(const char *folder, bool certified, uint64_t most)
{
    static struct texts texts, none;
    struct cidawru handle = {0}, before;
    struct cidawru_told told;
    uint64_t one = 0, two = 0;
    part = certified ? "serving, with certificates" : "serving";
    texts = none;
    add(&texts, folder, "upper.mod", certified);
    add(&texts, folder, "suffix.mod", certified);
    is("new", make(&handle, &texts, 1000000, &told), true);
    is("told", told.what, 0);
    before = handle;
    is("new again", make(&handle, &texts, 1000000, &told), false);
    is("told again", told.what, CIDAWRU_TOLD_HELD);
    is("the session stays", handle.at == before.at && handle.held, true);
    is("open", cidawru_open(&handle, &one), CIDAWRU_DONE);
    is("begin while it is opened", cidawru_begin(&handle, one), CIDAWRU_BUSY);
    is("run", run(&handle, one, most), CIDAWRU_DONE);
    is("open", cidawru_open(&handle, &two), CIDAWRU_DONE);
    is("run", run(&handle, two, most), CIDAWRU_DONE);
    is("numbers", one == 1 && two == 2, true);
    is("run of no call", cidawru_run(&handle, one, 1), CIDAWRU_IDLE);
    is("end of no request", cidawru_end(&handle, one), CIDAWRU_NOT_IN_REQUEST);
    is("bring in no request", cidawru_bring(&handle, one), CIDAWRU_NOT_IN_REQUEST);
    is("begin", cidawru_begin(&handle, one), CIDAWRU_DONE);
    is("run", run(&handle, one, most), CIDAWRU_DONE);
    is("begin again", cidawru_begin(&handle, one), CIDAWRU_IN_REQUEST);
    is("begin", cidawru_begin(&handle, two), CIDAWRU_DONE);
    is("run", run(&handle, two, most), CIDAWRU_DONE);
    is("piece", piece(&handle, one, CIDAWRU_HEAP, "one "), CIDAWRU_DONE);
    is("piece", piece(&handle, two, CIDAWRU_TRANSIENT, "two "), CIDAWRU_DONE);
    is("piece", piece(&handle, one, CIDAWRU_POOL, "and more"), CIDAWRU_DONE);
    is("piece", piece(&handle, two, CIDAWRU_IMMORTAL, "besides"), CIDAWRU_DONE);
    is("piece of no connection", piece(&handle, 3, CIDAWRU_HEAP, "?"), CIDAWRU_NO_CONNECTION);
    is("bring", cidawru_bring(&handle, one), CIDAWRU_DONE);
    is("run", run(&handle, one, most), CIDAWRU_DONE);
    is("bring", cidawru_bring(&handle, two), CIDAWRU_DONE);
    is("run", run(&handle, two, most), CIDAWRU_DONE);
    is("piece", piece(&handle, one, CIDAWRU_FLUSH, ""), CIDAWRU_DONE);
    is("piece", piece(&handle, one, CIDAWRU_EOS, ""), CIDAWRU_DONE);
    is("bring", cidawru_bring(&handle, one), CIDAWRU_DONE);
    is("run", run(&handle, one, most), CIDAWRU_DONE);
    says(&handle, two, "TWO BESIDES");
    says(&handle, one, "ONE AND MORE-- end --\n");
    /* pieces of a call that is refused are dropped */
    is("piece", piece(&handle, two, CIDAWRU_HEAP, "lost"), CIDAWRU_DONE);
    is("piece of no kind", piece(&handle, two, 6, ""), CIDAWRU_NO_KIND);
    is("piece", piece(&handle, two, CIDAWRU_EOS, ""), CIDAWRU_DONE);
    is("piece", piece(&handle, two, CIDAWRU_HEAP, "behind"), CIDAWRU_DONE);
    is("bring", cidawru_bring(&handle, two), CIDAWRU_AFTER_EOS);
    is("piece", piece(&handle, two, CIDAWRU_HEAP, "kept"), CIDAWRU_DONE);
    is("bring", cidawru_bring(&handle, two), CIDAWRU_DONE);
    is("run", run(&handle, two, most), CIDAWRU_DONE);
    says(&handle, two, "KEPT");
    is("piece", piece(&handle, two, CIDAWRU_HEAP, "of the last request"), CIDAWRU_DONE);
    is("end", cidawru_end(&handle, two), CIDAWRU_DONE);
    is("begin", cidawru_begin(&handle, two), CIDAWRU_DONE);
    is("run", run(&handle, two, most), CIDAWRU_DONE);
    is("bring of nothing", cidawru_bring(&handle, two), CIDAWRU_DONE);
    is("run", run(&handle, two, most), CIDAWRU_DONE);
    says(&handle, two, "");
    is("end", cidawru_end(&handle, one), CIDAWRU_DONE);
    is("close", cidawru_close(&handle, one), CIDAWRU_DONE);
    is("close again", cidawru_close(&handle, one), CIDAWRU_NO_CONNECTION);
    is("begin when closed", cidawru_begin(&handle, one), CIDAWRU_NO_CONNECTION);
    is("output when closed", cidawru_output(&handle, one, texts.bytes, 9), 0);
    cidawru_free(&handle);
    is("held", handle.held, false);
    is("blocks", blocks, 0);
}

/* A filter in the language for authors, with a module behind it; of two settings of a param the last counts. */
static void compiles(const char *folder, const char *number, const char *word, const char *due)
{
    static struct texts texts, none;
    struct cidawru handle = {0};
    struct cidawru_told told;
    uint64_t at = 0;
    part = due;
    texts = none;
    add_filter(&texts, WORD);
    memcpy(texts.bytes + texts.length, "not read", 8);
    texts.length += texts.lengths[0].certificate = 8;
    add(&texts, folder, "suffix.mod", true);
    if (number) {
        set(&texts, "most=5");
        set(&texts, number);
    }
    if (word)
        set(&texts, word);
    is("new", make(&handle, &texts, 1000000, &told), true);
    is("told", told.what, 0);
    is("buffer", message[0], '.');
    is("open", cidawru_open(&handle, &at), CIDAWRU_DONE);
    is("run", run(&handle, at, 2), CIDAWRU_DONE);
    is("begin", cidawru_begin(&handle, at), CIDAWRU_DONE);
    is("run", run(&handle, at, 2), CIDAWRU_DONE);
    is("piece", piece(&handle, at, CIDAWRU_HEAP, "abcd"), CIDAWRU_DONE);
    is("piece", piece(&handle, at, CIDAWRU_EOS, ""), CIDAWRU_DONE);
    is("bring", cidawru_bring(&handle, at), CIDAWRU_DONE);
    is("run", run(&handle, at, 2), CIDAWRU_DONE);
    says(&handle, at, due);
    cidawru_free(&handle);
    is("blocks", blocks, 0);
}

/* What a filter answers that fails, and one that makes more steps than it may. */
static void breaks(const char *module, uint32_t due)
{
    static struct texts texts, none;
    struct cidawru handle = {0};
    struct cidawru_told told;
    uint64_t number;
    part = "breaking";
    texts = none;
    add_text(&texts, module, "");
    is("new", make(&handle, &texts, 100, &told), true);
    is("open", cidawru_open(&handle, &number), CIDAWRU_DONE);
    is("run", run(&handle, number, 1), CIDAWRU_DONE);
    is("begin", cidawru_begin(&handle, number), CIDAWRU_DONE);
    is("run", run(&handle, number, 1), CIDAWRU_DONE);
    is("bring", cidawru_bring(&handle, number), CIDAWRU_DONE);
    is("run", run(&handle, number, UINT64_MAX), due);
    if (due >= CIDAWRU_NO_MEMORY)
        is("end", cidawru_end(&handle, number), due);
    cidawru_free(&handle);
    is("blocks", blocks, 0);
}

/* A session, a connection and a request, with memory refused from one asking on. Nothing but that is answered, and all is freed. */
static bool ends_without_memory(const char *folder, bool as_filter, long from)
{
    static struct texts texts, none;
    struct cidawru handle = {0};
    struct cidawru_told told;
    unsigned char buffer[64];
    uint64_t number = 0;
    uint32_t code;
    bool whole = false;
    part = "out of memory";
    texts = none;
    add(&texts, folder, as_filter ? "upper.filter" : "upper.mod", false);
    texts.lengths[0].kind = as_filter ? CIDAWRU_FILTER : CIDAWRU_MODULE;
    asked = 0;
    refuse_from = from;
    if (!make(&handle, &texts, 1000000, &told)) {
        is("what", told.what, CIDAWRU_TOLD_NO_MEMORY);
    } else if ((code = cidawru_open(&handle, &number)) || (code = run(&handle, number, 1000)) || (code = cidawru_begin(&handle, number))
               || (code = run(&handle, number, 1000)) || (code = piece(&handle, number, CIDAWRU_HEAP, "a few bytes"))
               || (code = piece(&handle, number, CIDAWRU_EOS, "")) || (code = cidawru_bring(&handle, number)) || (code = run(&handle, number, 1000))) {
        is("code", code == CIDAWRU_NO_MEMORY || code == CIDAWRU_BROKE_MEMORY, true);
    } else {
        is("output", cidawru_output(&handle, number, buffer, sizeof buffer), 11);
        is("bytes", memcmp(buffer, "A FEW BYTES", 11), 0);
        whole = true;
    }
    refuse_from = 0;
    if (number)
        is("close", cidawru_close(&handle, number), CIDAWRU_DONE);
    cidawru_free(&handle);
    is("blocks", blocks, 0);
    return whole;
}

int main(int argc, char **argv)
{
    long from[2] = {1, 1};
    if (argc != 2)
        return 2;
    tells_why();
    tells_why_of_filters();
    of_no_session();
    serves(argv[1], true, UINT64_MAX);
    serves(argv[1], false, 3);
    serves(argv[1], true, 0);
    compiles(argv[1], NULL, NULL, "xxxd-- end --\n");
    compiles(argv[1], "word.most=1", "word=yz", "yzbcd-- end --\n");
    compiles(argv[1], "most=0", NULL, "abcd-- end --\n");
    breaks(PASSES, CIDAWRU_DONE);
    breaks(FAILS, CIDAWRU_FAILED);
    breaks(LOOPS, CIDAWRU_BROKE_BUDGET);
    for (int k = 0; k < 2; k++)
        while (!ends_without_memory(argv[1], k > 0, from[k]) && wrong == 0)
            from[k]++;
    printf("test_lib: memory refused at each of %ld askings; %d answers not as they should be\n", from[0] + from[1] - 2, wrong);
    return wrong != 0;
}
