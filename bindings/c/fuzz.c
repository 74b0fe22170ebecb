/* Random lists of commands, on images and on windows of pictures, and random conversions by pix.h, beside the plain
 * model of plain.h.
 *
 *     fuzz [LISTS [SEED]]
 *
 * Every byte of every buffer is compared after each list, those between and around the rows too. A buffer ends or
 * begins at a page that may not be touched. Each list in four has a fault, whose status and place are compared, and
 * which must leave all bytes as they were. LISTS is 20000 and SEED 1 where they aren't given. The last line has a sum
 * of all bytes, by which two builds are compared: it is the same on each system.
 */
#define _DEFAULT_SOURCE
#include "each.h"
#include "plain.h"
#include <stdio.h>
#include <stdlib.h>
#ifdef _WIN32
#include <windows.h>
#else
#include <sys/mman.h>
#include <unistd.h>
#endif

enum { KINDS = 3, SOURCES = 3, MATTES = 2, COMMANDS = 12, PAGES = 5 };

static const plain_kind kinds[KINDS] = {{255, 1, 4}, {65535, 2, 4}, {255, 1, 2}};

/* ---- Random numbers (xorshift of Marsaglia, 64 bits) ---- */

static uint64_t state;

static uint64_t any(void) {
    state ^= state << 13;
    state ^= state >> 7;
    state ^= state << 17;
    return state;
}

static uint64_t below(uint64_t count) {
    return (any() >> 11) % count;
}

static int one_in(uint64_t count) {
    return below(count) == 0;
}

/* ---- Buffers between two pages that may not be touched ---- */

typedef struct {
    unsigned char *pages, *copy;
    size_t length;
    plain_rows rows, model;
} buffer;

static size_t page;

#ifdef _WIN32
static size_t size_of_page(void) {
    SYSTEM_INFO it;
    GetSystemInfo(&it);
    return it.dwPageSize;
}

/* So many bytes between two pages that may not be touched, or null. */
static unsigned char *pages_of(size_t length) {
    unsigned char *all = (unsigned char *)VirtualAlloc(NULL, length + 2 * page, MEM_RESERVE, PAGE_NOACCESS);
    return all ? (unsigned char *)VirtualAlloc(all + page, length, MEM_COMMIT, PAGE_READWRITE) : NULL;
}
#else
static size_t size_of_page(void) {
    return (size_t)sysconf(_SC_PAGESIZE);
}

/* So many bytes between two pages that may not be touched, or null. */
static unsigned char *pages_of(size_t length) {
    unsigned char *all = (unsigned char *)mmap(NULL, length + 2 * page, PROT_NONE, MAP_PRIVATE | MAP_ANONYMOUS, -1, 0);
    return all == MAP_FAILED || mprotect(all + page, length, PROT_READ | PROT_WRITE) ? NULL : all + page;
}
#endif

static void make_buffer(buffer *it) {
    it->length = PAGES * page;
    it->pages = pages_of(it->length);
    it->copy = (unsigned char *)malloc(it->length);
    if (!it->pages || !it->copy) {
        perror("fuzz");
        exit(2);
    }
}

/* A sum of all bytes that were written (FNV-1a of Fowler, Noll and Vo, by words of 64 bits). */
static uint64_t sum = UINT64_C(0xcbf29ce484222325);

static void add_bytes(const buffer *it) {
    for (size_t i = 0; i < it->length; i += sizeof(uint64_t)) {
        uint64_t word;
        memcpy(&word, it->pages + i, sizeof word);
        sum = (sum ^ word) * UINT64_C(0x100000001b3);
    }
}

/* Lays rows of elements of that size at the start or at the end of the pages, and fills all with random bytes. */
static void lay_rows(buffer *it, size_t size, size_t align) {
    plain_rows *rows = &it->rows;
    rows->width = one_in(9) ? 0 : below(24);
    rows->height = one_in(9) ? 0 : below(14);
    rows->stride = rows->width + (one_in(2) ? 0 : below(6));
    size_t used = rows->height ? ((rows->height - 1) * rows->stride + rows->width) * size : 0;
    size_t start = one_in(2) ? 0 : it->length - used;
    if (start % align)
        start -= start % align;
    for (size_t i = 0; i < it->length; i++)
        it->pages[i] = one_in(3) ? (unsigned char)(255 * below(2)) : (unsigned char)below(256);
    memcpy(it->copy, it->pages, it->length);
    rows->bytes = it->pages + start;
    it->model = *rows;
    it->model.bytes = it->copy + start;
}

/* ---- Random commands ---- */

static buffer image, sources[SOURCES], mattes[MATTES], bytes[MATTES];

static int64_t coordinate(void) {
    static const int64_t ends[] = {INT32_MIN, INT32_MIN + 1, INT32_MAX, INT32_MAX - 1, 0, -1, 1};
    return one_in(12) ? ends[below(7)] : (int64_t)below(40) - 14;
}

static int64_t side(void) {
    static const int64_t ends[] = {INT32_MAX, INT32_MAX - 1, 0, 1};
    return one_in(10) ? ends[below(4)] : (int64_t)below(32);
}

static plain_region region(void) {
    plain_region it = {coordinate(), coordinate(), side(), side()};
    return it;
}

/* A command, and which of the sources or mattes it reads. */
static plain_command random_command(const plain_kind *kind, size_t *read) {
    plain_command it;
    memset(&it, 0, sizeof it);
    it.kind = one_in(12) ? PLAIN_CLEAR : 1 + (uint32_t)below(PLAIN_KINDS - 1);
    it.op = (uint32_t)below(PLAIN_OPERATORS);
    it.to = region();
    it.from = region();
    it.mask_from = region();
    it.alpha = one_in(4) ? kind->max * below(2) : below(kind->max + 1);
    uint64_t alpha = one_in(3) ? kind->max * below(2) : below(kind->max + 1);
    for (size_t i = 0; i < kind->channels; i++)
        it.color[i] = one_in(4) ? below(kind->max + 1) : plain_product(kind->max, below(kind->max + 1), alpha);
    it.color[kind->channels - 1] = alpha;
    *read = below(it.kind == PLAIN_MATTE ? MATTES : SOURCES);
    it.are_bytes = kind->bytes == 2 && one_in(2);
    const buffer *covers = it.are_bytes ? bytes : mattes;
    it.source = it.kind == PLAIN_MATTE ? &covers[*read].model : &sources[*read].model;
    it.mask = &covers[*read % MATTES].model;
    return it;
}

static pix_region given(plain_region it) {
    return pix_region_of((int32_t)it.x, (int32_t)it.y, (uint32_t)it.width, (uint32_t)it.height);
}

/* ---- Faults ---- */

typedef enum {
    NONE, IMAGE_SIDE, IMAGE_STRIDE, IMAGE_NULL, LIST_NULL, KIND, OPERATOR, REGION_TO, REGION_FROM, SOURCE_SIDE,
    SOURCE_STRIDE, SOURCE_NULL, OVERLAP, LIST_OVERLAP, WINDOW_END, REGION_MASK, MASK_SIDE, MASK_STRIDE, MASK_NULL,
    MASK_OVERLAP, FAULTS
} fault;

/* The status of a fault, whether a command of its list has it, and whether that command must read a source, or a mask
 * too. */
static const struct {
    pix_status status;
    int of_command, of_source;
} faults[FAULTS] = {
    {PIX_OK, 0, 0},         {PIX_BAD_SIZE, 0, 0},   {PIX_BAD_SIZE, 0, 0},   {PIX_NULL, 0, 0},       {PIX_NULL, 0, 0},
    {PIX_BAD_KIND, 1, 0},   {PIX_BAD_OP, 1, 0},     {PIX_BAD_REGION, 1, 0}, {PIX_BAD_REGION, 1, 1}, {PIX_BAD_SOURCE, 1, 1},
    {PIX_BAD_SOURCE, 1, 1}, {PIX_NULL, 1, 1},       {PIX_OVERLAP, 1, 1},    {PIX_OVERLAP, 0, 0},
    {PIX_BAD_SIZE, 0, 0},   {PIX_BAD_REGION, 1, 2}, {PIX_BAD_SOURCE, 1, 2}, {PIX_BAD_SOURCE, 1, 2}, {PIX_NULL, 1, 2},
    {PIX_OVERLAP, 1, 2},
};

static int is_empty(const plain_rows *rows) {
    return rows->height == 0 || (rows->height == 1 && rows->width == 0) || rows->stride == 0;
}

/* Whether a list can have the fault here. */
static int fits(fault it, size_t count, const plain_command *command) {
    if (it == IMAGE_NULL || it == OVERLAP || it == LIST_OVERLAP || it == MASK_OVERLAP)
        if (is_empty(&image.rows))
            return 0;
    if (it == IMAGE_STRIDE && image.rows.width < 2)
        return 0;
    if ((it == LIST_NULL || it == LIST_OVERLAP || faults[it].of_command) && !count)
        return 0;
    if (!faults[it].of_source)
        return 1;
    if (faults[it].of_source == 2)
        return command->kind == PLAIN_MASKED && !is_empty(command->mask)
               && (it != MASK_STRIDE || command->mask->width >= 2);
    if (command->kind != PLAIN_COPY && command->kind < PLAIN_SOURCE)
        return 0;
    return !is_empty(command->source) && (it != SOURCE_STRIDE || command->source->width >= 2);
}

/* ---- Lists ---- */

typedef struct {
    fault fault;
    size_t at, count, read[COMMANDS];
    plain_command commands[COMMANDS];
    int is_window;
    uint32_t left, top;
} list;

/* The place of a window of so many columns, or rows: near the corner of a picture, anywhere, or at the limit. */
static uint32_t place(uint64_t side) {
    uint64_t last = INT32_MAX - side;
    return (uint32_t)(one_in(3) ? below(20) : one_in(2) ? last - below(4) % (last + 1) : below(last + 1));
}

/* A region as far from a place as it was from the corner, where its coordinates are still of 32 bits. */
static void move(plain_region *it, const list *all) {
    if (it->x + all->left <= INT32_MAX)
        it->x += all->left;
    if (it->y + all->top <= INT32_MAX)
        it->y += all->top;
}

static list random_list(const plain_kind *kind) {
    list it;
    memset(&it, 0, sizeof it);
    it.count = below(COMMANDS);
    it.is_window = one_in(2);
    if (it.is_window) {
        it.left = place(image.rows.width);
        it.top = place(image.rows.height);
    }
    for (size_t i = 0; i < it.count; i++) {
        it.commands[i] = random_command(kind, &it.read[i]);
        if (!one_in(6))
            move(&it.commands[i].to, &it);
    }
    it.at = it.count ? below(it.count) : 0;
    if (one_in(4))
        it.fault = (fault)(1 + below(FAULTS - 1));
    if (!fits(it.fault, it.count, &it.commands[it.at]) || (it.fault == WINDOW_END && !it.is_window))
        it.fault = NONE;
    if (it.fault == WINDOW_END) {
        uint64_t past = one_in(2) ? 0 : below(UINT32_C(2147483648));
        if (one_in(2))
            it.left = (uint32_t)(INT32_MAX - image.rows.width + 1 + past);
        else
            it.top = (uint32_t)(INT32_MAX - image.rows.height + 1 + past);
    }
    return it;
}

/* A command of a list by the header's functions, for one kind of pixels and of mattes, which lie in COVERS. */
#define COMMAND_OF(NAME, S, PIXEL, VALUE, ALPHA, MATTE, COVERS, MAKE, COLOR)                                           \
    static pix_command##S NAME(const list *all, size_t i) {                                                            \
        const plain_command *it = &all->commands[i];                                                                   \
        const plain_rows *rows = it->kind == PLAIN_MATTE ? &COVERS[all->read[i]].rows : &sources[all->read[i]].rows;   \
        pix_view##S source = {(const PIXEL *)(const void *)rows->bytes, (uint32_t)rows->width,                         \
                              (uint32_t)rows->height, (uint32_t)rows->stride};                                         \
        MATTE matte = {(const VALUE *)(const void *)rows->bytes, source.width, source.height, source.stride};          \
        const plain_rows *covers = &COVERS[all->read[i] % MATTES].rows;                                                \
        MATTE mask = {(const VALUE *)(const void *)covers->bytes, (uint32_t)covers->width, (uint32_t)covers->height,   \
                      (uint32_t)covers->stride};                                                                       \
        fault has = i == all->at ? all->fault : NONE;                                                                  \
        pix_region to = given(it->to), from = given(it->from), mask_from = given(it->mask_from);                       \
        mask_from.width = has == REGION_MASK ? UINT32_MAX : mask_from.width;                                           \
        if (has == MASK_SIDE) {                                                                                        \
            mask.width = mask.stride = UINT32_C(2147483648);                                                           \
            mask.height = 0;                                                                                           \
        }                                                                                                              \
        mask.stride = has == MASK_STRIDE ? mask.width - 1 : mask.stride;                                               \
        mask.values = has == MASK_NULL ? NULL : has == MASK_OVERLAP ? (const VALUE *)(const void *)image.rows.bytes    \
                                                                    : mask.values;                                     \
        to.width = has == REGION_TO ? UINT32_C(2147483648) : to.width;                                                 \
        from.height = has == REGION_FROM ? UINT32_MAX : from.height;                                                   \
        if (has == SOURCE_SIDE) {                                                                                      \
            source.width = source.stride = matte.width = matte.stride = UINT32_C(2147483648);                          \
            source.height = matte.height = 0;                                                                          \
        }                                                                                                              \
        source.stride = matte.stride = has == SOURCE_STRIDE ? source.width - 1 : source.stride;                        \
        source.pixels = has == SOURCE_NULL ? NULL : has == OVERLAP ? (const PIXEL *)(const void *)image.rows.bytes     \
                                                                   : source.pixels;                                    \
        matte.values = has == SOURCE_NULL ? NULL : has == OVERLAP ? (const VALUE *)(const void *)image.rows.bytes      \
                                                                  : matte.values;                                      \
        pix_op op = (pix_op)(has == OPERATOR ? PIX_OP_COUNT + below(9) : it->op);                                      \
        pix_command##S made = MAKE((pix_kind)it->kind, to, source, from, it->kind == PLAIN_MATTE ? matte : mask,       \
                                   mask_from, COLOR, (ALPHA)it->alpha, op);                                              \
        made.to = to;                                                                                                  \
        made.op = (uint32_t)op;                                                                                        \
        made.kind = has == KIND ? PIX_KIND_COUNT + (uint32_t)below(9) : made.kind;                                     \
        return made;                                                                                                   \
    }

/* The run of a list by the header's calls for one kind of pixels. */
#define RUN_OF(S, PIXEL)                                                                                               \
    static pix_status run##S(const list *all, size_t *done) {                                                          \
        pix_command##S made[COMMANDS + 1];                                                                             \
        for (size_t i = 0; i < all->count; i++)                                                                        \
            made[i] = command##S(all, i);                                                                              \
        pix_image##S whole = {(PIXEL *)(void *)image.rows.bytes, (uint32_t)image.rows.width,                           \
                              (uint32_t)image.rows.height, (uint32_t)image.rows.stride};                               \
        const pix_command##S *commands = all->fault == LIST_NULL ? NULL : made;                                        \
        whole.pixels = all->fault == IMAGE_NULL ? NULL : whole.pixels;                                                 \
        if (all->fault == IMAGE_SIDE) {                                                                                \
            whole.width = whole.stride = UINT32_C(2147483648);                                                         \
            whole.height = 0;                                                                                          \
        }                                                                                                              \
        whole.stride = all->fault == IMAGE_STRIDE ? whole.width - 1 : whole.stride;                                    \
        if (all->fault == LIST_OVERLAP)                                                                                \
            commands = (const pix_command##S *)((uintptr_t)image.rows.bytes & ~(uintptr_t)15);                         \
        if (all->is_window)                                                                                            \
            return pix_run_window##S(whole, all->left, all->top, commands, all->count, done);                          \
        return pix_run##S(whole, commands, all->count, done);                                                          \
    }

#define FOUR(VALUE) (VALUE)it->color[0], (VALUE)it->color[1], (VALUE)it->color[2], (VALUE)it->color[3]

/* A command of 16 bits through a mask of 8. */
static pix_command_rgba16 with_bytes(pix_kind kind, pix_region to, pix_view_rgba16 source, pix_region from,
                                     pix_matte matte, pix_region mask_from, pix_rgba16 color, uint16_t alpha,
                                     pix_op op) {
    if (kind == PIX_KIND_COMPOSITE_MATTE)
        return pix_composite_matte8_rgba16(to, matte, from, color, op);
    if (kind == PIX_KIND_COMPOSITE_IMAGE_MATTE)
        return pix_composite_image_matte8_rgba16(to, source, from, matte, mask_from, op);
    return command_of_rgba16(kind, to, source, from, pix_matte16_of(NULL, 0, 0), mask_from, color, alpha, op);
}

COMMAND_OF(command, , pix_rgba8, uint8_t, uint8_t, pix_matte, mattes, command_of, pix_rgba8_of(FOUR(uint8_t)))
COMMAND_OF(wide_rgba16, _rgba16, pix_rgba16, uint16_t, uint16_t, pix_matte16, mattes, command_of_rgba16,
           pix_rgba16_of(FOUR(uint16_t)))
COMMAND_OF(narrow_rgba16, _rgba16, pix_rgba16, uint8_t, uint16_t, pix_matte, bytes, with_bytes,
           pix_rgba16_of(FOUR(uint16_t)))
COMMAND_OF(command_graya8, _graya8, pix_graya8, uint8_t, uint8_t, pix_matte, mattes, command_of_graya8,
           pix_graya8_of((uint8_t)it->color[0], (uint8_t)it->color[1]))

static pix_command_rgba16 command_rgba16(const list *all, size_t i) {
    return all->commands[i].are_bytes ? narrow_rgba16(all, i) : wide_rgba16(all, i);
}

RUN_OF(, pix_rgba8)
RUN_OF(_rgba16, pix_rgba16)
RUN_OF(_graya8, pix_graya8)

/* ---- Comparing ---- */

static void fail(uint64_t number, const char *what) {
    fprintf(stderr, "fuzz: list %llu: %s\n", (unsigned long long)number, what);
    exit(1);
}

static void compare(uint64_t number, const buffer *it, const char *what) {
    for (size_t i = 0; i < it->length; i++)
        if (it->pages[i] != it->copy[i]) {
            fprintf(stderr, "fuzz: list %llu: %s: byte %td of its rows is %d, and %d by the model\n",
                    (unsigned long long)number, what, &it->pages[i] - it->rows.bytes, it->pages[i], it->copy[i]);
            exit(1);
        }
}

static void try_list(uint64_t number) {
    size_t which = below(KINDS), done = 99;
    const plain_kind *kind = &kinds[which];
    size_t size = kind->bytes * kind->channels;
    lay_rows(&image, size, kind->bytes);
    for (size_t i = 0; i < SOURCES; i++)
        lay_rows(&sources[i], size, kind->bytes);
    for (size_t i = 0; i < MATTES; i++)
        lay_rows(&mattes[i], kind->bytes, kind->bytes), lay_rows(&bytes[i], 1, 1);
    list all = random_list(kind);
    pix_status status = which == 0 ? run(&all, &done) : which == 1 ? run_rgba16(&all, &done) : run_graya8(&all, &done);
    size_t at = all.fault == NONE ? all.count : faults[all.fault].of_command ? all.at : 0;
    if (status != faults[all.fault].status)
        fail(number, pix_status_text(status));
    if (done != at)
        fail(number, "the wrong command is refused");
    if (all.fault == NONE)
        plain_run_in(kind, &image.model, all.left, all.top, all.commands, all.count);
    compare(number, &image, "the image");
    for (size_t i = 0; i < SOURCES; i++)
        compare(number, &sources[i], "a source");
    for (size_t i = 0; i < MATTES; i++)
        compare(number, &mattes[i], "a matte"), compare(number, &bytes[i], "a matte of 8 bits");
}

static void try_conversion(uint64_t number) {
    uint32_t from = (uint32_t)below(PLAIN_FORMATS), to = (uint32_t)below(PLAIN_FORMATS);
    const plain_format *source = &plain_formats[from], *target = &plain_formats[to];
    size_t count = below(200), src_size = plain_size(source), dst_size = plain_size(target);
    lay_rows(&sources[0], 1, 1);
    lay_rows(&image, 1, 1);
    size_t src_start = one_in(2) ? 0 : sources[0].length - count * src_size;
    size_t dst_start = one_in(2) ? 0 : image.length - count * dst_size;
    if (src_size != pix_format_size((pix_format)from) || dst_size != pix_format_size((pix_format)to))
        fail(number, "the size of a format");
    if (pix_convert((pix_format)from, (pix_format)to, sources[0].pages + src_start, image.pages + dst_start, count))
        fail(number, "a conversion is refused");
    for (size_t i = 0; i < count; i++)
        plain_convert(source, target, sources[0].copy + src_start + i * src_size, image.copy + dst_start + i * dst_size);
    compare(number, &image, "converted bytes");
    compare(number, &sources[0], "the bytes of a conversion");
}

int main(int count, char **words) {
    uint64_t lists = count > 1 ? strtoull(words[1], NULL, 10) : 20000;
    state = (count > 2 ? strtoull(words[2], NULL, 10) : 1) * UINT64_C(0x9E3779B97F4A7C15) | 1;
    page = size_of_page();
    make_buffer(&image);
    for (size_t i = 0; i < SOURCES; i++)
        make_buffer(&sources[i]);
    for (size_t i = 0; i < MATTES; i++)
        make_buffer(&mattes[i]), make_buffer(&bytes[i]);
    for (uint64_t number = 0; number < lists; number++) {
        try_list(number);
        if (number % 4 == 0)
            try_conversion(number);
        add_bytes(&image);
    }
    printf("fuzz: %llu lists and %llu conversions are as the model has them: sum %016llx\n", (unsigned long long)lists,
           (unsigned long long)((lists + 3) / 4), (unsigned long long)sum);
    return 0;
}
