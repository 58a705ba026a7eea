// The heap of the module for browsers: malloc, realloc and free over memory.grow, and the three functions by which
// Rattle's `Global` calls them; on a machine of its own the toolchain's file does the same over the C library. Blocks
// are aligned to 16 bytes. No proof covers this file: docs/use/embed.md names it among what is trusted.
typedef __SIZE_TYPE__ size_t;
typedef unsigned char u8;

// A chunk begins with its own size, whose lowest bit says that it is in use, and the size of the
// chunk before it, which is 0 at the first. Sizes count these 16 bytes and are multiples of 16.
// A free chunk also holds the links of its bin.
typedef struct chunk {
    size_t size, before;
    struct chunk *next, *last;
} chunk;

#define HEAD ((size_t)16)
#define LEAST ((size_t)32)
#define PAGE ((size_t)65536)
#define USED ((size_t)1)

extern u8 __heap_base;

static chunk *bins[64];
static unsigned long long filled; // a bit for each bin that has a chunk
static u8 *top, *end;             // what was never handed out, or came back to it
static size_t before_top;         // the size of the chunk that ends at `top`

static size_t size_of(chunk *c) { return c->size & ~USED; }
static chunk *behind(chunk *c) { return (chunk *)((u8 *)c + size_of(c)); }
static int bin_of(size_t size) { return 63 - __builtin_clzll(size); }

static void link_in(chunk *c) {
    int b = bin_of(c->size);
    c->last = 0;
    c->next = bins[b];
    if (c->next) c->next->last = c;
    bins[b] = c;
    filled |= 1ull << b;
}

static void take_out(chunk *c) {
    int b = bin_of(c->size);
    if (c->last) c->last->next = c->next;
    else bins[b] = c->next;
    if (c->next) c->next->last = c->last;
    if (!bins[b]) filled &= ~(1ull << b);
}

// Tells the chunk or the free end behind a chunk how long the chunk is.
static void tell_behind(chunk *c) {
    if ((u8 *)c + size_of(c) == top) before_top = size_of(c);
    else behind(c)->before = size_of(c);
}

// Makes room for so many bytes at `top`.
static int grow(size_t size) {
    if (!top) {
        size_t first = ((size_t)&__heap_base + 15) & ~(size_t)15;
        top = (u8 *)first;
        end = (u8 *)(__builtin_wasm_memory_size(0) * PAGE);
    }
    if ((size_t)(end - top) >= size) return 1;
    size_t wanted = size - (size_t)(end - top);
    size_t pages = wanted / PAGE + 1;
    size_t more = (size_t)end / PAGE / 8; // an eighth more at a time, where there is as much
    if (more < 16) more = 16;
    if (pages < more && __builtin_wasm_memory_grow(0, more) != (size_t)-1) {
        end += more * PAGE;
        return 1;
    }
    if (__builtin_wasm_memory_grow(0, pages) == (size_t)-1) return 0;
    end += pages * PAGE;
    return 1;
}

// Cuts a chunk in use down to a size, where what is left can be a chunk.
static void cut(chunk *c, size_t size) {
    size_t left = size_of(c) - size;
    if (left < LEAST) return;
    chunk *rest = (chunk *)((u8 *)c + size);
    c->size = size | USED;
    if ((u8 *)rest + left == top) {
        top = (u8 *)rest;
        before_top = size;
        return;
    }
    rest->size = left;
    rest->before = size;
    chunk *after = behind(rest);
    if (!(after->size & USED)) {
        take_out(after);
        rest->size += size_of(after);
    }
    link_in(rest);
    tell_behind(rest);
}

static size_t rounded(size_t n) {
    size_t size = (n + HEAD + 15) & ~(size_t)15;
    return size < LEAST ? LEAST : size;
}

__attribute__((export_name("malloc"))) void *malloc(size_t n) {
    if (n > (size_t)1 << 47) return 0;
    size_t size = rounded(n);
    int b = bin_of(size);
    chunk *c = 0;
    int tries = 32;
    for (chunk *it = bins[b]; it && tries; it = it->next, tries--)
        if (it->size >= size) {
            c = it;
            break;
        }
    if (!c && b < 63) {
        unsigned long long above = filled & ~((2ull << b) - 1);
        if (above) c = bins[__builtin_ctzll(above)];
    }
    if (c) {
        take_out(c);
        c->size |= USED;
        cut(c, size);
        return (u8 *)c + HEAD;
    }
    if (!grow(size)) return 0;
    c = (chunk *)top;
    c->size = size | USED;
    c->before = before_top;
    top += size;
    before_top = size;
    return (u8 *)c + HEAD;
}

__attribute__((export_name("free"))) void free(void *p) {
    if (!p) return;
    chunk *c = (chunk *)((u8 *)p - HEAD);
    size_t size = size_of(c);
    if (c->before) {
        chunk *earlier = (chunk *)((u8 *)c - c->before);
        if (!(earlier->size & USED)) {
            take_out(earlier);
            size += size_of(earlier);
            c = earlier;
        }
    }
    c->size = size;
    if ((u8 *)c + size == top) {
        top = (u8 *)c;
        before_top = c->before;
        return;
    }
    chunk *after = behind(c);
    if (!(after->size & USED)) {
        take_out(after);
        c->size += size_of(after);
    }
    link_in(c);
    tell_behind(c);
}

void *realloc(void *p, size_t n) {
    if (!p) return malloc(n);
    if (n > (size_t)1 << 47) return 0;
    chunk *c = (chunk *)((u8 *)p - HEAD);
    size_t size = rounded(n), has = size_of(c);
    if (size <= has) {
        cut(c, size);
        return p;
    }
    if ((u8 *)c + has == top && grow(size - has)) {
        top += size - has;
        c->size = size | USED;
        before_top = size;
        return p;
    }
    if ((u8 *)c + has != top) {
        chunk *after = behind(c);
        if (!(after->size & USED) && has + size_of(after) >= size) {
            take_out(after);
            c->size = (has + size_of(after)) | USED;
            tell_behind(c);
            cut(c, size);
            return p;
        }
    }
    void *to = malloc(n);
    if (!to) return 0;
    __builtin_memcpy(to, p, has - HEAD);
    free(p);
    return to;
}

// What Rattle's code calls. `ok` fills eight bytes, so that any width of it can be read.
struct tried {
    unsigned long long ok;
    void *p;
};
static u8 nothing[16] __attribute__((aligned(16)));

static struct tried tried_of(void *p) { return (struct tried){p != 0, p ? p : nothing}; }

struct tried rattle_alloc(size_t n, size_t a) { return tried_of(malloc(n ? n : a)); }
struct tried rattle_realloc(void *p, size_t kept, size_t n, size_t a) {
    (void)kept;
    return tried_of(realloc(p, n ? n : a));
}
void rattle_dealloc(void *p) { free(p); }
