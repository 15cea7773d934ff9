/* What the program calls of the C library and of the kit's own C, for WebAssembly: a heap over memory that only grows,
   arithmetic of 128 bits, standard input and output, which the page gives, and no environment. A pointer has 64 bits,
   and none past what memory.grow gave is handed out. */

typedef unsigned char byte;
typedef __UINT64_TYPE__ word;
typedef __INT64_TYPE__ number;
typedef __int128_t wide;

/* What the page gives: how many bytes it put at `to`, at most `most`; whether it took all that is written; and the length
   of a word of the command, which it puts at `to`, or NO_WORD, or NO_ROOM where it is longer and fills all. */
#define FROM_PAGE(name) __attribute__((import_module("page"), import_name(name))) extern
FROM_PAGE("read") int page_read(unsigned to, unsigned most);
FROM_PAGE("write") int page_write(unsigned from, unsigned length);
FROM_PAGE("word") int page_word(unsigned place, unsigned to, unsigned most);

enum { NO_WORD = -1, NO_ROOM = -2 };
enum { BAD_DESCRIPTOR = 9, OUT_OF_MEMORY = 12 };
static int error;

/* The heap. A block is a head of 8 bytes and what is handed out behind it, whose address is a multiple of 16. The head has
   the block's size and two flags. A free block has its size in its last 8 bytes too, so that the block behind it finds its
   head, and stands in the list of its class. No two free blocks stand side by side, and none at the top: what is freed
   is joined to what is free on either side. Classes go up by 16 bytes, and from 512 on by 32 steps between powers of
   two; bits tell which have blocks. */

enum { PAGE = 65536, GROWTH = 16, HEAD = 8, LEAST = 32, STEPS = 32, STEP_BITS = 5, EXACT = 512, EXACT_BITS = 9, ROWS = 24 };
enum { TRIES = 16 };
static const word FREE = 1, FREE_BEFORE = 2, FLAGS = 15, LONGEST = (word)65520 * PAGE;

typedef struct block {
    word head;
    struct block *next, *before;
} block;

typedef struct {
    unsigned row, step;
} class;

extern byte __heap_base;
static block *lists[ROWS][STEPS];
static unsigned rows, steps[ROWS];
static byte *top, *end;

static word size_of(const block *it) { return it->head & ~FLAGS; }
static block *at(const block *it, word distance) { return (block *)((byte *)it + distance); }
static word *foot(const block *it) { return (word *)at(it, size_of(it)) - 1; }
static void *inside(block *it) { return (byte *)it + HEAD; }
static block *around(const void *pointer) { return (block *)((byte *)pointer - HEAD); }
static int is_top(const block *it) { return (byte *)it == top; }
static int is_free(const block *it) { return !is_top(it) && (it->head & FREE); }

static class class_of(word size) {
    if (size < EXACT) return (class){0, (unsigned)(size / (EXACT / STEPS))};
    int log = 63 - __builtin_clzll(size);
    return (class){(unsigned)(log - EXACT_BITS + 1), (unsigned)(size >> (log - STEP_BITS)) & (STEPS - 1)};
}

static void list(block *it) {
    class of = class_of(size_of(it));
    block *first = lists[of.row][of.step];
    it->before = 0;
    it->next = first;
    if (first) first->before = it;
    lists[of.row][of.step] = it;
    steps[of.row] |= 1u << of.step;
    rows |= 1u << of.row;
}

static void unlist(block *it) {
    if (it->next) it->next->before = it->before;
    if (it->before) {
        it->before->next = it->next;
        return;
    }
    class of = class_of(size_of(it));
    lists[of.row][of.step] = it->next;
    if (it->next) return;
    steps[of.row] &= ~(1u << of.step);
    if (!steps[of.row]) rows &= ~(1u << of.row);
}

/* A free block of this size at least, or none: one of the class itself among the first few, else one of the next class
   that has any. */
static block *find(word size) {
    class of = class_of(size);
    block *it = lists[of.row][of.step];
    for (int count = 0; it && count < TRIES; count += 1, it = it->next)
        if (size_of(it) >= size) return it;
    unsigned left = of.step + 1 < STEPS ? steps[of.row] >> (of.step + 1) << (of.step + 1) : 0;
    if (!left) {
        unsigned above = rows >> of.row >> 1 << of.row << 1;
        if (!above) return 0;
        of.row = (unsigned)__builtin_ctz(above);
        left = steps[of.row];
    }
    return lists[of.row][__builtin_ctz(left)];
}

/* Whether the top can be moved on by so many bytes: memory grows where it must. */
static int has_above(word size) {
    if (!end) {
        top = (byte *)(((word)&__heap_base + 15) / 16 * 16 + HEAD);
        end = (byte *)(__builtin_wasm_memory_size(0) * PAGE);
    }
    if ((word)(end - top) >= size) return 1;
    word pages = (size - (word)(end - top) + PAGE - 1) / PAGE;
    word more = pages < GROWTH ? GROWTH : pages;
    if (__builtin_wasm_memory_grow(0, more) == (word)-1) {
        more = pages;
        if (more == GROWTH || __builtin_wasm_memory_grow(0, more) == (word)-1) return 0;
    }
    end += more * PAGE;
    return 1;
}

/* Makes what begins here, has this size and isn't listed a free block, joined to what is free on either side. */
static void let_go(block *it, word size, word flags) {
    block *behind = at(it, size);
    if (flags & FREE_BEFORE) {
        word less = *((word *)it - 1);
        it = (block *)((byte *)it - less);
        unlist(it);
        size += less;
    }
    if (is_top(behind)) {
        top = (byte *)it;
        return;
    }
    if (is_free(behind)) {
        unlist(behind);
        size += size_of(behind);
        behind = at(it, size);
    }
    behind->head |= FREE_BEFORE;
    it->head = size | FREE;
    *foot(it) = size;
    list(it);
}

/* Makes what begins here and has this size a block in use of `size` bytes, and lets go of the rest. */
static void use(block *it, word had, word size, word flags) {
    if (had - size < LEAST) size = had;
    it->head = size | flags;
    block *behind = at(it, size);
    if (had > size)
        let_go(behind, had - size, 0);
    else if (!is_top(behind))
        behind->head &= ~FREE_BEFORE;
}

/* The size of a block that holds so many bytes. */
static word size_for(word length) {
    word size = (length + HEAD + 15) / 16 * 16;
    return size < LEAST ? LEAST : size;
}

static void *get(word length) {
    if (length >= LONGEST) return 0;
    word size = size_for(length);
    block *it = find(size);
    if (it) {
        unlist(it);
        use(it, size_of(it), size, 0);
        return inside(it);
    }
    if (!has_above(size)) return 0;
    it = (block *)top;
    top += size;
    it->head = size;
    return inside(it);
}

/* Makes a block one of `length` bytes that begins with the same: where it stands, if what is free around it suffices. */
static void *resize(void *pointer, word length) {
    if (length >= LONGEST) return 0;
    block *it = around(pointer), *behind;
    word had = size_of(it), size = size_for(length), flags = it->head & FREE_BEFORE, room = had;
    behind = at(it, had);
    if (is_free(behind)) room += size_of(behind);
    if (size > had && is_top(at(it, room)) && has_above(size - room)) {
        if (room > had) unlist(behind);
        top = (byte *)at(it, size);
        it->head = size | flags;
        return pointer;
    }
    if (room >= size) {
        if (size > had) {
            unlist(behind);
            use(it, room, size, flags);
        } else
            use(it, had, size, flags);
        return pointer;
    }
    word kept = had - HEAD;
    if (flags & FREE_BEFORE) {
        word less = *((word *)it - 1);
        if (less + room >= size) {
            block *before = (block *)((byte *)it - less);
            unlist(before);
            if (room > had) unlist(behind);
            __builtin_memmove(inside(before), pointer, kept);
            use(before, less + room, size, 0);
            return inside(before);
        }
    }
    void *other = get(length);
    if (!other) return 0;
    __builtin_memmove(other, pointer, kept);
    let_go(it, had, flags);
    return other;
}

/* Whether memory was had, and where. A block of no bytes is one of as many as it is aligned to, at most 16. */
typedef struct {
    word is_had;
    void *place;
} tried;

static tried told(void *place) {
    static byte nothing;
    if (!place) error = OUT_OF_MEMORY;
    return place ? (tried){1, place} : (tried){0, &nothing};
}

tried rattle_alloc(word length, word aligned) { return told(get(length ? length : aligned)); }

tried rattle_realloc(void *pointer, word kept, word length, word aligned) {
    (void)kept;
    return told(resize(pointer, length ? length : aligned));
}

void rattle_dealloc(void *pointer) {
    block *it = around(pointer);
    let_go(it, size_of(it), it->head & FREE_BEFORE);
}

/* Standard input and output, the command's words, and an environment that has nothing. */

static unsigned least(word length) { return length < 1 << 30 ? (unsigned)length : 1 << 30; }

static number no_such(void) {
    error = BAD_DESCRIPTOR;
    return -1;
}

number read(int descriptor, void *to, word most) {
    return descriptor == 0 ? page_read((unsigned)(word)to, least(most)) : no_such();
}

number write(int descriptor, const void *from, word length) {
    return descriptor == 1 ? page_write((unsigned)(word)from, least(length)) : no_such();
}

number rattle_arg(word place, void *to, word most) {
    return page_word(least(place), (unsigned)(word)to, least(most));
}

number rattle_env(const void *name, void *to, word most) { return (void)name, (void)to, (void)most, NO_WORD; }
number rattle_env_at(word place, void *to, word most) { return (void)place, (void)to, (void)most, NO_WORD; }
int rattle_errno(void) { return error; }
void rattle_set_errno(int code) { error = code; }

/* Arithmetic of 128 bits, of which the processor has none. */

static wide joined(word high, word low) { return (wide)((unsigned __int128)high << 64 | low); }
static word low_of(wide it) { return (word)it; }
static word high_of(wide it) { return (word)((unsigned __int128)it >> 64); }

wide __multi3(wide a, wide b) {
    const word HALF = 0xffffffff;
    word x = low_of(a), y = low_of(b);
    word low = (x & HALF) * (y & HALF);
    word first = (x >> 32) * (y & HALF) + (low >> 32);
    word second = (x & HALF) * (y >> 32) + (first & HALF);
    word high = (x >> 32) * (y >> 32) + (first >> 32) + (second >> 32);
    high += x * high_of(b) + high_of(a) * y;
    return joined(high, second << 32 | (low & HALF));
}

wide __ashlti3(wide a, int count) {
    if (!count) return a;
    if (count >= 64) return joined(low_of(a) << (count - 64), 0);
    return joined(high_of(a) << count | low_of(a) >> (64 - count), low_of(a) << count);
}

wide __lshrti3(wide a, int count) {
    if (!count) return a;
    if (count >= 64) return joined(0, high_of(a) >> (count - 64));
    return joined(high_of(a) >> count, low_of(a) >> count | high_of(a) << (64 - count));
}

/* The program: its status. */
extern int started(void);
__attribute__((export_name("run"))) int run(void) { return started(); }
