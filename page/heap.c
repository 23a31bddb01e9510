/* What the compiled library calls of a C library, over the memory of a WebAssembly module. No proof covers it.

   A block has 16 bytes before it, with its size as a power of two. Blocks that are freed are kept by their sizes, to be given
   again. Nothing is given back to the browser: an instance makes one run. */

typedef unsigned long long u64;
typedef unsigned __int128 u128;
typedef unsigned char u8;

_Static_assert(sizeof(void *) == 8, "the library is compiled for 64-bit pointers");

enum { PAGE = 1 << 16, LEAST = 4, SIZES = 40 };

struct block {
    u64 size;
    struct block *next;
};

extern u8 __heap_base;
static struct block *freed[SIZES];
static u64 top;

/* The least power of two that is not below n. */
static u64 size_for(u64 n) {
    u64 size = LEAST;
    while (size < SIZES && 1ull << size < n) size++;
    return size;
}

/* Bytes of memory now. */
static u64 size_now(void) { return (u64)__builtin_wasm_memory_size(0) * PAGE; }

/* Whether the memory reaches to an address, once more of it was asked for. */
static int reaches(u64 end) {
    if (end > size_now()) __builtin_wasm_memory_grow(0, (end - size_now() + PAGE - 1) / PAGE);
    return end <= size_now();
}

void *malloc(u64 n) {
    u64 size = size_for(n);
    if (size == SIZES) return 0;
    struct block *block = freed[size];
    if (block) {
        freed[size] = block->next;
        return block + 1;
    }
    if (top == 0) top = ((u64)&__heap_base + 15) / 16 * 16;
    u64 end = top + sizeof *block + (1ull << size);
    if (!reaches(end)) return 0;
    block = (struct block *)top;
    top = end;
    block->size = size;
    return block + 1;
}

void free(void *at) {
    if (!at) return;
    struct block *block = (struct block *)at - 1;
    block->next = freed[block->size];
    freed[block->size] = block;
}

/* The three that the library asks for: whether there was memory, and where; an address that is not null in either case. */
struct given {
    u64 is_there;
    void *at;
};

static u8 nowhere;

static struct given given(void *at) {
    struct given it = {at != 0, at ? at : &nowhere};
    return it;
}

struct given rattle_alloc(u64 n, u64 align) { return given(malloc(n ? n : align)); }

void rattle_dealloc(void *at) { free(at); }

struct given rattle_realloc(void *at, u64 kept, u64 n, u64 align) {
    (void)kept;
    struct block *block = (struct block *)at - 1;
    u64 room = 1ull << block->size, wanted = n ? n : align;
    if (wanted <= room) return given(at);
    void *moved = malloc(wanted);
    if (!moved) return given(0);
    __builtin_memcpy(moved, at, room);
    free(at);
    return given(moved);
}

/* Arithmetic of 128 bits, which LLVM calls by these names. */
typedef union {
    u128 whole;
    struct {
        u64 low, high;
    };
} halves;

u128 __multi3(u128 x, u128 y) {
    const u64 mask = 0xffffffff;
    halves a = {x}, b = {y}, product;
    u64 a0 = a.low & mask, a1 = a.low >> 32, b0 = b.low & mask, b1 = b.low >> 32;
    u64 first = a0 * b0, second = a1 * b0 + (first >> 32), third = a0 * b1 + (second & mask);
    product.low = third << 32 | (first & mask);
    product.high = a1 * b1 + (second >> 32) + (third >> 32) + a.low * b.high + a.high * b.low;
    return product.whole;
}

u128 __ashlti3(u128 x, int n) {
    halves a = {x}, shifted;
    shifted.low = n < 64 ? a.low << n : 0;
    shifted.high = n == 0 ? a.high : n < 64 ? a.high << n | a.low >> (64 - n) : a.low << (n - 64);
    return shifted.whole;
}

u128 __lshrti3(u128 x, int n) {
    halves a = {x}, shifted;
    shifted.high = n < 64 ? a.high >> n : 0;
    shifted.low = n == 0 ? a.low : n < 64 ? a.low >> n | a.high << (64 - n) : a.high >> (n - 64);
    return shifted.whole;
}
