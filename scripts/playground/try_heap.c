// What heap.c has, as code that is compiled calls it, for try_heap.mjs.
typedef unsigned long u64;
typedef unsigned __int128 u128;
typedef __int128 i128;

int memcmp(const void *a, const void *b, u64 n);

// p[0], p[1] and p[2], p[3] are two numbers of 128 bits, the low half first. p[4], p[5] become what `which` makes of
// them.
__attribute__((export_name("tried"))) void tried(u64 *p, u64 which) {
    u128 x = (u128)p[1] << 64 | p[0], y = (u128)p[3] << 64 | p[2], made = 0;
    switch (which) {
    case 0: made = x * y; break;
    case 1: made = x << (y & 127); break;
    case 2: made = x >> (y & 127); break;
    case 3: made = (u128)((i128)x >> (y & 127)); break;
    case 4: made = (u128)((i128)x / 8); break;
    case 5: made = (u128)((i128)x % 1024); break;
    case 6: made = (u128)((i128)x / ((i128)1 << 70)); break;
    }
    p[4] = (u64)made;
    p[5] = (u64)(made >> 64);
}

__attribute__((export_name("compared"))) long compared(const void *a, const void *b, u64 n) {
    return memcmp(a, b, n);
}
