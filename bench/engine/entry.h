/* What each program has: the module's entry, which gives the result of its work, and traps where that isn't the
   expected one. Compiled for this machine instead, the same work prints what it gave and what was expected. */

typedef unsigned char u8;
typedef unsigned int u32;
typedef unsigned long long u64;

#ifdef __wasm__
#define ENTRY(expected)                                                                                                \
    __attribute__((export_name("_start"))) u32 start(void) {                                                           \
        u32 result = work();                                                                                           \
        if (result != (expected))                                                                                      \
            __builtin_trap();                                                                                          \
        return result;                                                                                                 \
    }
#else
int printf(const char *, ...);
#define ENTRY(expected)                                                                                                \
    int main(void) { return printf("%u %u\n", work(), (u32)(expected)) < 0; }
#endif

/* The next number of a stream that begins anywhere but at 0. */
static inline u32 next_number(u32 *state) {
    u32 x = *state;
    x ^= x << 13;
    x ^= x >> 17;
    x ^= x << 5;
    return *state = x;
}
