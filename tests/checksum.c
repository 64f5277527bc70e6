/*
 * Holds the two functions of crc32c.h to the definition of CRC-32C, worked out
 * bit by bit: the register over bytes in two parts, and the refreshed checksum
 * for every number of following bytes up to 2,000 and for some up to 2^64 - 1.
 */
#include "crc32c.h"
#include <stdio.h>
#include <stdlib.h>

#define EACH 2000

static uint32_t step(uint32_t r)
{
    return (r >> 1) ^ ((r & 1) ? 0x82F63B78u : 0);
}

static uint32_t bits(uint32_t r, const uint8_t *s, size_t n)
{
    for (size_t i = 0; i < n; i++) {
        r ^= s[i];
        for (int k = 0; k < 8; k++)
            r = step(r);
    }
    return r;
}

static uint64_t seed = 1;

static uint32_t next(void)
{
    seed = seed * 6364136223846793005u + 1442695040888963407u;
    return (uint32_t)(seed >> 32);
}

static void hold(int right, const char *what, uint64_t number)
{
    if (!right) {
        printf("%s: wrong at %llu\n", what, (unsigned long long)number);
        exit(1);
    }
}

static void put(uint8_t *at, uint32_t word)
{
    for (int k = 0; k < 4; k++)
        at[k] = (uint8_t)(word >> (8 * k));
}

static void parts(const uint8_t *s)
{
    hold(~crc32c_update(~0u, (const uint8_t *)"123456789", 9) == 0xE3069283u, "register", 9);
    hold(crc32c_update(5, NULL, 0) == 5, "register", 0);
    for (size_t n = 0; n <= 600; n++) {
        uint32_t r = next();
        size_t first = next() % (n + 1);
        hold(crc32c_update(crc32c_update(r, s, first), s + first, n - first) == bits(r, s, n), "register", n);
    }
}

/* A message of random bytes with n behind its flag word, which changes to several others: a bit, some bits, all, none. */
static void near(uint8_t *s, size_t n)
{
    uint32_t old = next();
    uint32_t words[] = {old & ~0x10000u, old & next(), ~old, old, next()};
    put(s + 16, old);
    uint32_t sum = ~bits(~0u, s, 20 + n);
    for (size_t k = 0; k < sizeof words / sizeof *words; k++) {
        put(s + 16, words[k]);
        uint32_t fresh = crc32c_refresh(sum, old, words[k], n);
        hold(fresh == ~bits(~0u, s, 20 + n), "refresh", n);
        hold(crc32c_refresh(~sum, old, words[k], n) == ~fresh, "refresh of a wrong checksum", n);
    }
}

/*
 * Numbers up to 2^64 - 1. The change goes over zeros, its own four bytes among them. After PERIOD steps the register is
 * where it began, which is seen here; so the steps count modulo that, and one round meets every number.
 */
#define PERIOD 0x7FFFFFFFu
#define NUMBERS 400

struct number {
    uint64_t following;
    uint32_t steps;
};

static int order(const void *a, const void *b)
{
    uint32_t x = ((const struct number *)a)->steps, y = ((const struct number *)b)->steps;
    return (x > y) - (x < y);
}

static void far(void)
{
    static struct number numbers[NUMBERS];
    static const uint64_t ends[] = {0, 0xFFFFFFFF, 0x100000000, 0xFFFFFFFFFFFFFFFF};
    for (int k = 0; k < NUMBERS; k++) {
        uint64_t n = k < 4 ? ends[k] : ((uint64_t)next() << 32 | next()) >> k % 64;
        numbers[k].following = n;
        numbers[k].steps = (uint32_t)((n % PERIOD + 4) * 8 % PERIOD);
    }
    qsort(numbers, NUMBERS, sizeof *numbers, order);
    uint32_t change = next(), r = change;
    int k = 0;
    for (uint32_t steps = 0; steps < PERIOD; steps++) {
        for (; k < NUMBERS && numbers[k].steps == steps; k++)
            hold(crc32c_refresh(0, change, 0, numbers[k].following) == r, "refresh", numbers[k].following);
        r = step(r);
    }
    hold(r == change && k == NUMBERS, "a round of the register", PERIOD);
}

int main(void)
{
    static uint8_t s[20 + EACH];
    for (size_t i = 0; i < sizeof s; i++)
        s[i] = (uint8_t)next();
    parts(s);
    for (size_t n = 0; n <= EACH; n++)
        near(s, n);
    far();
    printf("the register and the refreshed checksum are as defined\n");
    return 0;
}
