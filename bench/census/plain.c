/* `census_now` written by hand: loads the word, unpacks it with the total, and keeps the stamp. Each line of standard input is a number
 * of looks. The program takes them, and then prints a line that begins with the stamp. Each count in a word is below COUNT_RANGE, which
 * the compiler's command line defines. */
#include <inttypes.h>
#include <stdatomic.h>
#include <stdint.h>
#include <stdio.h>

struct shared {
    _Atomic uint64_t word;
    uint32_t blocks;
};

struct desk {
    uint64_t seen;
};

struct census {
    uint64_t stamp;
    uint32_t free, queued, held;
};

/* Neither inlined nor copied for one caller. */
__attribute__((noinline, noipa)) static struct census census_now(const struct shared *shared, struct desk *desk)
{
    uint64_t word = atomic_load(&shared->word);
    struct census now = {
        .stamp = word / COUNT_RANGE / COUNT_RANGE,
        .free = word / COUNT_RANGE % COUNT_RANGE,
        .queued = word % COUNT_RANGE,
    };
    now.held = shared->blocks - (now.free + now.queued);
    desk->seen = now.stamp;
    return now;
}

int main(void)
{
    static struct shared shared = {.word = UINT64_C(64) * COUNT_RANGE, .blocks = 64};
    static struct desk desk;
    uint64_t looks;
    while (scanf("%" SCNu64, &looks) == 1) {
        uint64_t told = 0;
        for (uint64_t i = 0; i < looks; i++) {
            struct census now = census_now(&shared, &desk);
            told += now.stamp ^ (now.free ^ now.queued ^ now.held);
        }
        printf("%" PRIu64 " %" PRIu64 "\n", desk.seen, told);
        fflush(stdout);
    }
    return 0;
}
