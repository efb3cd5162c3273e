#include "dice.h"

static unsigned long state;

void seed_dice(unsigned long seed)
{
    state = seed;
}

int below(int bound)
{
    state = state * 6364136223846793005u + 1442695040888963407u;
    return (int)((state >> 33) % bound);
}

int once_in(int times)
{
    return below(times) == 0;
}
