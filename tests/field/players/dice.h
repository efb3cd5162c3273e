/* Numbers that look random, the same on every run with the same seed, as those of tests/making/mixed.py. */
#ifndef FIELD_DICE_H
#define FIELD_DICE_H
void seed_dice(unsigned long seed);
/* A number from 0 on, below the bound. */
int below(int bound);
/* 1 once in `times` calls, on average, else 0. */
int once_in(int times);
#endif
