// What comparisons and merges share: a second file beside the one that is measured.
#pragma once
#include "speed_rounds.h"

extern struct files second;

// The plain side whose turn it is.
enum side plain_side(void);

// A check of the file that is measured and one of the second.
extern struct timing checks_of_both;

// Empty files of 4,096 pages: of the parameters that all other files have, and of others and edition 2.
struct file empty_like_others(void);
struct file empty_unlike_others(void);

// A record into a file that isn't measured, which has to have room for it.
void put_into(struct file *file, uint64_t key, uint64_t value);
