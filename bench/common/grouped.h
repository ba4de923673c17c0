#pragma once
#include <stdio.h>

// A whole number as it is printed, with a comma before each three digits. The texts of the last eight calls stay.
static inline const char *grouped(double number) {
    static char texts[8][32];
    static int turn;
    char digits[24], *text = texts[turn = (turn + 1) % 8], *to = text;
    int length = snprintf(digits, sizeof digits, "%.0f", number);
    for (int i = 0; i < length; i++) {
        if (i && (length - i) % 3 == 0)
            *to++ = ',';
        *to++ = digits[i];
    }
    *to = 0;
    return text;
}
