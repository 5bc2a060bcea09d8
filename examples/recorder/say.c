/* Output by write(2) alone, which a signal handler may call. */
#include <string.h>
#include <unistd.h>

#include "recorder.h"

/* What cannot be written is lost: there is nobody left to tell. */
static void put(int file, const char *bytes, size_t length) {
    while (length > 0) {
        ssize_t written = write(file, bytes, length);
        if (written <= 0) {
            return;
        }
        bytes += written;
        length -= (size_t)written;
    }
}

void say(int file, const char *text) {
    put(file, text, strlen(text));
}

void say_word(int file, uint64_t word) {
    char digits[16];
    int place;
    for (place = 15; place >= 0; place--) {
        digits[place] = "0123456789abcdef"[word % 16];
        word /= 16;
    }
    put(file, digits, sizeof digits);
}

void say_count(int file, uint64_t count, int width) {
    char digits[20];
    int place = 20;
    do {
        digits[--place] = (char)('0' + count % 10);
        count /= 10;
    } while (count > 0);
    while (20 - place < width) {
        digits[--place] = ' ';
    }
    put(file, digits + place, (size_t)(20 - place));
}
