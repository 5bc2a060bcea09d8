/* A trace as it is printed, and what it is held against: the frames that the program noted on its way down. */
#include "recorder.h"

static void say_frame(uint64_t number, const uint64_t *words) {
    say_count(1, number, 5);
    say(1, "  ");
    say_word(1, words[0]);
    say(1, "  ");
    say_word(1, words[1]);
    say(1, "  ");
    say_word(1, words[2]);
    say(1, "\n");
}

void say_trace(suntimpani_traced traced, const uint64_t *words) {
    uint64_t number;
    say(1, "frame  CFA               RA                FP\n");
    for (number = 0; number < traced.frames; number++) {
        say_frame(number, words + 3 * number);
    }
    say(1, "frames: ");
    say_count(1, traced.frames, 1);
    say(1, "\nended: ");
    say_count(1, traced.ending, 1);
    say(1, "\n");
}

/* 1 where a word differs from what was noted. */
static int differs(uint64_t number, const char *name, uint64_t got, uint64_t noted) {
    if (got == noted) {
        return 0;
    }
    say(1, "recorder: frame ");
    say_count(1, number, 1);
    say(1, name);
    say_word(1, got);
    say(1, ", and was noted as ");
    say_word(1, noted);
    say(1, "\n");
    return 1;
}

static int differences(uint64_t frames, const uint64_t *words) {
    uint64_t number;
    int count = 0;
    for (number = 0; number < frames; number++) {
        const frame *noted = &seen.expected[(uint64_t)seen.innermost + number];
        count += differs(number, ": CFA is ", words[3 * number], noted->cfa);
        count += differs(number, ": RA is ", words[3 * number + 1], noted->ra);
        count += differs(number, ": FP is ", words[3 * number + 2], noted->fp);
    }
    return count;
}

/* The words that both have are compared even where the number of frames is another. */
int is_as_expected(suntimpani_traced traced, const uint64_t *words, uint64_t frames, uint64_t ending) {
    int same = traced.frames == frames && traced.ending == ending;
    if (differences(traced.frames < frames ? traced.frames : frames, words) > 0) {
        return 0;
    }
    say(1, "recorder: ");
    say_count(1, frames, 1);
    say(1, same ? " frames as expected, and the ending " : " frames were expected, and the ending ");
    say_count(1, ending, 1);
    say(1, ending == FULL ? ": the limit is full\n" : ": no section that was lent covers the PC behind them\n");
    return same;
}
