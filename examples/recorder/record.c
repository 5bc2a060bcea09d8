/* Writes a crash to a folder, so that it can be walked again: the section, the stack window, the numbers beside them,
 * and the frames as the program expected them. The names are put together before the crash; what is called in the
 * handler is open, write and close. */
#include <fcntl.h>
#include <stdio.h>
#include <string.h>
#include <unistd.h>

#include "recorder.h"

enum { SECTION_FILE, STACK_FILE, RUN_FILE, FRAMES_FILE, FILES };

static const char *const names[FILES] = {"section.sframe", "stack.bin", "run.txt", "frames.txt"};

static char paths[FILES][4096];

/* 0 where a name would be too long. */
int prepare_record(const char *folder) {
    int file, fits = 1;
    for (file = 0; file < FILES; file++) {
        int length = snprintf(paths[file], sizeof paths[file], "%s/%s", folder, names[file]);
        fits = fits && length > 0 && (size_t)length < sizeof paths[file];
    }
    return fits;
}

static int open_new(int file) {
    return open(paths[file], O_WRONLY | O_CREAT | O_TRUNC, 0644);
}

static int write_bytes(int file, lent_bytes lent) {
    int opened = open_new(file);
    ssize_t written;
    if (opened < 0) {
        return 0;
    }
    written = write(opened, lent.bytes, lent.length);
    return close(opened) == 0 && written == (ssize_t)lent.length;
}

static void say_named(int file, const char *name, uint64_t word) {
    say(file, name);
    say(file, " ");
    say_word(file, word);
    say(file, "\n");
}

static int write_run(const crash *recorded) {
    int file = open_new(RUN_FILE);
    if (file < 0) {
        return 0;
    }
    say_named(file, "section_address", recorded->process.section_address);
    say_named(file, "stack_address", recorded->process.stack_address);
    say_named(file, "mask", recorded->process.mask);
    say_named(file, "pc", recorded->registers.pc);
    say_named(file, "sp", recorded->registers.sp);
    say_named(file, "fp", recorded->registers.fp);
    say_named(file, "lr", recorded->registers.lr);
    say_named(file, "limit", SUNTIMPANI_USUAL_LIMIT);
    say_named(file, "frames", FRAMES);
    say_named(file, "ending", OUTSIDE);
    return close(file) == 0;
}

static int write_frames(const crash *recorded) {
    int number, file = open_new(FRAMES_FILE);
    if (file < 0) {
        return 0;
    }
    for (number = 0; number < FRAMES; number++) {
        say_word(file, recorded->expected[number].cfa);
        say(file, " ");
        say_word(file, recorded->expected[number].ra);
        say(file, " ");
        say_word(file, recorded->expected[number].fp);
        say(file, "\n");
    }
    return close(file) == 0;
}

/* The stack is written up to where main's caller begins: nothing above belongs to a frame of this program, and on the
 * first thread's stack the environment lies there. 0 where a file cannot be written. */
int write_record(const crash *recorded) {
    lent_bytes stack = recorded->stack;
    stack.length = recorded->expected[IN_MAIN].cfa - recorded->process.stack_address;
    return write_bytes(SECTION_FILE, recorded->section) && write_bytes(STACK_FILE, stack) && write_run(recorded) &&
           write_frames(recorded);
}
