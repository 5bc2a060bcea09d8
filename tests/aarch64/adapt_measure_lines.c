/* As adapt.c, of the benchmark's crate `measure_lines`, whose one function is declared in tests/src/measured.rs. */
#include <stddef.h>
#include <stdint.h>

typedef struct {
    uint64_t number, index, digest;
} measured;

measured measure_listing(const uint8_t *section, size_t length);

/* Of the module: ptr measure_listing(ptr, ptr, i64) */
void *proved_measure_listing(measured *listed, const uint8_t *section, size_t length);

measured measure_listing(const uint8_t *section, size_t length) {
    measured listed;
    proved_measure_listing(&listed, section, length);
    return listed;
}
