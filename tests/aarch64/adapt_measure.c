/* As adapt.c, of the benchmark's crate `measure`, whose one function is declared in tests/src/measured.rs. */
#include <stddef.h>
#include <stdint.h>

typedef struct {
    uint64_t number, index, digest;
} measured;

measured measure_finds(const uint8_t *section, size_t length, uint64_t address, const uint64_t *pcs, size_t count);

/* Of the module: ptr measure_finds(ptr, ptr, i64, i64, ptr, i64) */
void *proved_measure_finds(measured *found, const uint8_t *section, size_t length, uint64_t address,
                           const uint64_t *pcs, size_t count);

measured measure_finds(const uint8_t *section, size_t length, uint64_t address, const uint64_t *pcs, size_t count) {
    measured found;
    proved_measure_finds(&found, section, length, address, pcs, count);
    return found;
}
