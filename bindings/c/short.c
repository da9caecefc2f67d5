/* The shortest use of both libraries. */
#include "arena_cursor.h"
#include "arena_oracle.h"
#include <stdio.h>

int main(void) {
    static char memory[4096];
    struct arena_cursor at = arena_cursor_over(memory, sizeof memory);
    int *numbers = arena_cursor_alloc(&at, 10 * sizeof *numbers, sizeof *numbers);
    if (!numbers) return 1;
    numbers[9] = 9;
    numbers = arena_cursor_realloc(&at, numbers, 10 * sizeof *numbers, 20 * sizeof *numbers, sizeof *numbers);
    if (!numbers || numbers[9] != 9) return 1;
    arena_cursor_free(&at, numbers, 20 * sizeof *numbers);

    static const uint8_t lines[] = "alloc 0 5 1 104\nread 0\n";
    uint8_t text[100];
    uint64_t none[1] = {0};
    struct arena_oracle_report report;
    uint32_t status = arena_oracle_calls(lines, sizeof lines - 1, 1 << 20, none, 0, text, sizeof text, &report);
    if (status) return 1;
    fwrite(text, 1, report.length, stdout);
    return 0;
}
