/* Reads a task file, and prints its bounds, a cheapest plan and its listing: plan FILE */
#include "shelfline.h"

#include <stdio.h>

enum { FILE_BYTES = 16384, PLACES = 2048, TEXT_BYTES = 32768 };

static void print_bound(const uint8_t *file, size_t length, const char *name, uint32_t way, uint32_t order)
{
    uint64_t told[2];
    uint32_t number = shelfline_bound(file, length, way, order, told, 2);
    if (number != 0)
        printf("%s m=%u: refused %u\n", name, (unsigned)order, (unsigned)number);
    else if (told[0] == 0)
        printf("%s m=%u: none\n", name, (unsigned)order);
    else
        printf("%s m=%u: %llu tenths of a second\n", name, (unsigned)order, (unsigned long long)told[1]);
}

static void print_plan(const uint8_t *file, size_t length)
{
    static uint16_t plan[PLACES];
    uint64_t told[4];
    uint32_t number = shelfline_search(file, length, 1, 2, PLACES, plan, PLACES, told, 4);
    if (number != 0) {
        printf("search: refused %u\n", (unsigned)number);
    } else if (told[0] == 0) {
        printf("search: no plan, %llu places used\n", (unsigned long long)told[3]);
    } else {
        printf("search: cost %llu, %llu places used, actions", (unsigned long long)told[2], (unsigned long long)told[3]);
        for (uint64_t i = 0; i < told[1]; i++)
            printf(" %u", (unsigned)plan[i]);
        printf("\n");
    }
}

int main(int argc, char **argv)
{
    static uint8_t file[FILE_BYTES];
    static uint8_t text[TEXT_BYTES];
    uint64_t told[2];
    FILE *in = argc > 1 ? fopen(argv[1], "rb") : stdin;
    if (in == NULL) {
        perror(argv[1]);
        return 1;
    }
    size_t length = fread(file, 1, FILE_BYTES, in);
    uint32_t number = shelfline_check(file, length, told, 2);
    if (number != 0) {
        printf("refused %u at byte %llu\n", (unsigned)number, (unsigned long long)told[0]);
        return 1;
    }
    printf("%llu atoms, %llu actions\n", (unsigned long long)told[0], (unsigned long long)told[1]);
    for (uint32_t order = 1; order <= 2; order++) {
        print_bound(file, length, "direct", 0, order);
        print_bound(file, length, "compiled", 1, order);
    }
    print_plan(file, length);
    if (shelfline_listing(file, length, text, TEXT_BYTES, told, 1) == 0)
        fwrite(text, 1, (size_t)told[0], stdout);
    return 0;
}
