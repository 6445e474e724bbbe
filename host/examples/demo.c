/* A disk made, filled and read back by the proved library, from C. demo.rs does the same from Rust and prints
 * the same lines. From the repository's root, after `tools/staticlib`:
 *
 *     cc -I include host/examples/demo.c target/staticlib/libpfs.a -o target/demo && target/demo
 */
#include <inttypes.h>
#include <stdio.h>
#include <stdlib.h>

#include "pfs.h"

#define BLOCKS 1760
#define DAY 17000
#define MINUTE 600

static uint8_t image[BLOCKS * 512];
static uint16_t blocks[BLOCKS], anodes[PFS_ANODES];

/* What every call but format is lent first. */
#define DISK image, sizeof image, blocks, BLOCKS, anodes, PFS_ANODES
/* A name or a text as pointer and length. */
#define TEXT(text) (const uint8_t *)(text), sizeof(text) - 1

static void must(uint32_t answer, const char *what)
{
    if (answer != 0) {
        fprintf(stderr, "%s: refused by %" PRIu32 ": %s\n", what, answer, pfs_words(answer));
        exit(1);
    }
}

static void print_summary(void)
{
    uint32_t counts[PFS_SUMMARY_FIELDS];
    must(pfs_summary(DISK, counts), "summary");
    printf("%" PRIu32 " blocks, %" PRIu32 " free\n", counts[PFS_SUMMARY_BLOCKS], counts[PFS_SUMMARY_FREE]);
}

int main(void)
{
    static const char text[] = "180 C, 25 min\n";
    uint8_t back[sizeof text - 1];
    uint32_t entry[PFS_LIST_FIELDS];
    uint16_t recipes;

    must(pfs_format(image, sizeof image, 63, 2, TEXT("bench 4"), DAY, MINUTE, 0, 0), "format");
    must(pfs_make(DISK, PFS_ROOT, PFS_DIRECTORY, TEXT("recipes"), TEXT(""), DAY, MINUTE, 0, 0), "make a directory");
    must(pfs_find(DISK, PFS_ROOT, TEXT("recipes"), entry), "find");
    recipes = (uint16_t)entry[PFS_LIST_ANODE];

    must(pfs_make(DISK, recipes, PFS_FILE, TEXT("pack7"), TEXT("white bread"), DAY, MINUTE, 0, 0), "make a file");
    must(pfs_resize(DISK, recipes, TEXT("pack7"), sizeof back), "resize");
    must(pfs_write(DISK, recipes, TEXT("pack7"), 0, TEXT(text)), "write");

    must(pfs_list(DISK, recipes, 0, entry), "list");
    printf("%.*s: %" PRIu32 " bytes, %.*s\n", (int)entry[PFS_LIST_NAME_LENGTH],
           (const char *)image + entry[PFS_LIST_NAME], entry[PFS_LIST_SIZE], (int)entry[PFS_LIST_COMMENT_LENGTH],
           (const char *)image + entry[PFS_LIST_COMMENT]);
    must(pfs_read(DISK, recipes, TEXT("pack7"), 0, back, sizeof back), "read");
    fwrite(back, 1, sizeof back, stdout);

    /* More than the disk has: refused, and nothing has changed. */
    printf("resize: refused by %" PRIu32 "\n", pfs_resize(DISK, recipes, TEXT("pack7"), 1 << 20));
    print_summary();

    must(pfs_remove(DISK, recipes, TEXT("pack7")), "remove the file");
    must(pfs_remove(DISK, PFS_ROOT, TEXT("recipes")), "remove the directory");
    must(pfs_check(DISK), "check");
    print_summary();
    return 0;
}
