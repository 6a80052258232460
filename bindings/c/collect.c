/* Collects the recipe in a directory (recipe.cook, units.tsv, flags, events.tsv) and prints its page, or the refusal, as the
 * program `collect` does. From the repository's root:
 *
 *     python3 tools/build.py recipe
 *     cc -std=c99 -Wall -Wextra -pedantic -Iinclude bindings/c/collect.c target/staticlib/librecipe.a -o target/collect-c
 *     target/collect-c examples/rye
 */
#include "recipe.h"

#include <stdio.h>
#include <stdlib.h>
#include <string.h>

/* What is lent for the page. */
#define ROOM ((size_t)1 << 20)

/* Memory that is never null, also for 0 bytes. */
static void *lend(size_t length) {
    void *memory = malloc(length > 0 ? length : 1);
    if (memory == NULL) {
        fputs("out of memory\n", stderr);
        exit(1);
    }
    return memory;
}

struct file {
    uint8_t *bytes;
    size_t length;
};

/* A whole file; the program ends if it cannot be read. */
static struct file read_file(const char *directory, const char *name) {
    char *path = lend(strlen(directory) + strlen(name) + 2);
    struct file file = {NULL, 0};
    size_t room = 4096, got;
    FILE *stream;

    sprintf(path, "%s/%s", directory, name);
    stream = fopen(path, "rb");
    if (stream == NULL) {
        perror(path);
        exit(1);
    }
    file.bytes = lend(room);
    while ((got = fread(file.bytes + file.length, 1, room - file.length, stream)) > 0) {
        file.length += got;
        if (file.length == room) {
            room *= 2;
            file.bytes = realloc(file.bytes, room);
            if (file.bytes == NULL) {
                perror(path);
                exit(1);
            }
        }
    }
    if (ferror(stream)) {
        perror(path);
        exit(1);
    }
    fclose(stream);
    free(path);
    return file;
}

int main(int argc, char **argv) {
    const char *directory = argc > 1 ? argv[1] : ".";
    struct file text = read_file(directory, "recipe.cook");
    struct file units = read_file(directory, "units.tsv");
    struct file flags = read_file(directory, "flags");
    struct file sheet = read_file(directory, "events.tsv");
    size_t words_length = recipe_words(), bytes_length = recipe_bytes();
    uint32_t *words = lend(words_length * sizeof *words);
    uint8_t *bytes = lend(bytes_length);
    uint8_t *out = lend(ROOM);
    /* one digit; anything else is read as 8, which is refused by 7 */
    int digit = flags.length == 1 && flags.bytes[0] >= '0' && flags.bytes[0] <= '9';
    uint32_t number = digit ? (uint32_t)(flags.bytes[0] - '0') : 8;
    uint64_t answer = recipe_collect(sheet.bytes, sheet.length, text.bytes, text.length, units.bytes, units.length, number,
                                     words, words_length, bytes, bytes_length, out, ROOM);

    if (recipe_number(answer) == 0) {
        fwrite(out, 1, recipe_value(answer), stdout);
    } else {
        printf("refused\t%lu\t%lu\n", (unsigned long)recipe_number(answer), (unsigned long)recipe_value(answer));
    }
    free(out);
    free(bytes);
    free(words);
    free(sheet.bytes);
    free(flags.bytes);
    free(units.bytes);
    free(text.bytes);
    return 0;
}
