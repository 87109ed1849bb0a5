/* Checks the files named on the command line, for retailer 999999999 and distributor 0040, and prints for each its name, and
 * the number, code and line that Check answers: 0 0 0 where all tests pass. A house number has code 0. */
#include "intake.h"

#include <stdio.h>
#include <stdlib.h>
#include <string.h>

static const uint64_t retailer = 999999999;
static const char distributors[] = "0040";

/* One byte more than a file may have, so that a longer one is seen to be longer. */
static uint8_t file[1048577];

static const char *base_name(const char *path) {
    const char *slash = strrchr(path, '/');
    return slash == NULL ? path : slash + 1;
}

static int check(const char *path) {
    FILE *stream = fopen(path, "rb");
    if (stream == NULL) {
        perror(path);
        return EXIT_FAILURE;
    }
    size_t length = fread(file, 1, sizeof file, stream);
    int failed = ferror(stream);
    fclose(stream);
    if (failed) {
        perror(path);
        return EXIT_FAILURE;
    }
    uint64_t answer = intake_check(retailer, (const uint8_t *)distributors, strlen(distributors), file, length);
    uint64_t code = intake_code(intake_number(answer));
    printf("%s %u %u %u\n", base_name(path), intake_number(answer), intake_number(code) == 0 ? intake_value(code) : 0, intake_value(answer));
    return EXIT_SUCCESS;
}

int main(int count, char **paths) {
    int status = EXIT_SUCCESS;
    for (int i = 1; i < count; i++) {
        if (check(paths[i]) != EXIT_SUCCESS) {
            status = EXIT_FAILURE;
        }
    }
    return status;
}
