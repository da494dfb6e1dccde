/* The header's limits are the library's: each is taken, and one byte less than the least or more than the most is not. */
#include "beamsatchel.h"

#include <stdio.h>
#include <stdlib.h>
#include <string.h>

static int failed;

static void is(const char *what, uint32_t expected, uint32_t found)
{
    if (expected != found) {
        printf("%s: outcome %u, and not %u\n", what, (unsigned)found, (unsigned)expected);
        failed = 1;
    }
}

static uint32_t create(uint8_t *container, size_t length)
{
    static const uint8_t node[20], enabler[32];

    memset(container, 0, 32);
    return beamsatchel_create(container, length, node, sizeof node, enabler, sizeof enabler).number;
}

/* A test-and-write of so many bytes that writes nothing but zeros, and cuts them all. */
static uint32_t apply(uint8_t *container, size_t length, size_t request_length)
{
    static uint8_t request[BEAMSATCHEL_REQUEST_MAX + 1] = {1, 0, 1, 1};
    size_t data = request_length - 48;

    for (int i = 0; i < 4; i++) {
        request[44 + i] = (uint8_t)(data >> (24 - 8 * i));
    }
    return beamsatchel_apply(container, length, request, request_length, NULL, 0).number;
}

/* Reads nothing beside a list of so many bytes, with so many rows of one position each, every second of 600 zeros that
 * are written first. */
static uint32_t look(uint8_t *container, size_t length, uint32_t rows)
{
    static const uint8_t read[4] = {5, 0, 0, 0};
    static uint8_t write[48 + 600] = {1, 0, 1, 0}, list[BEAMSATCHEL_LIST_LENGTH + 9];

    write[46] = 600 >> 8;
    write[47] = 600 & 255;
    create(container, 2000);
    is("600 zeros", BEAMSATCHEL_DONE, beamsatchel_apply(container, 2000, write, sizeof write, NULL, 0).number);
    memset(list, 0, sizeof list);
    list[2] = (uint8_t)(rows >> 8);
    list[3] = (uint8_t)rows;
    for (uint32_t row = 0; row < rows; row++) {
        list[4 + 8 * row + 2] = (uint8_t)(2 * row >> 8);
        list[4 + 8 * row + 3] = (uint8_t)(2 * row);
        list[4 + 8 * row + 7] = 1;
    }
    return beamsatchel_read_listed(container, 2000, list, length, read, sizeof read, NULL, 0).number;
}

int main(void)
{
    uint8_t *container = malloc((size_t)BEAMSATCHEL_CONTAINER_MAX + 1);

    if (container == NULL) {
        return 1;
    }
    is("create below the least", BEAMSATCHEL_BUFFER_LENGTH, create(container, BEAMSATCHEL_CONTAINER_MIN - 1));
    is("create in the least", BEAMSATCHEL_DONE, create(container, BEAMSATCHEL_CONTAINER_MIN));
    is("create above the most", BEAMSATCHEL_BUFFER_LENGTH, create(container, (size_t)BEAMSATCHEL_CONTAINER_MAX + 1));
    is("create in the most", BEAMSATCHEL_DONE, create(container, BEAMSATCHEL_CONTAINER_MAX));
    is("a request of the most", BEAMSATCHEL_DONE,
       apply(container, BEAMSATCHEL_CONTAINER_MAX, BEAMSATCHEL_REQUEST_MAX));
    is("a request above the most", BEAMSATCHEL_REQUEST_FORMAT,
       apply(container, BEAMSATCHEL_CONTAINER_MAX, (size_t)BEAMSATCHEL_REQUEST_MAX + 1));
    is("a list below its length", BEAMSATCHEL_LIST_NOT_GOOD, look(container, BEAMSATCHEL_LIST_LENGTH - 1, 0));
    is("a list of its length", BEAMSATCHEL_DONE, look(container, BEAMSATCHEL_LIST_LENGTH, 0));
    is("a list above its length", BEAMSATCHEL_LIST_NOT_GOOD, look(container, BEAMSATCHEL_LIST_LENGTH + 1, 0));
    is("a list of the most rows", BEAMSATCHEL_DONE, look(container, BEAMSATCHEL_LIST_LENGTH, BEAMSATCHEL_LIST_ROWS));
    is("a list of more rows", BEAMSATCHEL_LIST_NOT_GOOD,
       look(container, BEAMSATCHEL_LIST_LENGTH, BEAMSATCHEL_LIST_ROWS + 1));
    free(container);
    return failed;
}
