/* Empty slices, with null pointers and with others, in every argument of every function: the answers are the same. */
#include "beamsatchel.h"

#include <stdio.h>
#include <string.h>

static int failed;

static void same(const char *function, unsigned which, const void *left, const void *right, size_t size)
{
    if (memcmp(left, right, size) != 0) {
        printf("%s: another answer with null pointers (%u)\n", function, which);
        failed = 1;
    }
}

/* The slices of a writer: for SDMF R, IV, the six parts, the space; for MDMF R, the seven parts, the space. */
enum { SLICES = 9, SPACE = 8 };

typedef beamsatchel_written writer(uint8_t *const at[], const size_t length[]);

/* Shares without data, of N = 1. */
static beamsatchel_written write_sdmf(uint8_t *const at[], const size_t length[])
{
    return beamsatchel_write_sdmf(1, at[0], length[0], at[1], length[1], 1, 1, 0, at[2], length[2],
                                  at[3], length[3], at[4], length[4], at[5], length[5],
                                  at[6], length[6], at[7], length[7], at[SPACE], length[SPACE]);
}

static beamsatchel_written write_mdmf(uint8_t *const at[], const size_t length[])
{
    return beamsatchel_write_mdmf(1, at[0], length[0], 1, 1, 0, 0, at[1], length[1], at[2], length[2],
                                  at[3], length[3], at[4], length[4], at[5], length[5],
                                  at[6], length[6], at[7], length[7], at[SPACE], length[SPACE]);
}

/* Writes a share into space of 250 bytes; `answer` is number and length. Bit i of `which` says that slice i is empty,
 * and has this pointer. */
static void write_share(writer *write, const size_t lengths[], unsigned which, uint8_t *pointer, uint8_t *space,
                        uint64_t answer[2])
{
    static uint8_t bytes[34];
    uint8_t *at[SLICES];
    size_t length[SLICES];
    beamsatchel_written written;

    for (int i = 0; i < SLICES; i++) {
        int empty = which >> i & 1;
        at[i] = empty ? pointer : i == SPACE ? space : bytes;
        length[i] = empty ? 0 : lengths[i];
    }
    written = write(at, length);
    answer[0] = written.number;
    answer[1] = written.length;
}

/* Two of them are good: without chain and share data, and for SDMF with or without a tree, for MDMF without a tree and
 * with or without spare bytes. */
static void write_shares(const char *name, writer *write, const size_t lengths[], uint8_t *any)
{
    int good = 0;

    for (unsigned which = 1; which < 1u << SLICES; which++) {
        uint8_t left[250] = {0}, right[250] = {0};
        uint64_t null[2], other[2];
        write_share(write, lengths, which, NULL, left, null);
        write_share(write, lengths, which, any, right, other);
        same(name, which, null, other, sizeof null);
        same(name, which, left, right, sizeof left);
        good += null[0] == BEAMSATCHEL_DONE;
    }
    if (good != 2) {
        printf("%s: %d shares were written, and 2 are good\n", name, good);
        failed = 1;
    }
}

int main(void)
{
    static const size_t sdmf[SLICES] = {32, 16, 1, 1, 34, 32, 1, 1, 250};
    static const size_t mdmf[SLICES] = {32, 1, 34, 1, 1, 1, 1, 32, 250};
    uint8_t fresh[500] = {0}, node[20] = {7}, enabler[32] = {1}, space[8], any[1];
    const uint8_t read[4] = {5, 0, 0, 0};
    beamsatchel_answer null, other;
    beamsatchel_share null_share, other_share;

    if (beamsatchel_create(fresh, sizeof fresh, node, sizeof node, enabler, sizeof enabler).number != BEAMSATCHEL_DONE)
        return 1;
    /* Bit i of `which` says that argument i is empty. */
    for (unsigned which = 1; which < 8; which++) {
        uint8_t left[500], right[500];
        size_t container_len = which & 1 ? 0 : sizeof left;
        size_t second_len = which & 2 ? 0 : sizeof node, third_len = which & 4 ? 0 : sizeof enabler;
        memset(left, 0, sizeof left);
        memset(right, 0, sizeof right);
        null = beamsatchel_create(which & 1 ? NULL : left, container_len, which & 2 ? NULL : node, second_len,
                                  which & 4 ? NULL : enabler, third_len);
        other = beamsatchel_create(which & 1 ? any : right, container_len, which & 2 ? any : node, second_len,
                                   which & 4 ? any : enabler, third_len);
        same("create", which, &null, &other, sizeof null);
        same("create", which, left, right, sizeof left);

        memcpy(left, fresh, sizeof left);
        memcpy(right, fresh, sizeof right);
        second_len = which & 2 ? 0 : sizeof read;
        third_len = which & 4 ? 0 : sizeof space;
        null = beamsatchel_apply(which & 1 ? NULL : left, container_len, which & 2 ? NULL : read, second_len,
                                 which & 4 ? NULL : space, third_len);
        other = beamsatchel_apply(which & 1 ? any : right, container_len, which & 2 ? any : read, second_len,
                                  which & 4 ? any : space, third_len);
        same("apply", which, &null, &other, sizeof null);
        same("apply", which, left, right, sizeof left);

        null = beamsatchel_read(which & 1 ? NULL : left, container_len, which & 2 ? NULL : read, second_len,
                                which & 4 ? NULL : space, third_len);
        same("read", which, &null, &other, sizeof null);

        null = beamsatchel_apply_listed(which & 1 ? NULL : left, container_len, NULL, 0, which & 2 ? NULL : read,
                                        second_len, which & 4 ? NULL : space, third_len);
        other = beamsatchel_apply_listed(which & 1 ? any : right, container_len, any, 0, which & 2 ? any : read,
                                         second_len, which & 4 ? any : space, third_len);
        same("apply_listed", which, &null, &other, sizeof null);
        same("apply_listed", which, left, right, sizeof left);
        null = beamsatchel_read_listed(which & 1 ? NULL : left, container_len, NULL, 0, which & 2 ? NULL : read,
                                       second_len, which & 4 ? NULL : space, third_len);
        same("read_listed", which, &null, &other, sizeof null);
    }
    null_share = beamsatchel_check_bare_share(NULL, 0);
    other_share = beamsatchel_check_bare_share(any, 0);
    same("check_bare_share", 1, &null_share, &other_share, sizeof null_share);
    null_share = beamsatchel_check_share_in(NULL, 0);
    other_share = beamsatchel_check_share_in(any, 0);
    same("check_share_in", 1, &null_share, &other_share, sizeof null_share);
    write_shares("write_sdmf", write_sdmf, sdmf, any);
    write_shares("write_mdmf", write_mdmf, mdmf, any);
    return failed;
}
