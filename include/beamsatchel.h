/* The C interface of Beamsatchel. docs/C-INTERFACE.md says what each function promises, docs/RULES.md what the bytes
 * of containers, requests, replies and shares mean. */
#ifndef BEAMSATCHEL_H
#define BEAMSATCHEL_H

#include <stddef.h>
#include <stdint.h>

#ifdef __cplusplus
extern "C" {
#endif

/* The outcomes: 0 to 5 and 7 to 12 for containers, beside a never-written list also 13 and 16, 21 to 29 for shares. The
 * lowest that applies is given, but for 16, which comes right after 2.
 * The two writers have names of their own for 3 and 7 (one switch cannot have both names of a number), and what their
 * 24 and 25 mean is in "Writing a share" of docs/C-INTERFACE.md. */
enum beamsatchel_outcome {
    BEAMSATCHEL_DONE = 0,
    BEAMSATCHEL_BUFFER_LENGTH = 1,
    BEAMSATCHEL_NOT_WELL_FORMED = 2,
    BEAMSATCHEL_REQUEST_FORMAT = 3,
    BEAMSATCHEL_OFFSET_BEFORE_START = 4,
    BEAMSATCHEL_ENABLER_DIFFERS = 5,
    BEAMSATCHEL_REPLY_SPACE = 7,
    BEAMSATCHEL_TEST_FALSE = 8,
    BEAMSATCHEL_NO_SUCH_LEASE = 9,
    BEAMSATCHEL_LEASES_FULL = 10,
    BEAMSATCHEL_NO_ROOM = 11,
    BEAMSATCHEL_ALREADY_CONTAINER = 12,
    BEAMSATCHEL_LIST_FULL = 13,
    BEAMSATCHEL_LIST_NOT_GOOD = 16,
    BEAMSATCHEL_SHARE_SHORT = 21,
    BEAMSATCHEL_SHARE_VERSION = 22,
    BEAMSATCHEL_SHARE_CODING = 23,
    BEAMSATCHEL_SHARE_SEGMENT_SIZE = 24,
    BEAMSATCHEL_SHARE_OFFSETS = 25,
    BEAMSATCHEL_SHARE_HASH_CHAIN = 26,
    BEAMSATCHEL_SHARE_BLOCK_TREE = 27,
    BEAMSATCHEL_SHARE_DATA = 28,
    BEAMSATCHEL_SHARE_SEQUENCE = 29,
    BEAMSATCHEL_WRITE_FIELDS = 3,
    BEAMSATCHEL_WRITE_SPACE = 7
};

/* The least and the most bytes of a container's buffer, and the most bytes of a request. */
enum {
    BEAMSATCHEL_CONTAINER_MIN = 472,
    BEAMSATCHEL_CONTAINER_MAX = 16777216,
    BEAMSATCHEL_REQUEST_MAX = 65536
};

/* The bytes of a never-written list, all 0 beside a fresh container, and the most rows that it has. */
enum { BEAMSATCHEL_LIST_LENGTH = 2052, BEAMSATCHEL_LIST_ROWS = 256 };

/* The offset that names the end of the data, for appends. The last byte is at BEAMSATCHEL_OFFSET_END - 1. */
enum { BEAMSATCHEL_OFFSET_END = -1 };

/* The editions of a share, which its first byte tells. */
enum { BEAMSATCHEL_SDMF = 0, BEAMSATCHEL_MDMF = 1 };

/* Bytes of a share before its first part. */
enum { BEAMSATCHEL_SDMF_HEADER = 107, BEAMSATCHEL_MDMF_HEADER = 123 };

/* The parts of a share by name: part i is from bounds[i] up to bounds[i + 1]. */
enum beamsatchel_sdmf_part {
    BEAMSATCHEL_SDMF_VERIFICATION_KEY = 0,
    BEAMSATCHEL_SDMF_SIGNATURE = 1,
    BEAMSATCHEL_SDMF_HASH_CHAIN = 2,
    BEAMSATCHEL_SDMF_BLOCK_TREE = 3,
    BEAMSATCHEL_SDMF_SHARE_DATA = 4,
    BEAMSATCHEL_SDMF_ENCRYPTED_PRIVATE_KEY = 5,
    BEAMSATCHEL_SDMF_PARTS = 6
};

enum beamsatchel_mdmf_part {
    BEAMSATCHEL_MDMF_ENCRYPTED_PRIVATE_KEY = 0,
    BEAMSATCHEL_MDMF_HASH_CHAIN = 1,
    BEAMSATCHEL_MDMF_SIGNATURE = 2,
    BEAMSATCHEL_MDMF_VERIFICATION_KEY = 3,
    BEAMSATCHEL_MDMF_SPARE = 4,
    BEAMSATCHEL_MDMF_SHARE_DATA = 5,
    BEAMSATCHEL_MDMF_BLOCK_TREE = 6,
    BEAMSATCHEL_MDMF_PARTS = 7
};

/* The outcome's number, a node id (the container's on 5, else zeros), and a count. */
typedef struct beamsatchel_answer {
    uint32_t number;
    uint8_t node[20];
    uint64_t count;
} beamsatchel_answer;

/* The outcome's number, the edition that the share's first byte names (on a refusal too; BEAMSATCHEL_SDMF where it
 * names none), and the boundaries of the parts (all 0 on a refusal). SDMF has six parts, so that its end stands twice. */
typedef struct beamsatchel_share {
    uint32_t number;
    uint32_t edition;
    uint64_t bounds[8];
} beamsatchel_share;

/* The outcome's number, and the share's length (0 on a refusal). */
typedef struct beamsatchel_written {
    uint32_t number;
    uint64_t length;
} beamsatchel_written;

beamsatchel_answer beamsatchel_create(uint8_t *container, size_t container_len,
                                      const uint8_t *node, size_t node_len,
                                      const uint8_t *enabler, size_t enabler_len);

beamsatchel_answer beamsatchel_apply(uint8_t *container, size_t container_len,
                                     const uint8_t *request, size_t request_len,
                                     uint8_t *reply, size_t reply_len);

beamsatchel_answer beamsatchel_read(const uint8_t *container, size_t container_len,
                                    const uint8_t *request, size_t request_len,
                                    uint8_t *reply, size_t reply_len);

/* The same for a container with its never-written list. Whoever keeps a list sends every test-and-write this way. */
beamsatchel_answer beamsatchel_apply_listed(uint8_t *container, size_t container_len,
                                            uint8_t *list, size_t list_len,
                                            const uint8_t *request, size_t request_len,
                                            uint8_t *reply, size_t reply_len);

beamsatchel_answer beamsatchel_read_listed(const uint8_t *container, size_t container_len,
                                           const uint8_t *list, size_t list_len,
                                           const uint8_t *request, size_t request_len,
                                           uint8_t *reply, size_t reply_len);

beamsatchel_share beamsatchel_check_bare_share(const uint8_t *share, size_t share_len);

beamsatchel_share beamsatchel_check_share_in(const uint8_t *container, size_t container_len);

/* k and n, which the pages call N, are bytes: C cuts a wider number down before the call. */
beamsatchel_written beamsatchel_write_sdmf(uint64_t sequence_number,
                                           const uint8_t *root_hash, size_t root_hash_len,
                                           const uint8_t *iv, size_t iv_len,
                                           uint8_t k, uint8_t n, uint64_t data_length,
                                           const uint8_t *verification_key, size_t verification_key_len,
                                           const uint8_t *signature, size_t signature_len,
                                           const uint8_t *hash_chain, size_t hash_chain_len,
                                           const uint8_t *block_tree, size_t block_tree_len,
                                           const uint8_t *share_data, size_t share_data_len,
                                           const uint8_t *encrypted_private_key, size_t encrypted_private_key_len,
                                           uint8_t *space, size_t space_len);

beamsatchel_written beamsatchel_write_mdmf(uint64_t sequence_number,
                                           const uint8_t *root_hash, size_t root_hash_len,
                                           uint8_t k, uint8_t n, uint64_t segment_size, uint64_t data_length,
                                           const uint8_t *encrypted_private_key, size_t encrypted_private_key_len,
                                           const uint8_t *hash_chain, size_t hash_chain_len,
                                           const uint8_t *signature, size_t signature_len,
                                           const uint8_t *verification_key, size_t verification_key_len,
                                           const uint8_t *spare, size_t spare_len,
                                           const uint8_t *share_data, size_t share_data_len,
                                           const uint8_t *block_tree, size_t block_tree_len,
                                           uint8_t *space, size_t space_len);

#ifdef __cplusplus
}
#endif

#endif
