/* One thing that is done to both sensors alike. */
#ifndef COMPARE_CALL_H
#define COMPARE_CALL_H

#include "basintilt.h"

enum call_kind {
    POWER_ON,
    EVENT,
    BLOCK_QUERY,
    ORIGIN_QUERY,
    JOURNAL_MADE,  /* the journal is replaced by a made one */
    BYTE_WRITTEN,  /* someone else writes one byte of the journal */
    RECORD_MADE,   /* the record is replaced by a made one */
    FIELD_WRITTEN, /* someone else writes one field of the record */
    CALL_KINDS,
    LAST_OF_LIBRARY = ORIGIN_QUERY /* up to here it is a call of the library, and a length is said */
};

/* A call stands by itself, so that any call of a history can be left out. */
struct call {
    enum call_kind kind;
    uint32_t length; /* said of the journal or the block */
    union {
        struct {
            uint32_t node;
            struct basintilt_identity identity;
        } power_on;
        struct basintilt_happening happening;
        struct {
            uint32_t at;
            uint32_t place;
        } query;
        struct {
            uint16_t index;
            uint8_t subindex;
        } asked; /* whose origin */
        struct {
            uint32_t shape;
            uint64_t seed;
        } made;
        struct {
            uint32_t at; /* of the journal's bytes, or of the fields */
            uint32_t number;
        } written;
    };
};

#endif
