/* Findings of the origin query: the reference's in the library's bytes, and their fields. */
#include "findings.h"

#include <string.h>

enum { FIELD_BYTES = 4 };

/* Each field of a finding has four bytes. */
static const char *const names[] = {
    "the finding's refusal", "the finding's value", "the finding's block", "the finding's channel", "the finding's kind",
};

_Static_assert(sizeof names / sizeof names[0] * FIELD_BYTES == sizeof(struct basintilt_finding), "fields of a finding");

/* Field by field into zeroed memory, as an answer. */
struct basintilt_finding finding_of(const struct reference_origin *said)
{
    struct basintilt_finding finding;
    memset(&finding, 0, sizeof finding);
    finding.refusal = said->refusal;
    finding.value = said->value;
    finding.block = said->block;
    finding.channel = said->channel;
    finding.kind = said->kind;
    return finding;
}

const char *finding_field(unsigned byte)
{
    return names[byte / FIELD_BYTES];
}

/* The value alone is signed. */
int64_t finding_number(const struct basintilt_finding *finding, unsigned byte)
{
    const int64_t numbers[] = {finding->refusal, finding->value, finding->block, finding->channel, finding->kind};
    return numbers[byte / FIELD_BYTES];
}
