/* LSS requests: mostly such as are served in the sensor's mode, and all others too. */
#include "lss.h"

struct basintilt_happening lss_request(uint32_t command, uint32_t value)
{
    struct basintilt_happening happening = {.kind = BASINTILT_FRAME, .identifier = BASINTILT_LSS_REQUEST_AT, .length = 8};
    happening.bytes[0] = (uint8_t)command;
    for (unsigned i = 0; i < 4; i++) {
        happening.bytes[1 + i] = (uint8_t)(value >> 8 * i);
    }
    return happening;
}

uint32_t identity_number(const struct basintilt_identity *identity, unsigned place)
{
    const uint32_t numbers[IDENTITY_NUMBERS] = {identity->vendor, identity->product, identity->revision, identity->serial};
    return numbers[place % IDENTITY_NUMBERS];
}

/* The next match more often than one out of order, and mostly with the right number. */
static struct basintilt_happening any_match(struct chance *chance, const struct basintilt_device *device)
{
    unsigned place = one_in(chance, 6) ? below(chance, IDENTITY_NUMBERS) : device->lss.matches % IDENTITY_NUMBERS;
    uint32_t right = identity_number(&device->identity, place);
    uint32_t other = identity_number(&device->identity, below(chance, IDENTITY_NUMBERS));
    if (one_in(chance, 8)) {
        return lss_request(SELECTS + place, PICK(chance, right ^ 1u << below(chance, 32), right + 1, other, 0, any32(chance)));
    }
    return lss_request(SELECTS + place, right);
}

static struct basintilt_happening any_in_configuration(struct chance *chance)
{
    uint32_t number = PICK(chance, 1, BASINTILT_MOST_NODE, between(chance, 1, BASINTILT_MOST_NODE), 0, BASINTILT_MOST_NODE + 1, 255, any32(chance));
    switch (below(chance, 5)) {
    case 0:
    case 1:
        return lss_request(SETS_NUMBER, number);
    case 2:
        return lss_request(STORES, one_in(chance, 2) ? 0 : any32(chance));
    default:
        return lss_request(between(chance, TELLS_IDENTITY, TELLS_NUMBER), one_in(chance, 2) ? 0 : any32(chance));
    }
}

static struct basintilt_happening by_mode(struct chance *chance, const struct basintilt_device *device)
{
    bool waits = (device->lss.mode == BASINTILT_WAITING) != one_in(chance, 10);
    uint32_t turn = below(chance, 100);
    if (turn < 10) {
        return lss_request(SWITCHES, PICK(chance, 0, 1, 1, 2, 255, any32(chance)));
    }
    if (turn < 15) {
        return lss_request(any32(chance), any32(chance));
    }
    return waits ? any_match(chance, device) : any_in_configuration(chance);
}

/* The bytes behind the value are not looked at, so anything may stand there. */
struct basintilt_happening any_lss_request(struct chance *chance, const struct basintilt_device *device)
{
    struct basintilt_happening happening = by_mode(chance, device);
    uint32_t behind = one_in(chance, 2) ? 0 : any32(chance);
    for (unsigned i = 0; i < 3; i++) {
        happening.bytes[5 + i] = (uint8_t)(behind >> 8 * i);
    }
    return happening;
}
