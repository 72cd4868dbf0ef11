/* Is it an image? A reading of the paper's list of rules, apart from both the model and the plain calls. */
#ifndef VALID_H
#define VALID_H

#include <stdint.h>

/* The rules in the order in which they are looked at; VALID where all hold. */
enum image_rule {
    VALID,
    RULE_HEADER,
    RULE_PATHS,
    RULE_FIELD,
    RULE_KIND,
    RULE_TTSI,
    RULE_CLOSED,
    RULE_E,
    RULE_U,
    RULE_NEVER_WAS,
    RULE_CODE,
    RULE_CODE_AND_STOOD,
    RULE_STOOD_EARLY,
    RULE_STOOD,
    RULE_STOOD_CLOSED,
    RULE_STOOD_AVAILABLE,
    RULE_UNAVAILABLE,
    RULE_UNAVAILABLE_FFD,
    RULE_SINCE_AVAILABLE,
    RULE_SINCE,
    RULE_SERVER,
    RULE_LEFT,
    RULE_FDI_GONE,
    RULE_FDI_DT,
    RULE_DIFFER,
    IMAGE_RULES
};

extern const char *const image_rule_names[IMAGE_RULES];

/* The first rule that the octets at image break; 5,061 octets can be read there. */
enum image_rule broken_rule(const uint8_t *image);

#endif
