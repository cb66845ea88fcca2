/* Uses Apache Avro C and libavrojudge in one program: both read a schema. It ends with 0 where both do. */
#include <avro.h>
#include <avrojudge.h>
#include <string.h>

#ifndef AVRO_H
#error "avro.h is Apache Avro C's, and its guard is AVRO_H"
#endif
#ifndef AVROJUDGE_H
#error "avrojudge.h was not included"
#endif

int main(void) {
    const char *text = "{\"type\":\"array\",\"items\":\"long\"}";
    size_t length = strlen(text), wanted;
    uint8_t out[64];
    avro_schema_t schema;
    if (avro_schema_from_json_length(text, length, &schema) != 0 || !is_avro_array(schema)) {
        return 1;
    }
    avro_schema_decref(schema);
    uint32_t status = avrojudge_schema_text((const uint8_t *)text, length, AVROJUDGE_COUNT, out, sizeof out, &wanted);
    return status == AVROJUDGE_YES && wanted == 5 && memcmp(out, "ok 2\n", 5) == 0 ? 0 : 2;
}
