/* The header of a ground file. */
#include "ground_header.h"

#include "end.h"
#include "plane.h"

void ground_header(Input *in, uint64_t header[7])
{
    uint8_t bytes[TERRAIN_HEADER_LENGTH];
    size_t count = input_look(in, bytes, sizeof bytes);
    uint32_t no = terrain_file_header(bytes, count, header);
    if (no == TERRAIN_AREA_SHORT) fail(STATUS_REFUSED, "%s: it has %zu bytes, and the header of a ground file 24", in->name, count);
    if (no == TERRAIN_NO_FILE) fail(STATUS_REFUSED, "%s: it is no ground file of version 1: its first bytes are none's", in->name);
    passed(in->name, no);
}
