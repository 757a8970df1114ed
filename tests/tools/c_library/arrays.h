/* The calls of the library that write to an array. */
#include "guarded.h"

#include <bootimg.h>

enum { PARTS, RESERVATIONS, IMAGES, CONFIGURATIONS, LISTED, VERDICTS, CONCERNS, NODES, CHILDREN, PROPERTIES, ARRAYS };

static const size_t element_sizes[ARRAYS] = {
    sizeof(bootimg_region), sizeof(bootimg_reservation), sizeof(bootimg_image),  sizeof(bootimg_region),   sizeof(size_t),
    sizeof(bootimg_hash),   sizeof(bootimg_concern),     sizeof(bootimg_tree_element), sizeof(bootimg_region), sizeof(bootimg_property),
};

/* What is called on a file: which call, of LISTED the name and the key, of CONCERNS the kinds, and of CHILDREN and PROPERTIES the path. */
struct call {
    int call;
    struct memory file;
    struct memory name;
    uint32_t key, kinds;
};

static uint32_t fill_array(const struct call *call, uint32_t limit, uint32_t depth, void *array, size_t count, bootimg_result *answer)
{
    const uint8_t *file = call->file.bytes;
    const size_t size = call->file.size;
    switch (call->call) {
    case PARTS:
        return bootimg_parts(file, size, limit, depth, array, count, answer);
    case IMAGES:
        return bootimg_images(file, size, limit, depth, array, count, answer);
    case RESERVATIONS:
        return bootimg_reservations(file, size, limit, depth, array, count, answer);
    case CONFIGURATIONS:
        return bootimg_configurations(file, size, limit, depth, array, count, answer);
    case VERDICTS:
        return bootimg_verdicts(file, size, limit, depth, array, count, answer);
    case CONCERNS:
        return bootimg_concerns(file, size, call->kinds, limit, depth, array, count, answer);
    case NODES:
        return bootimg_nodes(file, size, limit, depth, array, count, answer);
    case LISTED:
        return bootimg_listed(file, size, call->name.bytes, call->name.size, call->key, limit, depth, array, count, answer);
    case CHILDREN:
        return bootimg_children(file, size, call->name.bytes, call->name.size, limit, depth, array, count, answer);
    default:
        return bootimg_properties(file, size, call->name.bytes, call->name.size, limit, depth, array, count, answer);
    }
}
