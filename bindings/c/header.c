/* Holds include/marshdeck.h to ../layout.def while it is compiled, as C and as C++. Run, it ends with 0 if the archive can
 * be called through the header. */
#include "marshdeck.h"
#include "marshdeck.h" /* A second time: the header has to bear it. */

/* An array of -1 entries is no type, so what does not hold does not compile. */
#define SIZE(name, bytes) typedef char size_of_##name[sizeof(marshdeck_##name) == (bytes) ? 1 : -1];
#define FIELD(name, field, at) typedef char at_##name##_##field[offsetof(marshdeck_##name, field) == (at) ? 1 : -1];
#include "layout.def"

int main(void)
{
    marshdeck_sizes sizes = marshdeck_needed(48000, 16000);
    return sizes.refusal != MARSHDECK_ACCEPTED || sizes.history != 639 || sizes.coefficients != 480;
}
