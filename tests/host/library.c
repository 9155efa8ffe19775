/* A library of an app's, with the engine inside. */
#include "engine.h"

uint32_t library_version(void);

uint32_t library_version(void)
{
    return engine_version();
}
