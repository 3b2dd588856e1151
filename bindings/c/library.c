/* What Rattle's library has beside the calls. cargo's has it from rust/by_hand/exports_head.rs. */
#include "cellarcove.h"

const char *cellarcove_version(void) { return CELLARCOVE_VERSION; }

const char *cellarcove_built_by(void) { return "rattle"; }
