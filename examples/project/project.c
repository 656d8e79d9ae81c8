/* All files of the project as one unit: so it is analysed too where no name is static in two of them. */
#include "pump.c"
#include "display.c"
