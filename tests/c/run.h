/* What a scanner reads, and where it stands in it. */
#include <stdio.h>
#include <stdlib.h>
#include "custom.h"

static const YYCTYPE *stream, *YYCURSOR;
