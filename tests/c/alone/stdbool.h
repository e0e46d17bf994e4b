/* What kehldora.h uses of this header. */
#define bool _Bool
#define true 1
#define false 0
