/* Real symbols of the job interface, which mbj.h has as inline code: for a program in a language that can't include the header. Compile
 * it once, and link it beside the library. */
#define MBJ_API
#include "mbj.h"
#include "mbj_seat.h"
