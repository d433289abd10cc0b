/* -Werror=incompatible-pointer-types: an entry is taken for what a sweep answers, whose used count stands in another place. */
#include "hubqr_log.h"

#ifdef RIGHT
#define REPLY hubqr_log_entry
#define USED next
#else
#define REPLY hubqr_log_reply
#define USED used
#endif

size_t behind(const struct hubqr_log_entry *entry)
{
    const struct REPLY *reply = entry;
    return reply->USED;
}
