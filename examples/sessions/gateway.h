/* What Secure code offers: a session is open with one key, and has a handle. */
#include <stdint.h>

/* Opens a session with a key, and gives its handle, or 0 where there is none to give. */
uint32_t session_open(uint32_t key);

/* Makes the tag of two words. 1, or 0 where the handle or an address is refused. */
uint32_t session_tag(uint32_t handle, const uint32_t words[2], uint32_t tag[2]);

/* Ends a session. 1, or 0 where the handle is refused. */
uint32_t session_close(uint32_t handle);
