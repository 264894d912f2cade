/* What Secure code offers. */
#include <stdint.h>

/* Opens a session of the task that calls, and gives its handle, or 0 where there is none to give. */
uint32_t secure_open(void);

/* The tag of a word by the key of a session, or 0 where it isn't a session of the task that calls. */
uint32_t secure_call(uint32_t handle, uint32_t word);

/* For the kernel's handlers: this task runs next. */
void secure_switch(uint32_t task);
