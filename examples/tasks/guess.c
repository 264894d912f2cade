/* One task opens a session and never uses it. The other tries to, as itself and in the place of its owner. */
#include "gateway.h"
#include "tasks.h"

void owner(uint32_t *data)
{
    data[1] = secure_open();
    yield();
    for (;;)
        ;
}

void other(uint32_t *data)
{
    data[0] = secure_call(1, 2);
    secure_switch(0);
    data[1] = secure_call(1, 2);
    for (;;)
        ;
}
