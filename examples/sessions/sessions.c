/* Sessions of the Non-secure side, each with a key that it doesn't get to see. */
#include <arm_cmse.h>

#include "gateway.h"
#include "sessions.h"

#define ENTRY __attribute__((cmse_nonsecure_entry))
#define SESSIONS 4
#define ROUNDS 8

/* An entry is free where its handle is 0. */
static struct session {
    uint32_t handle, ticks, key[4];
} table[SESSIONS];

static uint32_t last_handle;

/* All entries are looked at, so that the steps don't tell where one was found. */
static struct session *find(uint32_t handle)
{
    struct session *found = 0;
    for (struct session *it = table; it != table + SESSIONS; it++)
        if (it->handle == handle)
            found = it;
    return found;
}

/* The session that a caller names. No caller's is one of the free entries. */
static struct session *session_of(uint32_t handle)
{
#ifndef CARELESS
    if (handle == 0)
        return 0;
#endif
    return find(handle);
}

/* No handler comes between these two. */
static uint32_t hold(void)
{
    uint32_t mask;
    __asm__ volatile("mrs %0, primask\n\tcpsid i" : "=r"(mask) : : "memory");
    return mask;
}

static void release(uint32_t mask)
{
    __asm__ volatile("msr primask, %0" : : "r"(mask) : "memory");
}

ENTRY uint32_t session_open(uint32_t key)
{
    if (key >= KEYS)
        return 0;
    uint32_t handle = 0, mask = hold();
    struct session *session = find(0);
    if (session) {
        handle = ++last_handle;
        session->ticks = 0;
        for (int i = 0; i < 4; i++)
            session->key[i] = keys[key][i];
        session->handle = handle;
    }
    release(mask);
    return handle;
}

/* The rounds of XTEA, so many of them. */
static void encipher(uint32_t state[2], const uint32_t key[4])
{
    uint32_t a = state[0], b = state[1], sum = 0;
    for (int i = 0; i < ROUNDS; i++) {
        a += (((b << 4) ^ (b >> 5)) + b) ^ (sum + key[sum & 3]);
        sum += 0x9e3779b9;
        b += (((a << 4) ^ (a >> 5)) + a) ^ (sum + key[(sum >> 11) & 3]);
    }
    state[0] = a;
    state[1] = b;
}

ENTRY uint32_t session_tag(uint32_t handle, const uint32_t words[2], uint32_t tag[2])
{
    words = cmse_check_address_range((void *)words, 8, CMSE_NONSECURE | CMSE_MPU_READ);
    tag = cmse_check_address_range(tag, 8, CMSE_NONSECURE | CMSE_MPU_READWRITE);
    if (!words || !tag)
        return 0;
    uint32_t state[2] = {words[0], words[1]};
#ifdef CARELESS
    const struct session *session = session_of(handle);
    if (!session)
        return 0;
    encipher(state, session->key);
#else
    uint32_t key[4] = {0}, mask = hold();
    const struct session *session = session_of(handle);
    if (session)
        for (int i = 0; i < 4; i++)
            key[i] = session->key[i];
    release(mask);
    if (!session)
        return 0;
    encipher(state, key);
#endif
    tag[0] = state[0];
    tag[1] = state[1];
    return 1;
}

ENTRY uint32_t session_close(uint32_t handle)
{
    uint32_t mask = hold();
    struct session *session = session_of(handle);
    if (session) {
#ifndef CARELESS
        for (int i = 0; i < 4; i++)
            session->key[i] = 0;
#endif
        session->handle = 0;
    }
    release(mask);
    return session != 0;
}

/* The handler of the Secure SysTick. It takes as many steps whether or not a session ends. */
void sessions_tick(void)
{
    uint32_t mask = hold();
    for (struct session *it = table; it != table + SESSIONS; it++) {
        uint32_t stays = -((it->ticks - most_ticks) >> 31);
        it->ticks++;
        it->handle &= stays;
        for (int i = 0; i < 4; i++)
            it->key[i] &= stays;
    }
    release(mask);
}
