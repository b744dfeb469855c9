#include <stddef.h>
#include <stdint.h>

/* Names in a table of eight chains. */
struct node {
    uint16_t name;
    struct node *next;
};
static struct node *chains[8], pool[12];

static uint32_t hash(uint16_t name)
{
    return (name * 40503u >> 7) % 8;
}

__attribute__((constructor)) static void fill(void)
{
    static const uint16_t names[12] = {3, 17, 99, 256, 301, 512, 700, 801, 850, 901, 1000, 1023};
    for (int i = 0; i < 12; i++) {
        struct node **chain = &chains[hash(names[i])];
        pool[i] = (struct node){names[i], *chain};
        *chain = &pool[i];
    }
}

/* Is this name known? */
int known(uint16_t name)
{
    for (struct node *node = chains[hash(name)]; node; node = node->next)
        if (node->name == name)
            return 1;
    return 0;
}
