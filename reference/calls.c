/* The calls by name, for the programs around the core. */
#include "calls.h"

#include <stddef.h>
#include <string.h>

const struct call_form call_forms[CALLS] = {
    { 0x00, "create task", { "priority" }, "0246" },
    { 0x01, "delete task", { "task" }, "023b45" },
    { 0x02, "set priority", { "task", "priority" }, "023b45" },
    { 0x03, "yield", { NULL }, "0249" },
    { 0x04, "end task", { NULL }, "02459" },
    { 0x05, "sleep", { "ticks" }, "02459" },
    { 0x06, "last result", { "task" }, "03b4" },

    { 0x10, "create Swi", { "priority", "trigger" }, "0246" },
    { 0x11, "delete Swi", { "Swi" }, "023b45" },
    { 0x12, "post Swi", { "Swi" }, "03b4" },
    { 0x13, "add one and post", { "Swi" }, "03b4" },
    { 0x14, "take one and post if 0", { "Swi" }, "03b4" },
    { 0x15, "set bits and post", { "Swi", "mask" }, "03b4" },
    { 0x16, "clear bits and post if 0", { "Swi", "mask" }, "03b4" },
    { 0x17, "end Swi", { NULL }, "0249" },
    { 0x18, "taken trigger", { NULL }, "024" },

    { 0x20, "create semaphore", { "kind", "count" }, "0246" },
    { 0x21, "delete semaphore", { "semaphore" }, "023b45" },
    { 0x22, "pend semaphore", { "semaphore", "limit" }, "023b459" },
    { 0x23, "post semaphore", { "semaphore" }, "03b47" },
    { 0x24, "reset semaphore", { "semaphore", "count" }, "023b45" },

    { 0x30, "create event", { NULL }, "0246" },
    { 0x31, "delete event", { "event" }, "023b45" },
    { 0x32, "pend event", { "event", "and-mask", "or-mask", "limit" }, "023b459" },
    { 0x33, "post event", { "event", "mask" }, "03b4" },

    { 0x40, "create mailbox", { "capacity" }, "0246" },
    { 0x41, "delete mailbox", { "mailbox" }, "023b45" },
    { 0x42, "post mailbox", { "mailbox", "word", "limit" }, "023b459" },
    { 0x43, "pend mailbox", { "mailbox", "limit" }, "023b459" },

    { 0x50, "create clock", { "Swi", "first ticks", "period" }, "023b46" },
    { 0x51, "delete clock", { "clock" }, "023b4" },
    { 0x52, "start clock", { "clock" }, "03b4" },
    { 0x53, "stop clock", { "clock" }, "03b4" },

    { 0x60, "take", { "bytes" }, "0248" },
    { 0x61, "give back", { "offset", "bytes" }, "024" },

    { 0x74, "interrupt in", { NULL }, "047" },
    { 0x75, "interrupt out", { NULL }, "024" },
    { 0x76, "tick", { NULL }, "024" },
    { 0x77, "switches off", { "which" }, "024" },
    { 0x78, "switches restore", { "which", "key" }, "024" },
};

const struct call_form *form_of(uint32_t number)
{
    for (unsigned i = 0; i < CALLS; i++)
        if (call_forms[i].number == number)
            return &call_forms[i];
    return NULL;
}

int can_give(const struct call_form *form, uint32_t code)
{
    return strchr(form->codes, "0123456789ab"[code]) != NULL;
}

void print_call(FILE *file, const struct call *call)
{
    const struct call_form *form = form_of(call->number);
    const char *before = ": ";

    fprintf(file, "%02lX %s", (unsigned long)call->number, form != NULL ? form->name : "unknown call");
    for (unsigned i = 0; i < 4; i++) {
        int is_used = form != NULL && form->argument[i] != NULL;

        if (!is_used && call->argument[i] == 0)
            continue;
        fprintf(file, "%s%s %lu", before, is_used ? form->argument[i] : "unused", (unsigned long)call->argument[i]);
        before = ", ";
    }
    putc('\n', file);
}
