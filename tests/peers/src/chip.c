#include "chip.h"

#include <stdio.h>

const uint32_t release_clocks[1] = {1};
const uint8_t release_codes[1] = {R6501Q_PIN_RES + R6501Q_HIGH};

r6501q_state chip_start(const struct peer_registers *r)
{
    r6501q_state state = r6501q_fresh();
    state.due.reset = 0;
    state.cpu = (r6501q_cpu){.a = r->a, .x = r->x, .y = r->y, .sp = r->sp, .p = r->p, .pc = r->pc};
    return state;
}

/* Both counters are in interval mode, and no test is long enough for an underflow. */
r6501q_state chip_after(const struct peer_registers *registers, unsigned clocks, unsigned wait)
{
    r6501q_state state = chip_start(registers);
    state.cpu.wait = wait;
    state.peripherals.countera.count -= clocks;
    state.peripherals.counterb.count -= clocks;
    state.external.res = state.last.res = 1;
    state.clock += clocks;
    return state;
}

struct peer_registers chip_registers(const r6501q_state *state)
{
    const r6501q_cpu *cpu = &state->cpu;
    return (struct peer_registers){cpu->a, cpu->x, cpu->y, cpu->sp, cpu->p, cpu->pc};
}

static int same_levels(const r6501q_levels *x, const r6501q_levels *y)
{
    return x->ports == y->ports && x->nmi == y->nmi && x->res == y->res;
}

static int same_cpu(const r6501q_cpu *x, const r6501q_cpu *y)
{
    return x->a == y->a && x->x == y->x && x->y == y->y && x->sp == y->sp && x->p == y->p && x->pc == y->pc
        && x->wait == y->wait && x->waiting.there == y->waiting.there && x->waiting.address == y->waiting.address
        && x->waiting.value == y->waiting.value;
}

static int same_peripherals(const r6501q_peripherals *x, const r6501q_peripherals *y)
{
    return x->ports.a == y->ports.a && x->ports.b == y->ports.b && x->ports.c == y->ports.c && x->ports.d == y->ports.d
        && x->countera.count == y->countera.count && x->countera.latch == y->countera.latch
        && x->counterb.count == y->counterb.count && x->counterb.latchb == y->counterb.latchb
        && x->counterb.latchc == y->counterb.latchc && x->counterb.turnc == y->counterb.turnc
        && x->control.ifr == y->control.ifr && x->control.ier == y->control.ier && x->control.mcr == y->control.mcr
        && x->control.sccr == y->control.sccr && x->control.scsr == y->control.scsr && x->serial.sent == y->serial.sent
        && x->serial.received == y->serial.received && x->transmitter.left == y->transmitter.left
        && x->transmitter.phase == y->transmitter.phase && x->transmitter.register_ == y->transmitter.register_
        && x->receiver.subinterval == y->receiver.subinterval && x->receiver.half == y->receiver.half
        && x->receiver.left == y->receiver.left && x->receiver.register_ == y->receiver.register_;
}

int same_state(const r6501q_state *x, const r6501q_state *y)
{
    return same_cpu(&x->cpu, &y->cpu) && x->due.reset == y->due.reset && x->due.nmi == y->due.nmi
        && same_peripherals(&x->peripherals, &y->peripherals) && same_levels(&x->external, &y->external)
        && same_levels(&x->last, &y->last) && x->clock == y->clock;
}

void print_registers(const char *who, const struct peer_registers *r)
{
    printf("  %-6s A %02X X %02X Y %02X SP %02X P %02X PC %04X", who, r->a, r->x, r->y, r->sp, r->p, r->pc);
}

void print_result(const r6501q_call_result *result)
{
    const r6501q_state *s = &result->state;
    struct peer_registers registers = chip_registers(s);
    print_registers("ours", &registers);
    printf(" wait %u, clock %u, number %u, leaps %u, read %zu, written %zu", s->cpu.wait, s->clock, result->number,
        result->leaps, result->read, result->written);
    if (s->cpu.waiting.there)
        printf(", waiting %04X=%02X", s->cpu.waiting.address, s->cpu.waiting.value);
    printf("\n");
}

void print_memory_differences(const uint8_t *peers, const uint8_t *ours)
{
    for (unsigned i = 0; i < R6501Q_MEMORY_LENGTH; i++)
        if (ours[i] != peers[i])
            printf("  memory %04X: peer %02X, ours %02X\n", i, peers[i], ours[i]);
}
