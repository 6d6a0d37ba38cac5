/* The run: one switch over the codes, with the registers in local variables. It is compiled twice, for a machine alone and for one
   of four, so that a run alone makes no test for other tasks. */

#ifndef RUN_H
#define RUN_H

#include "machine.h"
#include "sum.h"

/* The bytes that a task may touch: those before an address, and the part that begins at another. */
struct reach {
    uint32_t before, own;
};

#define REFUSE(n) do { answer = (n); goto stop; } while (0)
#define REACHES(a, n) \
    (alone ? (a) <= MEMORY - (n) : (a) <= reach.before - (n) || (a) - reach.own <= PART - (n))
#define WITHIN(n) do { if (!REACHES(pc, n)) REFUSE(pc <= MEMORY - (n) ? 17 : 3); } while (0)
#define BYTES(n) do { WITHIN(n); next = pc + (n); } while (0)
#define TAKES(n) do { if (p < (n)) REFUSE(5); } while (0)
#define ROOM() do { if (p >= CELLS) REFUSE(8); } while (0)
#define CALL(target) do { \
        uint32_t to = (target); \
        s++; \
        m->frames[s].copy_r = r; \
        m->frames[s].ret = next; \
        memset(m->frames[s].locals, 0, sizeof m->frames[s].locals); \
        m->ret[r++] = next; \
        next = to; \
    } while (0)
#define TOP param[p - 1]
#define SECOND param[p - 2]
#define BINARY(value) do { TAKES(2); uint32_t v = (value); p--; TOP = v; } while (0)
#define UNARY(value) do { TAKES(1); TOP = (value); } while (0)
/* An access of so many bytes at address a: in memory, or from byte at of the cells in view, or nowhere. */
#define ACCESS(bytes, in_memory, in_view) do { \
        uint32_t at = a - VIEW; \
        if (REACHES(a, bytes)) in_memory; \
        else if (at <= VIEW_BYTES - (bytes)) in_view; \
        else REFUSE(a <= MEMORY - (bytes) ? 17 : 12); \
    } while (0)
#define FETCH(bytes, in_memory, in_view) do { \
        TAKES(1); \
        uint32_t a = TOP; \
        ACCESS(bytes, TOP = in_memory, TOP = in_view); \
    } while (0)
#define STORE(bytes, in_memory, in_view) do { \
        TAKES(2); \
        uint32_t a = TOP; \
        ACCESS(bytes, sum += in_memory, in_view); \
        p -= 2; \
    } while (0)
#define TRUTH(condition) ((condition) ? 0xFFFFFFFFu : 0u)

/* Carries out instructions and counts them, until so many are counted; of a task among four also until a PAUSE. Answers 1 where the
   machine can go on. Only a host raises lines and only RTI lets the next one in, so that the lines are looked at first and after each
   RTI, and before each instruction only where one is due and has no room. */
static inline __attribute__((always_inline)) uint64_t instructions(struct machine *m, uint8_t *mem, int alone, struct reach reach,
                                                                   struct outcome *counts, uint64_t budget) {
    uint32_t *param = m->param;
    uint32_t pc = m->pc, flag = m->flag, next;
    uint64_t p = m->p, r = m->r, s = m->s, e = m->e;
    uint64_t steps = counts->steps, cycles = counts->cycles, answer;
    uint32_t sum = (uint32_t)counts->sum;
    /* The number of steps at which there may be more to do than the next instruction. */
    uint64_t look_at = m->waiting & m->mask ? steps : budget;

    for (;;) {
        if (steps == look_at) {
            if (steps == budget) REFUSE(1);
            look_at = budget;
            uint32_t due = m->waiting & m->mask;
            /* Lines enter a machine alone, or task 0; those of the other tasks wait for ever. */
            if (due && m->block == 0 && (alone || reach.own == SHARED)) {
                if (r < CELLS && s < FRAMES) {
                    uint32_t line = (uint32_t)__builtin_ctz(due);
                    m->waiting &= ~(1u << line);
                    m->block = 1;
                    next = pc;
                    CALL(4 * line);
                    pc = next;
                } else {
                    look_at = steps + 1; /* an instruction may make room */
                }
            }
        }
        WITHIN(1);
        uint32_t code = mem[pc];
        if (code >= 0x80) {
            BYTES(2);
            /* The 14-bit offset is moved to the top of a word so that the shift back extends its sign. */
            uint32_t offset = (uint32_t)((int32_t)(get16(mem + pc) << 18) >> 18);
            if (code >= 0xC0) {
                next += offset;
            } else {
                TAKES(1);
                if (param[--p] == 0) next += offset;
            }
            cycles += 2;
            steps++;
            pc = next;
            continue;
        }
        next = pc + 1;
        switch (code) {
        case 0x00: break;
        case 0x01: TAKES(1); p--; break;
        case 0x02: TAKES(1); ROOM(); param[p] = TOP; p++; break;
        case 0x03: { TAKES(2); uint32_t v = TOP; TOP = SECOND; SECOND = v; break; }
        case 0x04: TAKES(2); ROOM(); param[p] = SECOND; p++; break;
        case 0x05: BINARY(TOP); break;
        case 0x06: {
            TAKES(3);
            uint32_t v = param[p - 3];
            param[p - 3] = SECOND;
            SECOND = TOP;
            TOP = v;
            break;
        }
        case 0x07: TAKES(1); if (r >= CELLS) REFUSE(9); m->ret[r++] = param[--p]; break;
        case 0x08: if (r == 0) REFUSE(6); ROOM(); param[p++] = m->ret[r - 1]; break;
        case 0x09:
            if (r == 0) REFUSE(6);
            ROOM();
            param[p++] = m->ret[--r];
            if (s > 0 && r <= m->frames[s].copy_r) {
                s--;
                if (e > 0 && s <= m->levels[e].copy_s) e--;
            }
            break;
        case 0x0A: ROOM(); param[p] = (uint32_t)p; p++; break;
        case 0x0B: {
            TAKES(1);
            if (r >= CELLS) REFUSE(9);
            if (s >= FRAMES) REFUSE(10);
            if (e >= CATCHES) REFUSE(11);
            p--;
            e++;
            memcpy(m->levels[e].cells, m->levels[e - 1].cells, sizeof m->levels[e].cells);
            m->levels[e].copy_s = s;
            m->levels[e].copy_p = p;
            m->levels[e].throw_to = next + 1;
            CALL(param[p]);
            break;
        }
        case 0x0C: p = r = s = e = 0; break;
        case 0x0D: {
            TAKES(1);
            uint32_t n = TOP;
            if (n == 0) {
                p--;
                cycles -= 2; /* the table holds 3, a THROW of 0 costs 1 */
                break;
            }
            if (e == 0) REFUSE(7);
            m->thrown_address = pc;
            m->thrown_code = n;
            next = m->levels[e].throw_to;
            s = m->levels[e].copy_s;
            r = m->frames[s + 1].copy_r;
            p = m->levels[e].copy_p;
            param[p++] = n;
            e--;
            break;
        }
        case 0x0E: BINARY(SECOND + TOP); flag = TOP < param[p]; break;
        case 0x0F: { TAKES(2); uint32_t a = SECOND, b = TOP; p--; TOP = a - b; flag = a < b; break; }
        case 0x10: UNARY(0u - TOP); break;
        case 0x11: UNARY(TOP + 1); break;
        case 0x12: UNARY(TOP - 1); break;
        case 0x13: UNARY((uint32_t)((int32_t)TOP >> 1)); break;
        case 0x14: {
            TAKES(2);
            uint64_t sum = (uint64_t)SECOND + TOP + flag;
            p--;
            TOP = (uint32_t)sum;
            flag = (uint32_t)(sum >> 32);
            break;
        }
        case 0x15: {
            TAKES(2);
            uint64_t difference = (uint64_t)SECOND - TOP - flag;
            p--;
            TOP = (uint32_t)difference;
            flag = (uint32_t)(difference >> 63);
            break;
        }
        case 0x16: BINARY(TRUTH(SECOND == TOP)); break;
        case 0x17: BINARY(TRUTH(SECOND != TOP)); break;
        case 0x18: BINARY(TRUTH((int32_t)SECOND < (int32_t)TOP)); break;
        case 0x19: BINARY(TRUTH((int32_t)SECOND > (int32_t)TOP)); break;
        case 0x1A: BINARY(TRUTH(SECOND < TOP)); break;
        case 0x1B: BINARY(TRUTH(SECOND > TOP)); break;
        case 0x1C: UNARY(TRUTH(TOP == 0)); break;
        case 0x1D: UNARY(TRUTH(TOP != 0)); break;
        case 0x1E: UNARY(TRUTH((int32_t)TOP < 0)); break;
        case 0x1F: UNARY(TRUTH((int32_t)TOP > 0)); break;
        case 0x20: ROOM(); param[p++] = 0; break;
        case 0x21: BINARY(SECOND & TOP); break;
        case 0x22: BINARY(SECOND | TOP); break;
        case 0x23: UNARY(~TOP); break;
        case 0x24: BINARY(SECOND ^ TOP); break;
        case 0x25: UNARY(TOP << 1); break;
        case 0x26: UNARY(TOP >> 1); break;
        case 0x27: UNARY((uint32_t)(int32_t)(int8_t)TOP); break;
        case 0x28: UNARY((uint32_t)(int32_t)(int16_t)TOP); break;
        case 0x29: {
            TAKES(2);
            uint64_t product = (uint64_t)((int64_t)(int32_t)SECOND * (int32_t)TOP);
            SECOND = (uint32_t)product;
            TOP = (uint32_t)(product >> 32);
            break;
        }
        case 0x2A: {
            TAKES(2);
            uint64_t product = (uint64_t)SECOND * TOP;
            SECOND = (uint32_t)product;
            TOP = (uint32_t)(product >> 32);
            break;
        }
        case 0x2B: {
            TAKES(2);
            if (TOP == 0) REFUSE(13);
            /* 64 bits, so that the one quotient that overflows 32 is still defined. */
            int64_t a = (int32_t)SECOND, b = (int32_t)TOP;
            SECOND = (uint32_t)(a % b);
            TOP = (uint32_t)(a / b);
            break;
        }
        case 0x2C: {
            TAKES(2);
            uint32_t a = SECOND, b = TOP;
            if (b == 0) REFUSE(13);
            SECOND = a % b;
            TOP = a / b;
            break;
        }
        case 0x2D: FETCH(4, get32(mem + a), get32_in_view(m, s, e, at)); break;
        case 0x2E: STORE(4, put32(mem + a, SECOND), put32_in_view(m, s, e, at, SECOND)); break;
        case 0x2F: FETCH(2, get16(mem + a), get_in_view(m, s, e, at, 2)); break;
        case 0x30: STORE(2, put16(mem + a, SECOND), put_in_view(m, s, e, at, 2, SECOND)); break;
        case 0x31: FETCH(1, mem[a], get8_in_view(m, s, e, at)); break;
        case 0x32: STORE(1, put8(mem + a, SECOND), put8_in_view(m, s, e, at, SECOND)); break;
        case 0x33: TAKES(1); if (TOP != 0) { ROOM(); param[p] = TOP; p++; } break;
        case 0x34: BYTES(2); ROOM(); param[p++] = mem[pc + 1]; break;
        case 0x35: BYTES(3); ROOM(); param[p++] = get16(mem + pc + 1); break;
        case 0x36: BYTES(5); ROOM(); param[p++] = get32(mem + pc + 1); break;
        case 0x37: TAKES(1); next = param[--p]; break;
        case 0x38:
            BYTES(4);
            if (r >= CELLS) REFUSE(9);
            if (s >= FRAMES) REFUSE(10);
            CALL(get32(mem + pc) & 0xFFFFFF);
            break;
        case 0x39:
            TAKES(1);
            if (r >= CELLS) REFUSE(9);
            if (s >= FRAMES) REFUSE(10);
            p--;
            CALL(param[p]);
            break;
        case RTI_CODE:
            if (m->block == 0 || s == 0) REFUSE(16);
            m->block = 0;
            look_at = steps + 1;
            /* fall through */
        case EXIT_CODE:
            if (s == 0) REFUSE(0);
            next = m->frames[s].ret;
            r = m->frames[s].copy_r;
            s--;
            if (e > 0 && s <= m->levels[e].copy_s) e--;
            break;
        case PAUSE_CODE:
            if (alone) break;
            cycles++;
            steps++;
            pc = next;
            REFUSE(1);
        default: REFUSE(4);
        }
        cycles += CYCLES[code];
        steps++;
        pc = next;
    }

stop:
    m->pc = pc;
    m->flag = flag;
    m->p = p;
    m->r = r;
    m->s = s;
    m->e = e;
    counts->steps = steps;
    counts->cycles = cycles;
    counts->sum = sum;
    return answer;
}

static struct outcome run(struct machine *m, uint8_t *mem, uint64_t budget, uint64_t sum) {
    struct outcome o = {0, 0, 0, sum};
    o.answer = instructions(m, mem, 1, (struct reach){0, 0}, &o, budget);
    return o;
}

#endif
