/* modes.h: the floating-point mode of this machine, and the modes that a host program may call the library in. x86-64
 * has the control bits and the flags in MXCSR, Arm the control bits in FPCR and the flags in FPSR. */
#ifndef MODES_H
#define MODES_H

#include <stdint.h>

/* The control bits, which say how floats are reckoned, and the flags, which stay once an operation has raised them. */
struct fp {
    uint64_t control, flags;
};

/* A mode is control bits with a name. A machine that does not keep the bits has no such mode. */
struct mode {
    const char *name;
    uint64_t control;
    int of_every_machine;
};

/* fp_now gives what stands there now, and fp_set sets it. No read or write of memory, and no call, goes past either. */
static struct fp fp_now(void);
static void fp_set(struct fp to);

#if defined(__x86_64__)
#include <xmmintrin.h>

#define HERE __asm__ volatile("" : : : "memory")
#define FLAGS UINT64_C(0x3F)
#define MASKED UINT64_C(0x1F80) /* the six exceptions raise a flag and no signal */
#define ZEROS UINT64_C(0x40)    /* denormals are zero */
#define FLUSH UINT64_C(0x8000)  /* flush to zero */
#define DOWN UINT64_C(0x2000)
#define UP UINT64_C(0x4000)
#define CUT UINT64_C(0x6000)
#define FAST (ZEROS | FLUSH)    /* what gcc sets at the start of a program that it links with -Ofast */

static struct fp fp_now(void)
{
    struct fp found;
    unsigned word;
    HERE;
    word = _mm_getcsr();
    HERE;
    found.control = word & ~FLAGS;
    found.flags = word & FLAGS;
    return found;
}

/* To set a flag of an exception that is not masked raises no signal: only an operation that meets the exception does. */
static void fp_set(struct fp to)
{
    HERE;
    _mm_setcsr((unsigned)(to.control | to.flags));
    HERE;
}

/* The default rounds to nearest. */
static const struct mode modes[] = {
    {"the default", MASKED, 1},
    {"denormals are zero", MASKED | ZEROS, 1},
    {"flush to zero", MASKED | FLUSH, 1},
    {"denormals are zero, flush to zero", MASKED | FAST, 1},
    {"rounding down", MASKED | DOWN, 1},
    {"rounding up", MASKED | UP, 1},
    {"rounding to zero", MASKED | CUT, 1},
    {"every exception unmasked", 0, 1},
    {"denormals are zero, every exception unmasked", ZEROS, 1},
    {"all at once, rounding to nearest", FAST, 1},
    {"all at once, rounding down", FAST | DOWN, 1},
    {"all at once, rounding up", FAST | UP, 1},
    {"all at once, rounding to zero", FAST | CUT, 1},
};

#elif defined(__aarch64__)

#define FLAGS UINT64_C(0x800009F) /* the six exceptions, and that an integer was saturated */
#define TRAPS UINT64_C(0x9F00)    /* the six exceptions raise a signal; most machines have no such thing */
#define INPUTS UINT64_C(1)        /* FIZ, flush inputs to zero; newer machines */
#define OTHER UINT64_C(2)         /* AH, the other handling of denormals and NaNs; newer machines */
#define FLUSH UINT64_C(0x1000000) /* FZ, flush to zero: denormal inputs and results */
#define ONE_NAN UINT64_C(0x2000000)
#define UP UINT64_C(0x400000)
#define DOWN UINT64_C(0x800000)
#define CUT UINT64_C(0xC00000)
#define FAST FLUSH                /* what gcc sets at the start of a program that it links with -Ofast */

static struct fp fp_now(void)
{
    struct fp found;
    __asm__ volatile("mrs %0, fpcr\n\tmrs %1, fpsr" : "=r"(found.control), "=r"(found.flags) : : "memory");
    return found;
}

static void fp_set(struct fp to)
{
    __asm__ volatile("msr fpcr, %0\n\tmsr fpsr, %1" : : "r"(to.control), "r"(to.flags) : "memory");
}

/* The default rounds to nearest. */
static const struct mode modes[] = {
    {"the default", 0, 1},
    {"flush to zero", FLUSH, 1},
    {"rounding down", DOWN, 1},
    {"rounding up", UP, 1},
    {"rounding to zero", CUT, 1},
    {"flush to zero, rounding down", FLUSH | DOWN, 1},
    {"flush to zero, rounding up", FLUSH | UP, 1},
    {"flush to zero, rounding to zero", FLUSH | CUT, 1},
    {"one NaN for all", ONE_NAN, 1},
    {"inputs flushed to zero", INPUTS, 0},
    {"the other handling", OTHER, 0},
    {"the other handling, inputs and results flushed to zero", INPUTS | OTHER | FLUSH, 0},
    {"every exception trapped", TRAPS, 0},
    {"all at once, rounding to nearest", FLUSH | TRAPS, 0},
    {"all at once, rounding down", FLUSH | TRAPS | DOWN, 0},
    {"all at once, rounding up", FLUSH | TRAPS | UP, 0},
    {"all at once, rounding to zero", FLUSH | TRAPS | CUT, 0},
};

#else
#error "the floating-point mode of this machine is not known here"
#endif

#define MODES (sizeof modes / sizeof modes[0])

#endif
