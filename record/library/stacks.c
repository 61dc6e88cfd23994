/* The calls that each thread is in, by the calls that a compiler makes where a function is entered and left.
 *
 * A function may be left in other ways: by longjmp, or because the thread goes on on another machine stack. So each frame has the stack
 * pointer of its function. A machine stack grows down: a frame at or below that of a function that is entered later was left. */
#include "emit.h"

#if KEEPS_STACKS

#include <errno.h>
#include <fcntl.h>
#include <setjmp.h>
#include <signal.h>
#include <sys/mman.h>
#include <sys/syscall.h>
#include <ucontext.h>
#include <unistd.h>

#define NOINLINE __attribute__((noinline))

/* The stack pointer of a hook's caller. */
#define POINTER ((uintptr_t)__builtin_dwarf_cfa())

/* The most machine stacks whose frames a thread keeps. Of fibers beyond that it forgets what they had entered before. */
#define MOST_STACKS 64
#define KNOWN_BITS 10

__thread struct stack *stack_now __attribute__((tls_model("initial-exec")));
static __thread struct {
    struct stack *all;
    unsigned count;
    bool has_ended;
    uint32_t *known; /* nodes that were looked up, by hashes of their calls */
} mine __attribute__((tls_model("initial-exec")));

/* ---- Nodes ---- */

static inline bool is_node(const struct stack_node *node, uint32_t caller, uint64_t call)
{
    return node->call == call && node->caller == caller;
}

/* The node of a call, or 0 if there is no room for it. Two threads may add one at once, and then one of them finds the other's. */
static NOINLINE uint32_t add_node(struct stacks *stacks, uint64_t hash, uint32_t caller, uint64_t call)
{
    _Atomic uint32_t *bucket = &stacks->buckets[hash >> (64 - STACK_BUCKET_BITS)];
    uint32_t first = atomic_load_explicit(bucket, memory_order_acquire), looked = 0, added = 0;
    for (;;) {
        for (uint32_t node = first; node != looked; node = stacks->nodes[node].next)
            if (is_node(&stacks->nodes[node], caller, call))
                return node;
        looked = first;
        if (!added) {
            if (atomic_load_explicit(&stacks->count, memory_order_relaxed) >= STACK_NODES - 1)
                return 0;
            added = atomic_fetch_add_explicit(&stacks->count, 1, memory_order_relaxed) + 1;
            if (added >= STACK_NODES)
                return 0;
        }
        stacks->nodes[added] = (struct stack_node){call, caller, first};
        if (atomic_compare_exchange_strong_explicit(bucket, &first, added, memory_order_acq_rel, memory_order_acquire))
            return added;
    }
}

static NOINLINE uint32_t search_node(struct stacks *stacks, uint64_t hash, uint32_t stack, uint64_t call)
{
    if (stack & STACK_CUT)
        return stack;
    uint32_t node = add_node(stacks, hash, stack, call);
    if (!node)
        return stack | STACK_CUT;
    mine.known[hash >> (64 - KNOWN_BITS)] = node;
    return node;
}

/* The stack of a call in another one. What this thread remembers is one number, so that a signal handler may come in between anywhere. Number 0
 * is no node of a call, and no caller has STACK_CUT. */
static inline uint32_t stack_with(struct stacks *stacks, uint32_t stack, uint64_t call)
{
    uint64_t hash = (call ^ (uint64_t)stack << 40) * UINT64_C(0x9e3779b97f4a7c15);
    uint32_t node = mine.known[hash >> (64 - KNOWN_BITS)];
    return LIKELY(is_node(&stacks->nodes[node], stack, call)) ? node : search_node(stacks, hash, stack, call);
}

/* ---- Machine stacks ---- */

/* Each fiber's stack has the thread that was on it last. What another one has entered on it since, the frames don't say. */
#define OWNER_BITS 16
static _Atomic(struct stack *) owners[1u << OWNER_BITS];

static void clear(struct stack *stack)
{
    stack->top = stack->frames;
    stack->deeper = 0;
}

/* The smallest one: a fiber's stack may be a variable. */
static struct stack *find_stack(uintptr_t pointer)
{
    struct stack *found = NULL;
    for (struct stack *stack = mine.all; stack; stack = stack->next)
        if (pointer > stack->begin && pointer <= stack->high && (!found || stack->high - stack->begin < found->high - found->begin))
            found = stack;
    return found;
}

static void *get_pages(size_t bytes)
{
    void *pages = mmap(NULL, bytes, PROT_READ | PROT_WRITE, MAP_PRIVATE | MAP_ANONYMOUS, -1, 0);
    return pages == MAP_FAILED ? NULL : pages;
}

/* The last one in the list is the one that was made first, behind the thread's own. */
static struct stack *take_oldest(void)
{
    struct stack **place = &mine.all;
    for (struct stack **at = &mine.all; *at; at = &(*at)->next)
        if (!(*at)->is_own)
            place = at;
    struct stack *oldest = *place;
    *place = oldest->next;
    return oldest;
}

/* Other stacks that lie in the same memory were there before. But a fiber's may lie in the thread's own. */
static void drop_overlapping(uintptr_t low, uintptr_t high)
{
    for (struct stack *stack = mine.all; stack; stack = stack->next)
        if (!stack->is_own && stack->begin < high && stack->high > low)
            stack->begin = stack->high = 0;
}

/* NULL if there is no memory for it. */
static struct stack *add_stack(uintptr_t low, uintptr_t high)
{
    if (!mine.known && !(mine.known = get_pages(sizeof *mine.known << KNOWN_BITS)))
        return NULL;
    struct stack *stack = mine.count < MOST_STACKS ? get_pages(sizeof *stack) : take_oldest();
    if (!stack)
        return NULL;
    mine.count += mine.count < MOST_STACKS;
    drop_overlapping(low, high);
    stack->begin = stack->low = low;
    stack->high = high;
    stack->is_own = !mine.all;
    stack->is_for_signals = stack->is_guessed = false;
    stack->frames[0] = (struct frame){high, 0, 0, 0};
    clear(stack);
    stack->next = mine.all;
    mine.all = stack;
    return stack;
}

/* The mapping of a place, from the kernel. The first thread's stack grows down to the mapping before it, and then that is where it begins. */
static bool find_mapping(uintptr_t place, bool grows, uintptr_t *low, uintptr_t *high)
{
    int file = (int)syscall(SYS_openat, AT_FDCWD, "/proc/self/maps", O_RDONLY | O_CLOEXEC);
    char text[512];
    uintptr_t begin = 0, end = 0, before = 0;
    enum { BEGIN, END, REST } part = BEGIN;
    bool is_found = false;
    long got;
    while (file >= 0 && !is_found && (got = syscall(SYS_read, file, text, sizeof text)) > 0)
        for (long i = 0; i < got && !is_found; i++) {
            uintptr_t digit = (uintptr_t)(text[i] <= '9' ? text[i] - '0' : text[i] - 'a' + 10);
            if (part == BEGIN && text[i] == '-')
                part = END;
            else if (part == BEGIN)
                begin = 16 * begin + digit;
            else if (part == END && text[i] == ' ') {
                is_found = place > begin && place <= end;
                *low = grows ? before : begin;
                *high = before = end;
                part = REST;
            } else if (part == END)
                end = 16 * end + digit;
            else if (text[i] == '\n') {
                begin = end = 0;
                part = BEGIN;
            }
        }
    if (file >= 0)
        syscall(SYS_close, file);
    return is_found;
}

/* A stack that nobody has named: that of the first thread, of a signal handler, or of a fiber that was switched to in some other way. */
static struct stack *discover_stack(uintptr_t pointer)
{
    int error = errno;
    stack_t of_signals;
    uintptr_t low, high;
    struct stack *stack = NULL;
    if (syscall(SYS_sigaltstack, NULL, &of_signals) == 0 && of_signals.ss_flags & SS_ONSTACK) {
        low = (uintptr_t)of_signals.ss_sp;
        stack = add_stack(low, low + of_signals.ss_size);
        if (stack)
            stack->is_for_signals = true;
    } else if (find_mapping(pointer, !mine.all, &low, &high)) {
        stack = add_stack(low, high);
        if (stack && !stack->is_own) {
            stack->is_guessed = true;
            stack->low = UINTPTR_MAX;
        }
    }
    errno = error;
    return stack;
}

static uint32_t look_behind_top(struct stack *stack, uint64_t place);

#if defined(__x86_64__)
/* Where a function that was entered has made its last call: the call has put this place right below the stack pointer, if no arguments were
 * there. */
static inline uint64_t last_call(const struct frame *frame)
{
    return ((const uint64_t *)frame->pointer)[-1];
}

/* Whether the code in front of a place is a call: 0xe8, or 0xff with 2 in the middle of its second byte. */
static bool is_behind_call(uint64_t place)
{
    const unsigned char *code = (const unsigned char *)place;
    static const int lengths[] = {2, 3, 4, 6, 7};
    for (unsigned i = 0; i < sizeof lengths / sizeof *lengths; i++)
        if (code[-lengths[i]] == 0xff && (code[1 - lengths[i]] & 0x38) == 0x10)
            return true;
    return code[-5] == 0xe8;
}
#else
static inline uint64_t last_call(const struct frame *frame) { return frame->call; }
static bool is_behind_call(uint64_t place) { return !place; }
#endif

/* If the top frame has called code that isn't instrumented, and this code made the call that returns to `place`: where it did. Else 0. */
static uint64_t call_through(const struct stack *stack, uint64_t place)
{
    if (stack->is_guessed || stack->top == stack->frames || is_instrumented(place))
        return 0;
    uint64_t last = last_call(stack->top);
    return last != place && is_instrumented(last) && is_behind_call(last) ? last : 0;
}

/* The thread goes on on this stack. A signal handler was called where the thread was on the stack before. */
static void switch_to(struct stack *stack)
{
    struct stack *before = stack_now;
    if (stack == before)
        return;
    if (stack->is_for_signals && stack->top == stack->frames)
        stack->frames[0].stack = before && attached->ring ? look_behind_top(before, 0) : 0;
    _Atomic(struct stack *) *owner = &owners[(stack->begin * UINT64_C(0x9e3779b97f4a7c15)) >> (64 - OWNER_BITS)];
    if (!stack->is_own && !stack->is_for_signals && atomic_exchange(owner, stack) != stack)
        clear(stack);
    stack_now = stack;
}

/* The frames of the machine stack that has this place, or NULL. */
static struct stack *get_stack(uintptr_t pointer, bool may_be_new)
{
    struct stack *stack = find_stack(pointer);
    if (!stack && may_be_new && !mine.has_ended)
        stack = discover_stack(pointer);
    if (stack)
        switch_to(stack);
    return stack;
}

/* Frames whose stack pointers are below this place were left. */
static void drop_below(struct stack *stack, uintptr_t pointer)
{
    struct frame *top = stack->top;
    while (top > stack->frames && top->pointer < pointer)
        top--;
    if (top == stack->top)
        return;
    stack->deeper = 0;
    stack->top = top;
}

/* ---- Functions that are entered and left ---- */

/* A signal handler may come before the frame is there, and use its place. So it is written again then. */
static inline __attribute__((always_inline)) void push(struct stack *stack, const struct frame *new)
{
    volatile struct frame *place = stack->top + 1;
    do {
        place->pointer = new->pointer;
        place->call = new->call;
        place->through = new->through;
        place->stack = STACK_UNKNOWN;
        __atomic_signal_fence(__ATOMIC_SEQ_CST);
        stack->top = (struct frame *)place;
        __atomic_signal_fence(__ATOMIC_SEQ_CST);
    } while (UNLIKELY(place->pointer != new->pointer) && (stack->top = (struct frame *)place - 1));
}

static NOINLINE void enter_slowly(uintptr_t pointer, uint64_t call)
{
    struct stack *stack = get_stack(pointer, true);
    if (!stack)
        return;
    drop_below(stack, pointer + 1);
    if (stack->top == &stack->frames[FRAMES]) {
        stack->deeper++;
        return;
    }
    push(stack, &(struct frame){pointer, call, call_through(stack, call), STACK_UNKNOWN});
}

HOOK void __tsan_func_entry(void *call)
{
    uintptr_t pointer = POINTER;
    uint64_t place = (uintptr_t)call;
    struct stack *stack = stack_now;
    if (LIKELY(stack != NULL)) {
        struct frame *top = stack->top;
        if (LIKELY(pointer < top->pointer && pointer > stack->low && last_call(top) == place && top != &stack->frames[FRAMES])) {
            push(stack, &(struct frame){pointer, place, 0, STACK_UNKNOWN});
            return;
        }
    }
    enter_slowly(pointer, place);
}

static NOINLINE void leave_slowly(uintptr_t pointer)
{
    struct stack *stack = get_stack(pointer, false);
    if (!stack)
        return;
    if (stack->deeper && pointer <= stack->top->pointer) {
        stack->deeper--;
        return;
    }
    struct frame *top = stack->top;
    drop_below(stack, pointer);
    stack->top -= stack->top == top && top != stack->frames;
}

/* The last act of a function may be a jump here: then the stack pointer is its caller's. */
HOOK void __tsan_func_exit(void)
{
    uintptr_t pointer = POINTER;
    struct stack *stack = stack_now;
    if (UNLIKELY(stack == NULL))
        return;
    struct frame *top = stack->top;
    if (LIKELY(top != stack->frames && top != &stack->frames[FRAMES] && pointer <= top[-1].pointer && pointer > stack->low))
        stack->top = top - 1;
    else
        leave_slowly(pointer);
}

/* ---- Events ---- */

/* Each frame is looked up once: most functions that are entered have no event at all. */
static NOINLINE uint32_t look_at_top(struct stack *stack)
{
    struct stacks *stacks = &attached->ring->stacks;
    struct frame *top = stack->top, *frame = top, *last = &stack->frames[STACK_CALLS];
    while (frame->stack == STACK_UNKNOWN)
        frame--;
    uint32_t found = frame->stack;
    while (frame < top) {
        frame++;
        if (UNLIKELY(frame->through))
            found = stack_with(stacks, found, frame->through);
        found = LIKELY(frame <= last) ? stack_with(stacks, found, frame->call) : found | STACK_CUT;
        frame->stack = found;
    }
    return found;
}

/* The same with the call by which the top frame's function has come to this place in other code, if it has. */
static uint32_t look_behind_top(struct stack *stack, uint64_t place)
{
    uint32_t found = look_at_top(stack);
    uint64_t through = call_through(stack, place);
    return through ? stack_with(&attached->ring->stacks, found, through) : found;
}

static struct stack *stack_at(uintptr_t pointer)
{
    struct stack *stack = stack_now;
    if (!stack || pointer <= stack->begin || pointer > stack->high)
        stack = get_stack(pointer, true);
    if (stack)
        drop_below(stack, pointer);
    return stack;
}

uint32_t stack_look(uintptr_t pointer)
{
    struct stack *stack = stack_at(pointer);
    return stack ? look_at_top(stack) : 0;
}

uint32_t stack_look_from(uintptr_t pointer, uint64_t place)
{
    struct stack *stack = stack_at(pointer);
    return stack ? look_behind_top(stack, place) : 0;
}

/* ---- Threads ---- */

void stack_begin(void *low, size_t size)
{
    if (!mine.all)
        stack_now = add_stack((uintptr_t)low, (uintptr_t)low + size);
}

void stack_clear(void)
{
    for (struct stack *stack = mine.all; stack; stack = stack->next)
        if (stack->is_own)
            clear(stack);
}

/* A handler that comes in between may go on on a stack that isn't given back yet. */
void stack_end(void)
{
    mine.has_ended = true;
    while (mine.all) {
        struct stack *stack = mine.all;
        mine.all = stack->next;
        __atomic_signal_fence(__ATOMIC_SEQ_CST);
        stack_now = NULL;
        syscall(SYS_munmap, stack, sizeof *stack);
    }
    if (mine.known)
        syscall(SYS_munmap, mine.known, sizeof *mine.known << KNOWN_BITS);
}

void stack_forget_nodes(void)
{
    for (struct stack *stack = mine.all; stack; stack = stack->next) {
        for (struct frame *frame = stack->top; frame > stack->frames; frame--)
            frame->stack = STACK_UNKNOWN;
        stack->frames[0].stack = 0;
    }
    if (mine.known)
        __builtin_memset(mine.known, 0, sizeof *mine.known << KNOWN_BITS);
}

/* ---- Jumps ---- */

/* The thread goes on with this stack pointer. A handler that it leaves by that is over. */
static void jump_to(struct stack *stack, uintptr_t pointer)
{
    if (stack_now && stack_now != stack && stack_now->is_for_signals)
        clear(stack_now);
    if (!stack)
        return;
    switch_to(stack);
    drop_below(stack, pointer);
}

/* A function that catches an exception goes on. Those that it came through have mostly been left by their own code, but not those of C. */
void *__cxa_begin_catch(void *exception);

HOOK void *__cxa_begin_catch(void *exception)
{
    stack_at(POINTER);
    return REAL(__cxa_begin_catch)(exception);
}

#if defined(__x86_64__)
/* The C library hides the stack pointer in a jmp_buf by a number that stands in the thread's control block. */
static uintptr_t pointer_of(const struct __jmp_buf_tag *place)
{
    uint64_t hidden = (uint64_t)place->__jmpbuf[6], guard;
    __asm__("mov %%fs:0x30, %0" : "=r"(guard));
    return (hidden >> 17 | hidden << 47) ^ guard;
}

#define JUMP(name)                                           \
    void name(struct __jmp_buf_tag place[1], int value) __attribute__((noreturn)); \
    HOOK void name(struct __jmp_buf_tag place[1], int value) \
    {                                                        \
        uintptr_t pointer = pointer_of(place);               \
        jump_to(find_stack(pointer), pointer);               \
        find_##name()(place, value);                         \
        __builtin_unreachable();                             \
    }

void __longjmp_chk(struct __jmp_buf_tag place[1], int value) __attribute__((noreturn));
FIND_EARLY(longjmp)
FIND_EARLY(_longjmp)
FIND_EARLY(siglongjmp)
FIND_EARLY(__longjmp_chk)
JUMP(longjmp)
JUMP(_longjmp)
JUMP(siglongjmp)
JUMP(__longjmp_chk)

/* A context that was made has its stack. One that was saved may have anything there. */
static void jump_into(const ucontext_t *context)
{
    uintptr_t pointer = (uintptr_t)context->uc_mcontext.gregs[REG_RSP];
    uintptr_t low = (uintptr_t)context->uc_stack.ss_sp, high = low + context->uc_stack.ss_size;
    struct stack *stack = find_stack(pointer);
    bool has_stack = pointer > low && pointer <= high && high - low < UINT64_C(1) << 40;
    if (has_stack && !mine.has_ended && (!stack || stack->begin != low || stack->high != high))
        stack = add_stack(low, high);
    jump_to(stack, pointer);
}

HOOK int swapcontext(ucontext_t *restrict from, const ucontext_t *restrict to)
{
    jump_into(to);
    return REAL(swapcontext)(from, to);
}

HOOK int setcontext(const ucontext_t *to)
{
    jump_into(to);
    return REAL(setcontext)(to);
}
#endif

#else

HOOK void __tsan_func_entry(void *call) { (void)call; }
HOOK void __tsan_func_exit(void) {}

#endif
