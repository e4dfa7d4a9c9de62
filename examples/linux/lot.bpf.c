// The part inside Linux, which decides nothing: it tells the scheduler in user space what happens to tasks, and starts
// the winner that this has stored for a processor.

#include "scx.h"
#include "shared.h"

char lot_license[] SEC("license") = "GPL"; // Linux demands it of a scheduler

struct {
    __uint(type, BPF_MAP_TYPE_RINGBUF);
    __uint(max_entries, RING_BYTES);
} events SEC(".maps");

struct {
    __uint(type, BPF_MAP_TYPE_ARRAY);
    __uint(map_flags, BPF_F_MMAPABLE);
    __uint(max_entries, 1);
    __type(key, __u32);
    __type(value, struct shared);
} shared_page SEC(".maps");

struct own {
    __u64 ran; // all that the task had run at its last event
    __u32 id;
    bool is_told; // whether user space knows of it
    bool yields;
};

struct {
    __uint(type, BPF_MAP_TYPE_TASK_STORAGE);
    __uint(map_flags, BPF_F_NO_PREALLOC);
    __type(key, int);
    __type(value, struct own);
} owns SEC(".maps");

static __u32 last_id;

static struct shared *shared(void) {
    __u32 key = 0;
    return bpf_map_lookup_elem(&shared_page, &key);
}

static struct own *own_of(struct task_struct *task) {
    return bpf_task_storage_get(&owns, task, 0, 0);
}

// The task runs on this processor for a slice, or, if that is 0, for what is left of its last one.
static void start_here(struct task_struct *task, __u64 slice, __u64 flags) {
    if (bpf_ksym_exists(scx_bpf_dsq_insert)) {
        scx_bpf_dsq_insert(task, SCX_DSQ_LOCAL, slice, flags);
    } else {
        scx_bpf_dispatch(task, SCX_DSQ_LOCAL, slice, flags);
    }
}

// ---- what is told

// Takes a place among the tasks that user space knows of, and returns whether the task has one.
static bool has_place(struct shared *page, struct own *own) {
    if (own->is_told || __sync_fetch_and_add(&page->tasks, 1) < MOST_TASKS) {
        return true;
    }
    __sync_fetch_and_add(&page->tasks, -1);
    return false;
}

static bool tell(struct shared *page, struct task_struct *task, struct own *own, enum told kind) {
    struct told_event *event = bpf_ringbuf_reserve(&events, sizeof *event, 0);
    bool goes = kind == TOLD_DEAD || kind == TOLD_LEFT;
    __u64 ran = task->se.sum_exec_runtime;
    if (goes) {
        __sync_fetch_and_add(&page->tasks, -1); // after the event has its place in the ring, before any newer task's
    }
    if (!event) {
        __sync_fetch_and_add(&page->dropped, 1);
        return false;
    }
    event->at = bpf_ktime_get_ns();
    event->ran = ran - own->ran;
    event->id = own->id;
    event->pid = task->pid;
    event->uid = task->cred->euid.val;
    event->weight = task->scx.weight;
    event->kind = kind;
    event->unused = 0;
    own->ran = ran;
    own->is_told = !goes;
    bpf_ringbuf_submit(event, 0);
    return true;
}

SEC("struct_ops.s/init_task")
__s32 BPF_PROG(lot_init_task, struct task_struct *task, struct scx_init_task_args *arguments) {
    struct own *own = bpf_task_storage_get(&owns, task, 0, BPF_LOCAL_STORAGE_GET_F_CREATE);
    if (!own) {
        return -NO_MEMORY;
    }
    own->id = __sync_fetch_and_add(&last_id, 1) + 1;
    own->ran = task->se.sum_exec_runtime;
    own->is_told = false;
    return 0;
}

// Without this Linux would start a task at once where a processor is idle, past the lottery.
SEC("struct_ops/select_cpu")
__s32 BPF_PROG(lot_select_cpu, struct task_struct *task, __s32 previous, __u64 flags) {
    return previous;
}

SEC("struct_ops/enqueue")
void BPF_PROG(lot_enqueue, struct task_struct *task, __u64 flags) {
    struct own *own = own_of(task);
    struct shared *page = shared();
    if (!own || !page) {
        start_here(task, 0, flags);
        return;
    }
    // It must not leave its processor, and goes on there: user space hears of it when it may. If the task itself has
    // come here, this program counts among what keeps it.
    if (task->migration_disabled > (task->on_cpu ? 1 : 0)) {
        __sync_fetch_and_add(&page->kept, 1);
        start_here(task, page->quantum, flags);
        return;
    }
    // The lottery is among all ready tasks, for every processor alike.
    bool may_run_anywhere = (__u32)task->nr_cpus_allowed >= page->processors;
    if (!may_run_anywhere && own->is_told) {
        tell(page, task, own, TOLD_LEFT);
    }
    if (may_run_anywhere && has_place(page, own) &&
        tell(page, task, own, own->yields ? TOLD_YIELDED : TOLD_READY)) {
        own->yields = false;
        return;
    }
    __sync_fetch_and_add(&page->outside, 1);
    start_here(task, page->quantum, flags);
}

// Linux counts what a task has run until here before it calls this, and otherwise not before `quiescent`.
SEC("struct_ops/stopping")
void BPF_PROG(lot_stopping, struct task_struct *task, bool runnable) {
}

SEC("struct_ops/quiescent")
void BPF_PROG(lot_quiescent, struct task_struct *task, __u64 flags) {
    struct own *own = own_of(task);
    struct shared *page = shared();
    if (own && page && own->is_told && (flags & SCX_DEQ_SLEEP)) {
        tell(page, task, own, task->__state & TASK_DEAD ? TOLD_DEAD : TOLD_ASLEEP);
    }
}

SEC("struct_ops/yield")
bool BPF_PROG(lot_yield, struct task_struct *from, struct task_struct *to) {
    struct own *own = own_of(from);
    if (own && !to) {
        own->yields = true;
        from->scx.slice = 0;
    }
    return false;
}

SEC("struct_ops/disable")
void BPF_PROG(lot_disable, struct task_struct *task) {
    struct own *own = own_of(task);
    struct shared *page = shared();
    if (own && page && own->is_told) {
        tell(page, task, own, TOLD_LEFT);
    }
}

// ---- winners

static void count_start(struct shared *page, __u32 processor) {
    __u64 wait = bpf_ktime_get_ns() - page->since[processor & (MOST_PROCESSORS - 1)];
    __sync_fetch_and_add(&page->started, 1);
    __sync_fetch_and_add(&page->wait_sum, wait);
    if (wait > page->wait_most) {
        page->wait_most = wait;
    }
}

// A processor has nobody. A winner that isn't there any more has an event on its way, which frees the processor.
SEC("struct_ops/dispatch")
void BPF_PROG(lot_dispatch, __s32 processor, struct task_struct *previous) {
    struct shared *page = shared();
    if (!page || processor < 0 || processor >= MOST_PROCESSORS) {
        return;
    }
    __u64 winner = __sync_lock_test_and_set(&page->winner[processor & (MOST_PROCESSORS - 1)], 0);
    if (winner == 0) {
        return;
    }
    struct task_struct *task = bpf_task_from_pid((__s32)winner);
    if (!task) {
        __sync_fetch_and_add(&page->vanished, 1);
        return;
    }
    struct own *own = own_of(task);
    if (own && own->id == winner >> 32 && bpf_cpumask_test_cpu(processor, task->cpus_ptr)) {
        count_start(page, processor);
        start_here(task, page->quantum, 0);
    } else {
        __sync_fetch_and_add(&page->vanished, 1);
    }
    bpf_task_release(task);
}

// User space runs this after it has stored winners.
SEC("syscall")
int lot_kick(struct kick *kick) {
    for (int processor = 0; processor < MOST_PROCESSORS; processor++) {
        if (kick->processors >> processor & 1) {
            scx_bpf_kick_cpu(processor, SCX_KICK_IDLE);
        }
    }
    return 0;
}

// ---- the scheduler

// Linux's log says why it has ended the scheduler.
SEC("struct_ops/exit")
void BPF_PROG(lot_exit, struct scx_exit_info *info) {
    struct shared *page = shared();
    if (page) {
        page->exit_kind = info->kind;
    }
}

// Linux ends a scheduler that leaves a task waiting for longer than timeout_ms, 30000 at most.
SEC(".struct_ops.link")
struct sched_ext_ops lot_ops = {
    .select_cpu = (void *)lot_select_cpu,
    .enqueue = (void *)lot_enqueue,
    .dispatch = (void *)lot_dispatch,
    .stopping = (void *)lot_stopping,
    .quiescent = (void *)lot_quiescent,
    .yield = (void *)lot_yield,
    .init_task = (void *)lot_init_task,
    .disable = (void *)lot_disable,
    .exit = (void *)lot_exit,
    .flags = SCX_OPS_ENQ_LAST | SCX_OPS_SWITCH_PARTIAL,
    .timeout_ms = 30000,
    .name = "lot",
};
