// What lot.bpf.c needs of Linux 6.12 or later: those fields of its structs, those callbacks of sched_ext and those
// functions that it uses, by the names that Linux gives them. The loader looks them up by name in the types of the
// running kernel (BTF), so their order here has no meaning.

#ifndef SCX_H
#define SCX_H

#include <linux/bpf.h>
#include <stdbool.h>

#include <bpf/bpf_core_read.h>
#include <bpf/bpf_helpers.h>
#include <bpf/bpf_tracing.h>

#pragma clang attribute push(__attribute__((preserve_access_index)), apply_to = record)

struct cpumask {
    unsigned long bits[1];
};

typedef struct {
    unsigned int val;
} kuid_t;

struct cred {
    kuid_t euid;
};

struct sched_entity {
    __u64 sum_exec_runtime;
};

struct sched_ext_entity {
    __u64 slice;
    __u32 weight;
};

struct task_struct {
    unsigned int __state;
    int pid;
    int on_cpu;
    int nr_cpus_allowed;
    const struct cpumask *cpus_ptr;
    unsigned short migration_disabled;
    struct sched_entity se;
    struct sched_ext_entity scx;
    const struct cred *cred;
};

enum scx_exit_kind { SCX_EXIT_NONE };

struct scx_exit_info {
    enum scx_exit_kind kind;
};

#pragma clang attribute pop

struct scx_init_task_args;

struct sched_ext_ops {
    __s32 (*select_cpu)(struct task_struct *task, __s32 previous, __u64 flags);
    void (*enqueue)(struct task_struct *task, __u64 flags);
    void (*dispatch)(__s32 processor, struct task_struct *previous);
    void (*stopping)(struct task_struct *task, bool runnable);
    void (*quiescent)(struct task_struct *task, __u64 flags);
    bool (*yield)(struct task_struct *from, struct task_struct *to);
    __s32 (*init_task)(struct task_struct *task, struct scx_init_task_args *arguments);
    void (*disable)(struct task_struct *task);
    void (*exit)(struct scx_exit_info *info);
    __u64 flags;
    __u32 timeout_ms;
    char name[128];
};

#define SCX_DSQ_LOCAL ((1ULL << 63) | 2)
#define SCX_OPS_ENQ_LAST (1ULL << 1)
#define SCX_OPS_SWITCH_PARTIAL (1ULL << 3)
#define SCX_DEQ_SLEEP (1ULL << 0)
#define SCX_KICK_IDLE (1ULL << 0)
#define TASK_DEAD 0x80u
#define NO_MEMORY 12

// Linux 6.12 has the first; from 6.13 on it has the second.
extern void scx_bpf_dispatch(struct task_struct *task, __u64 queue, __u64 slice, __u64 flags) __ksym __weak;
extern void scx_bpf_dsq_insert(struct task_struct *task, __u64 queue, __u64 slice, __u64 flags) __ksym __weak;
extern void scx_bpf_kick_cpu(__s32 processor, __u64 flags) __ksym;
extern struct task_struct *bpf_task_from_pid(__s32 pid) __ksym;
extern void bpf_task_release(struct task_struct *task) __ksym;
extern bool bpf_cpumask_test_cpu(__u32 processor, const struct cpumask *mask) __ksym;

#endif
