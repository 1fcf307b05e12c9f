/*
 * The one program of a guest: it loads policies that translate.py made, attaches each to sched_ext, runs a workload
 * of real processes under it, and writes to the second serial line what the kernel did. It reads /cases, a text of
 * lines:
 *
 *   case NAME                           begins a policy with its workload
 *   ops TYPE SIZE OF                    type of the struct_ops map's value, its size, and the type of sched_ext_ops
 *   map TYPE KEY_SIZE ENTRIES SIZE      a map; programs name it by its place, and the last is that of exit
 *   timers COUNT                        an array map whose values are timers
 *   set OFFSET SIZE NUMBER              a field of the value
 *   name OFFSET TEXT                    the policy's name, in the value
 *   program CALLBACK MEMBER OFFSET SLEEPS HEX
 *   second SLOT                         that program has a second function, which begins at that slot
 *   group PARENT WEIGHT                 a cgroup; PARENT is the place of another, or -1
 *   task NAME GROUP NICE START RUN SLEEP       a process; times in milliseconds
 *   go CPUS MS                          loads, attaches, runs and writes
 *   load                                loads alone, and writes the verdict on each program
 */
#define _GNU_SOURCE
#include <dirent.h>
#include <errno.h>
#include <fcntl.h>
#include <sched.h>
#include <signal.h>
#include <stdint.h>
#include <stdio.h>
#include <stdlib.h>
#include <string.h>
#include <sys/io.h>
#include <sys/klog.h>
#include <sys/mman.h>
#include <sys/mount.h>
#include <sys/prctl.h>
#include <sys/reboot.h>
#include <sys/resource.h>
#include <sys/stat.h>
#include <sys/syscall.h>
#include <sys/wait.h>
#include <time.h>
#include <unistd.h>

#define MAPS 20
#define PROGRAMS 20
#define GROUPS 64
#define TASKS 64
#define SCHED_EXT 7
#define MS 1000000ull
#define TICK (4 * MS)

/* Of linux/bpf.h only what is used, as the headers of an older system lack some of it. */
enum { MAP_CREATE = 0, MAP_LOOKUP = 1, MAP_UPDATE = 2, PROGRAM_LOAD = 5, BTF_LOAD = 18, LINK_CREATE = 28 };
enum { TYPE_ARRAY = 2, TYPE_STRUCT_OPS = 26, PROGRAM_STRUCT_OPS = 27, ATTACH_STRUCT_OPS = 44, FLAG_LINK = 1 << 13, FLAG_SLEEPS = 1 << 4 };
union request {
	struct {
		uint32_t type, key_size, value_size, entries, flags, inner, node;
		char name[16];
		uint32_t device, btf, btf_key, btf_value, kernel_type;
	} map;
	struct {
		uint32_t map, pad;
		uint64_t key, value, flags;
	} element;
	struct {
		uint32_t type, count;
		uint64_t instructions, license;
		uint32_t log_level, log_size;
		uint64_t log;
		uint32_t version, flags;
		char name[16];
		uint32_t device, member, btf, function_size;
		uint64_t functions;
		uint32_t function_count, line_size;
		uint64_t lines;
		uint32_t line_count, kernel_type, kernel_object;
	} program;
	struct {
		uint32_t map, target, type, flags, pad[8];
	} link;
	struct {
		uint64_t btf, log;
		uint32_t size;
	} btf;
	char all[160];
};

struct program {
	char callback[24];
	int member, offset, sleeps, count, file, second;
	uint64_t *slots;
};
struct group {
	int parent, weight;
	char path[120];
};
struct task {
	char name[24];
	int group, nice, start, run, sleep;
	unsigned long long mask;	/* the CPUs on which it may run, a bit for each */
	pid_t pid;
	unsigned long long run_before;
	unsigned long turns_before;
};

static int maps[MAPS], map_count;
static uint32_t value_type, value_size, ops_type;
static unsigned char value[4096];
static struct program programs[PROGRAMS];
static struct group groups[GROUPS];
static struct task tasks[TASKS];
static int program_count, group_count, task_count;
static char line[1 << 18], log_text[1 << 20], kernel_log[1 << 18];
static FILE *out;
static volatile unsigned long counter;
static struct {
	volatile int ready;
	volatile uint64_t begin;
} *shared;

static int bpf(int command, union request *request)
{
	return syscall(SYS_bpf, command, request, sizeof(*request));
}

static uint64_t now(void)
{
	struct timespec time;

	clock_gettime(CLOCK_MONOTONIC, &time);
	return time.tv_sec * 1000 * MS + time.tv_nsec;
}

static void wait_until(uint64_t when)
{
	struct timespec time = { when / (1000 * MS), when % (1000 * MS) };

	while (clock_nanosleep(CLOCK_MONOTONIC, TIMER_ABSTIME, &time, 0) == EINTR)
		;
}

/* Lets a process run on these CPUs alone, a bit for each. */
static int keep_to(pid_t pid, unsigned long long mask)
{
	cpu_set_t set;

	CPU_ZERO(&set);
	for (int cpu = 0; cpu < 64; cpu++)
		if (mask >> cpu & 1)
			CPU_SET(cpu, &set);
	return sched_setaffinity(pid, sizeof(set), &set);
}

/* The number of our own CPU, after those of the workload. */
static int own_cpu(void)
{
	return sysconf(_SC_NPROCESSORS_ONLN) - 1;
}

static int write_file(const char *path, const char *text)
{
	int file = open(path, O_WRONLY), result = -1;

	if (file >= 0) {
		result = write(file, text, strlen(text)) < 0 ? -errno : 0;
		close(file);
	}
	return result;
}

static void read_file(const char *path, char *text, int size)
{
	int file = open(path, O_RDONLY), length = 0;

	if (file >= 0) {
		length = read(file, text, size - 1);
		close(file);
	}
	text[length > 0 ? length : 0] = 0;
}

static uint64_t *from_hex(const char *hex, int *count)
{
	uint64_t *slots;

	*count = strlen(hex) / 16;
	slots = malloc(*count * 8 + 8);
	for (int at = 0; at < *count * 8; at++) {
		char pair[3] = { hex[2 * at], hex[2 * at + 1], 0 };

		((unsigned char *)slots)[at] = strtoul(pair, 0, 16);
	}
	return slots;
}

/* A reference to map N becomes one to its open file. */
static void name_maps(struct program *program)
{
	for (int at = 0; at < program->count; at++) {
		uint64_t slot = program->slots[at];

		if ((slot & 255) != 0x18)
			continue;
		if ((slot >> 12 & 15) == 5) {
			uint32_t number = slot >> 32;
			uint32_t file = number < (uint32_t)map_count ? maps[number] : -1;

			program->slots[at] = 0x18 | (slot & 0x0f00) | 0x1000 | (uint64_t)file << 32;
		}
		at++;
	}
}

/* The last line of the kernel's log of a refused program, without its counts and what 7.x explains after them. */
static const char *reason_of(char *log)
{
	const char *reason = "";
	char *explained = strstr(log, "\nVerification failed:");

	if (explained)
		*explained = 0;
	for (char *text = strtok(log, "\n"); text; text = strtok(0, "\n"))
		if (strncmp(text, "processed ", 10) && strncmp(text, "verification time", 17) && strncmp(text, "stack depth", 11) && text[0] != '|')
			reason = text;
	return reason;
}

/*
 * Types for timers, by their numbers: 5 is a map's value that is one, 7 and 8 are the functions of a program that has
 * a second one.
 */
enum { OF_INT = 1, OF_TIMER_VALUE = 5, OF_FIRST = 7, OF_SECOND = 8 };
static int load_timer_types(void)
{
	static const char texts[] = "\0int\0__u64\0bpf_timer\0__opaque\0value\0timer\0main_fn\0timer_fn";
	enum { INT = 1, U64 = 5, TIMER = 11, OPAQUE = 21, VALUE = 30, MEMBER = 36, FIRST = 42, SECOND = 50 };
	static const uint32_t all[] = {
		INT, 1 << 24, 4, 0x01000020, U64, 1 << 24, 8, 64, 0, 3 << 24, 0, 2, 1, 2,
		TIMER, 4 << 24 | 1, 16, OPAQUE, 3, 0, VALUE, 4 << 24 | 1, 16, MEMBER, 4, 0,
		0, 13 << 24, 1, FIRST, 12 << 24, 6, SECOND, 12 << 24, 6,
	};
	static struct {
		uint16_t magic;
		uint8_t version, flags;
		uint32_t head, types, types_size, texts, texts_size;
		char content[sizeof(all) + sizeof(texts)];
	} types = { 0xeb9f, 1, 0, 24, 0, sizeof(all), sizeof(all), sizeof(texts), "" };
	union request request;
	int file;

	memcpy(types.content, all, sizeof(all));
	memcpy(types.content + sizeof(all), texts, sizeof(texts));
	memset(&request, 0, sizeof(request));
	request.btf.btf = (uintptr_t)&types;
	request.btf.size = 24 + sizeof(all) + sizeof(texts);
	file = bpf(BTF_LOAD, &request);
	if (file < 0)
		fprintf(out, "error no types for timers: %s\n", strerror(errno));
	return file;
}

/* Says where the second function of a program begins. */
static void name_functions(const struct program *program, union request *request)
{
	static uint32_t functions[4];

	functions[0] = 0;
	functions[1] = OF_FIRST;
	functions[2] = program->second;
	functions[3] = OF_SECOND;
	request->program.btf = load_timer_types();
	request->program.function_size = 8;
	request->program.functions = (uintptr_t)functions;
	request->program.function_count = 2;
}

static int load_program(struct program *program)
{
	union request request;

	memset(&request, 0, sizeof(request));
	request.program.type = PROGRAM_STRUCT_OPS;
	request.program.count = program->count;
	request.program.instructions = (uintptr_t)program->slots;
	request.program.license = (uintptr_t)"GPL";
	request.program.flags = program->sleeps ? FLAG_SLEEPS : 0;
	request.program.member = program->member;
	request.program.kernel_type = ops_type;
	if (program->second)
		name_functions(program, &request);
	program->file = bpf(PROGRAM_LOAD, &request);
	if (program->file < 0) {
		request.program.log = (uintptr_t)log_text;
		request.program.log_size = sizeof(log_text);
		request.program.log_level = 1;
		program->file = bpf(PROGRAM_LOAD, &request);
	}
	if (program->file < 0)
		fprintf(out, "refused %s %s\n", program->callback, reason_of(log_text));
	return program->file >= 0;
}

/* A struct_ops map wants type information of its program, whichever: this is of one int. */
static int load_types(void)
{
	static const struct {
		uint16_t magic;
		uint8_t version, flags;
		uint32_t head, types, types_size, texts, texts_size, name, info, size, bits;
		char text[8];
	} types = { 0xeb9f, 1, 0, 24, 0, 16, 16, 5, 1, 1 << 24, 4, 0x01000020, "\0int" };
	union request request;

	memset(&request, 0, sizeof(request));
	request.btf.btf = (uintptr_t)&types;
	request.btf.size = 24 + 16 + 5;
	return bpf(BTF_LOAD, &request);
}

static void make_timers(int count)
{
	union request request;

	memset(&request, 0, sizeof(request));
	request.map.type = TYPE_ARRAY;
	request.map.key_size = 4;
	request.map.value_size = 16;
	request.map.entries = count;
	request.map.btf = load_timer_types();
	request.map.btf_key = OF_INT;
	request.map.btf_value = OF_TIMER_VALUE;
	maps[map_count] = bpf(MAP_CREATE, &request);
	if (maps[map_count++] < 0)
		fprintf(out, "error no map of %d timers: %s\n", count, strerror(errno));
}

static void make_map(int type, int key_size, int entries, int size)
{
	union request request;

	memset(&request, 0, sizeof(request));
	request.map.type = type;
	request.map.key_size = key_size;
	request.map.value_size = size;
	request.map.entries = entries;
	maps[map_count] = bpf(MAP_CREATE, &request);
	if (maps[map_count++] < 0)
		fprintf(out, "error no map of type %d with %d elements of %d bytes: %s\n", type, entries, size, strerror(errno));
}

/* Loads the programs and puts their files into the value; whether all were accepted. */
static int load_into_value(void)
{
	for (int at = 0; at < program_count; at++) {
		uint64_t file;

		name_maps(&programs[at]);
		if (!load_program(&programs[at]))
			return 0;
		file = programs[at].file;
		memcpy(value + programs[at].offset, &file, 8);
	}
	return 1;
}

/* Puts the policy in force; the link that holds it there, or -1. */
static int attach(int *ops)
{
	union request request;
	uint32_t zero = 0;
	int link;

	if (!load_into_value())
		return -1;
	memset(&request, 0, sizeof(request));
	request.map.type = TYPE_STRUCT_OPS;
	request.map.key_size = 4;
	request.map.value_size = value_size;
	request.map.entries = 1;
	request.map.flags = FLAG_LINK;
	request.map.kernel_type = value_type;
	request.map.btf = load_types();
	*ops = bpf(MAP_CREATE, &request);
	memset(&request, 0, sizeof(request));
	request.element.map = *ops;
	request.element.key = (uintptr_t)&zero;
	request.element.value = (uintptr_t)value;
	if (*ops < 0 || bpf(MAP_UPDATE, &request) < 0) {
		fprintf(out, "error struct_ops: %s\n", strerror(errno));
		return -1;
	}
	memset(&request, 0, sizeof(request));
	request.link.map = *ops;
	request.link.type = ATTACH_STRUCT_OPS;
	link = bpf(LINK_CREATE, &request);
	if (link < 0)
		fprintf(out, "error attach: %s\n", strerror(errno));
	return link;
}

/*
 * Cgroups are made in the workload's order, so that their numbers are those of its groups. They stay, so that they
 * have the same numbers in the next case; those of groups within groups are others.
 */
static void make_groups(void)
{
	char path[160], text[16];
	int has_levels = 0;

	for (int at = 0; at < group_count; at++)
		has_levels |= groups[at].parent >= 0;
	for (int at = 0; at < group_count; at++) {
		const char *above = groups[at].parent < 0 ? "/cgroups" : groups[groups[at].parent].path;
		int holds_groups = 0;

		snprintf(groups[at].path, sizeof(groups[at].path), "%.90s/%c%d", above, has_levels ? 'd' : 'g', at);
		if (mkdir(groups[at].path, 0755) < 0 && errno != EEXIST)
			fprintf(out, "error %s: %s\n", groups[at].path, strerror(errno));
		for (int other = 0; other < group_count; other++)
			holds_groups |= groups[other].parent == at;
		snprintf(path, sizeof(path), "%s/cpu.weight", groups[at].path);
		snprintf(text, sizeof(text), "%d", groups[at].weight);
		if (write_file(path, text) < 0)
			fprintf(out, "error no weight for group %d\n", at);
		snprintf(path, sizeof(path), "%s/cgroup.subtree_control", groups[at].path);
		if (holds_groups)
			write_file(path, "+cpu");
	}
}

static uint64_t own_time(void)
{
	struct timespec time;

	clock_gettime(CLOCK_PROCESS_CPUTIME_ID, &time);
	return time.tv_sec * 1000 * MS + time.tv_nsec;
}

/*
 * Makes the process a task of the policy, 50 ms before all begin and in the order of the workload. Until then it waits
 * on the lowest CPU on which it may run, so that it wakes there first, and the policy has seen no sleep of it.
 */
static void become_task(const struct task *task, int cpus)
{
	struct sched_param parameter = { 0 };
	unsigned long long mask = task->mask & (cpus < 64 ? (1ull << cpus) - 1 : ~0ull);
	char path[160];

	prctl(PR_SET_NAME, task->name);
	prctl(PR_SET_TIMERSLACK, 1);
	keep_to(0, mask & -mask);
	if (task->group >= 0) {
		snprintf(path, sizeof(path), "%s/cgroup.procs", groups[task->group].path);
		write_file(path, "0");
	}
	setpriority(PRIO_PROCESS, 0, task->nice);
	counter += own_time();	/* their pages are there from now on */
	__sync_fetch_and_add(&shared->ready, 1);
	while (!shared->begin)
		usleep(3000);
	wait_until(shared->begin - 50 * MS + (task - tasks) * MS / 2);
	keep_to(0, mask);
	syscall(SYS_sched_setscheduler, 0, SCHED_EXT, &parameter);
}

/* What a process of the workload does, to its end. */
static void be_task(const struct task *task, int cpus)
{
	become_task(task, cpus);
	wait_until(shared->begin + task->start * MS);
	while (!task->run)
		counter++;
	for (;;) {
		struct timespec pause = { task->sleep / 1000, task->sleep % 1000 * MS };
		uint64_t end = own_time() + task->run * MS;

		while (own_time() < end)
			for (int round = 0; round < 2000; round++)
				counter++;
		nanosleep(&pause, 0);
	}
}

/* How long a process has run, and how often it began to. */
static void read_usage(const struct task *task, unsigned long long *run, unsigned long *turns)
{
	char path[64], text[128];
	unsigned long long wait;

	*run = *turns = 0;
	snprintf(path, sizeof(path), "/proc/%d/schedstat", task->pid);
	read_file(path, text, sizeof(text));
	sscanf(text, "%llu %llu %lu", run, &wait, turns);
}

static void read_state(char *state, int size)
{
	read_file("/sys/kernel/sched_ext/state", state, size);
	state[strcspn(state, "\n")] = 0;
}

static void wait_for_end(void)
{
	char state[64] = "";

	for (int round = 0; round < 300 && strcmp(state, "disabled"); round++) {
		usleep(10000);
		read_state(state, sizeof(state));
	}
}

static void start_tasks(int cpus)
{
	shared->ready = 0;
	shared->begin = 0;
	fflush(out);
	for (int at = 0; at < task_count; at++) {
		tasks[at].pid = fork();
		if (!tasks[at].pid)
			be_task(&tasks[at], cpus);
	}
	for (int round = 0; round < 200 && shared->ready < task_count; round++)
		usleep(5000);
	if (shared->ready < task_count)
		fprintf(out, "error %d tasks aren't ready\n", task_count - shared->ready);
}

/* All begin at one moment, with a tick, and what they ran before doesn't count. */
static uint64_t run_tasks(int ms)
{
	uint64_t begin = (now() + 100 * MS) / TICK * TICK;
	unsigned long long run[TASKS];
	unsigned long turns[TASKS];
	char state[64];

	shared->begin = begin;
	wait_until(begin - 2 * MS);
	for (int at = 0; at < task_count; at++)
		read_usage(&tasks[at], &tasks[at].run_before, &tasks[at].turns_before);
	wait_until(begin + ms * MS);
	for (int at = 0; at < task_count; at++)
		read_usage(&tasks[at], &run[at], &turns[at]);
	read_state(state, sizeof(state));
	for (int at = 0; at < task_count; at++)
		kill(tasks[at].pid, SIGKILL);
	for (int at = 0; at < task_count; at++)
		waitpid(tasks[at].pid, 0, 0);
	fprintf(out, "state %s\n", state);
	for (int at = 0; at < task_count; at++)
		fprintf(out, "task %s %llu %lu\n", tasks[at].name, (run[at] - tasks[at].run_before) / 1000, turns[at] - tasks[at].turns_before);
	return begin;
}

/* What the exit callback kept: the kind of the exit, and when it came. */
static void write_exit(uint64_t begin)
{
	union request request;
	uint64_t kept[3] = { 0 };
	uint32_t zero = 0;

	memset(&request, 0, sizeof(request));
	request.element.map = maps[map_count - 1];
	request.element.key = (uintptr_t)&zero;
	request.element.value = (uintptr_t)kept;
	bpf(MAP_LOOKUP, &request);
	fprintf(out, "exit %llu %lld\n", (unsigned long long)kept[0], (long long)(kept[2] - begin) / (long long)MS);
}

/* What the kernel said of sched_ext. */
static void write_log(void)
{
	int length = klogctl(4, kernel_log, sizeof(kernel_log) - 1);

	kernel_log[length > 0 ? length : 0] = 0;
	for (char *text = strtok(kernel_log, "\n"); text; text = strtok(0, "\n")) {
		char *said = strchr(text, ']');

		if (said && (strstr(said, "sched_ext") || strstr(said, "WARN") || strstr(said, "BUG")))
			fprintf(out, "log %s\n", said + 2);
	}
}

static int read_clock_register(int number)
{
	outb(number, 0x70);
	return inb(0x71);
}

static void write_clock_register(int number, int value)
{
	outb(number, 0x70);
	outb(value, 0x71);
}

/*
 * 4096 interrupts a second of the machine's clock, at our own processor, so that qemu's processors take turns that often.
 * None is acknowledged: qemu's timer goes on, and the kernel sees one at most.
 */
static void take_turns(void)
{
	char text[24];

	snprintf(text, sizeof(text), "%d", own_cpu());
	write_file("/proc/irq/8/smp_affinity_list", text);
	if (ioperm(0x70, 2, 1) < 0) {
		fprintf(out, "note no ioperm: %s\n", strerror(errno));
		return;
	}
	write_clock_register(0x0a, (read_clock_register(0x0a) & 0xf0) | 4);
	write_clock_register(0x0b, read_clock_register(0x0b) | 0x40);
}

/*
 * Keeps what the kernel does of its own off the workload's CPUs: after such a thread, and at a timer of the server of
 * fair tasks, a CPU looks for a task of the policy, although no one kicked it. Threads of one CPU stay.
 */
static void keep_kernel_away(void)
{
	DIR *folder = opendir("/proc");
	struct dirent *entry;
	char text[80];

	while (folder && (entry = readdir(folder)))
		if (atoi(entry->d_name) > 1)
			keep_to(atoi(entry->d_name), 1ull << own_cpu());
	if (folder)
		closedir(folder);
	snprintf(text, sizeof(text), "%llx", 1ull << own_cpu());
	write_file("/sys/devices/virtual/workqueue/cpumask", text);
	for (int cpu = 0; cpu < own_cpu(); cpu++) {
		snprintf(text, sizeof(text), "/sys/kernel/debug/sched/fair_server/cpu%d/runtime", cpu);
		write_file(text, "0");
	}
}

static void go(int cpus, int ms)
{
	int ops = -1, link;
	uint64_t begin;

	keep_kernel_away();
	take_turns();
	klogctl(5, 0, 0);
	link = attach(&ops);
	if (link >= 0) {
		make_groups();
		start_tasks(cpus);
		begin = run_tasks(ms);
		close(link);
		wait_for_end();
		write_exit(begin);
	}
	if (ops >= 0)
		close(ops);
	write_log();
}

static void forget(void)
{
	for (int at = 0; at < map_count; at++)
		close(maps[at]);
	for (int at = 0; at < program_count; at++) {
		if (programs[at].file > 0)
			close(programs[at].file);
		free(programs[at].slots);
	}
	map_count = program_count = group_count = task_count = 0;
	memset(programs, 0, sizeof(programs));
	memset(value, 0, sizeof(value));
}

/* What the kernel's verifier says of each program. */
static void load_all(void)
{
	for (int at = 0; at < program_count; at++) {
		name_maps(&programs[at]);
		if (load_program(&programs[at]))
			fprintf(out, "accepted %s\n", programs[at].callback);
	}
}

static void take_program(const char *rest)
{
	struct program *program = &programs[program_count++];
	int length = 0;

	sscanf(rest, "%20s %d %d %d %n", program->callback, &program->member, &program->offset, &program->sleeps, &length);
	program->slots = from_hex(rest + length, &program->count);
}

static void take_line(const char *word, const char *rest)
{
	int type, key_size, offset, size, length = 0;
	unsigned long long number;

	if (!strcmp(word, "case")) {
		forget();
		fprintf(out, "case %s\n", rest);
	} else if (!strcmp(word, "ops")) {
		sscanf(rest, "%u %u %u", &value_type, &value_size, &ops_type);
	} else if (!strcmp(word, "map") && sscanf(rest, "%d %d %d %d", &type, &key_size, &offset, &size) == 4) {
		make_map(type, key_size, offset, size);
	} else if (!strcmp(word, "timers") && sscanf(rest, "%d", &size) == 1) {
		make_timers(size);
	} else if (!strcmp(word, "second") && sscanf(rest, "%d", &offset) == 1) {
		programs[program_count - 1].second = offset;
	} else if (!strcmp(word, "set") && sscanf(rest, "%d %d %llu", &offset, &size, &number) == 3) {
		memcpy(value + offset, &number, size);
	} else if (!strcmp(word, "name") && sscanf(rest, "%d %n", &offset, &length) == 1) {
		strcpy((char *)value + offset, rest + length);
	} else if (!strcmp(word, "program")) {
		take_program(rest);
	} else if (!strcmp(word, "group")) {
		sscanf(rest, "%d %d", &groups[group_count].parent, &groups[group_count].weight);
		group_count++;
	} else if (!strcmp(word, "task")) {
		struct task *task = &tasks[task_count++];

		sscanf(rest, "%20s %d %d %d %d %d %llu", task->name, &task->group, &task->nice, &task->start, &task->run, &task->sleep, &task->mask);
	} else if (!strcmp(word, "go") && sscanf(rest, "%d %d", &offset, &size) == 2) {
		go(offset, size);
	} else if (!strcmp(word, "load")) {
		load_all();
	}
}

static void set_up(void)
{
	struct sched_param first = { 50 };

	mount("devtmpfs", "/dev", "devtmpfs", 0, 0);
	mount("proc", "/proc", "proc", 0, 0);
	mount("sysfs", "/sys", "sysfs", 0, 0);
	mount("debugfs", "/sys/kernel/debug", "debugfs", 0, 0);
	mkdir("/cgroups", 0755);
	mount("cgroup2", "/cgroups", "cgroup2", 0, 0);
	write_file("/cgroups/cgroup.subtree_control", "+cpu");
	write_file("/proc/sys/kernel/sched_schedstats", "1");
	write_file("/proc/sys/vm/stat_interval", "3600");
	shared = mmap(0, 4096, PROT_READ | PROT_WRITE, MAP_SHARED | MAP_ANONYMOUS, -1, 0);
	out = fopen("/dev/ttyS1", "w");
	if (!out)
		out = stdout;
	sched_setscheduler(0, SCHED_FIFO | SCHED_RESET_ON_FORK, &first);
	keep_to(0, 1ull << own_cpu());
}

int main(void)
{
	char version[256];
	FILE *file;

	set_up();
	read_file("/proc/version", version, sizeof(version));
	version[strcspn(version, "(")] = 0;
	fprintf(out, "kernel %s\n", version);
	sleep(5);	/* the kernel's own late work of its start would count as turns */
	file = fopen("/cases", "r");
	while (file && fgets(line, sizeof(line), file)) {
		char word[24] = "";
		int length = 0;

		line[strcspn(line, "\n")] = 0;
		sscanf(line, "%20s %n", word, &length);
		take_line(word, line + length);
	}
	fprintf(out, "end\n");
	fclose(out);
	sync();
	usleep(100000);
	reboot(RB_POWER_OFF);
	for (;;)
		pause();
}
