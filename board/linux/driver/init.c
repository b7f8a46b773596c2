/* SPDX-License-Identifier: MIT OR Apache-2.0 */
/* The first process of Linux: it loads Linux's own arm_ffa with its drivers of Trusted Services, which it uses, and of OP-TEE,
 * and the driver of this folder, whose probe does its work. Then it unloads all, loads arm_ffa once more, and turns the board
 * off. What isn't in its file system it goes without: 6.1 has no driver of Trusted Services, and of Debian's kernels no more is
 * wanted than that they come so far. The kernel's own nolibc is all that it has. */
#include <linux/sysinfo.h>
#include <linux/tee.h>
#include <stdbool.h>

#define PAGE_BYTES 65536 /* of the kernel with the greatest pages */
#define WORDS "ffa_try." /* what begins so in the kernel's command line is for the driver */

static void say(const char *what, const char *name, long result) {
    const char *end = result < 0 ? " FAILED\n" : "\n";
    write(1, "init: ", 6);
    write(1, what, strlen(what));
    write(1, name, strlen(name));
    write(1, end, strlen(end));
}

/* Whether a module is there and was loaded. */
static bool load(const char *path, const char *arguments) {
    long result;
    int file = open(path, O_RDONLY);
    if (file < 0) {
        say("goes without ", path, 0);
        return false;
    }
    result = syscall(__NR_finit_module, file, arguments, 0);
    say("loads ", path, result);
    close(file);
    return result == 0;
}

static void unload(const char *name) { say("unloads ", name, syscall(__NR_delete_module, name, 0)); }

/* The driver's words of the kernel's command line: `ffa_try.seed=2` is `seed=2`. */
static const char *arguments_of_driver(void) {
    static char line[4096], words[4096];
    char *at, *end, *to = words;
    int file = open("/proc/cmdline", O_RDONLY);
    if (file < 0 || read(file, line, sizeof line - 1) < 0) say("reads ", "/proc/cmdline", -1);
    close(file);
    for (at = line; *at != '\0'; at = *end == '\0' ? end : end + 1) {
        for (end = at; *end > ' '; end++) continue;
        if (strncmp(at, WORDS, strlen(WORDS)) != 0) continue;
        at += strlen(WORDS);
        memcpy(to, at, end - at);
        to += end - at;
        *to++ = ' ';
    }
    return words;
}

/* A place that the driver's words name, or else this one. */
static off_t place_of(const char *name, off_t otherwise) {
    const char *at = arguments_of_driver();
    while (*at != '\0' && strncmp(at, name, strlen(name)) != 0) at++;
    return *at == '\0' ? otherwise : (off_t)strtoul(at + strlen(name), NULL, 16);
}

static void tell_memory(void) {
    struct sysinfo info;
    long result = syscall(__NR_sysinfo, &info);
    say("has free memory, KiB: ", result < 0 ? "" : u64toa(info.freeram * info.mem_unit / 1024), result);
}

static long pass(int service, unsigned long request, void *of, unsigned long size) {
    struct tee_ioctl_buf_data data = {(unsigned long)of, size};
    return ioctl(service, request, &data);
}

/* A session's request to turn what stands in memory into capitals. */
static void invoke(int service, const struct tee_ioctl_shm_alloc_data *shared, unsigned long bytes) {
    struct tee_ioctl_open_session_arg session = {.uuid = {1}};
    struct {
        struct tee_ioctl_invoke_arg head;
        struct tee_ioctl_param parameter;
    } invoke = {.head = {.func = 1, .num_params = 1}, .parameter = {.attr = TEE_IOCTL_PARAM_ATTR_TYPE_VALUE_INOUT}};
    say("opens ", "a session", pass(service, TEE_IOC_OPEN_SESSION, &session, sizeof session));
    invoke.head.session = session.session;
    invoke.parameter.a = shared->id;
    invoke.parameter.b = bytes;
    say("invokes ", "the service", pass(service, TEE_IOC_INVOKE, &invoke, sizeof invoke));
}

/* Memory that Linux's driver shares with the partition, in which this process reads what the partition wrote. */
static void use_service(void) {
    static const char text[] = "a text that a process of linux shares with a partition";
    struct tee_ioctl_shm_alloc_data shared = {.size = 2 * 4096};
    int service = open("/dev/tee0", O_RDWR), memory;
    char *at;
    say("opens ", "the service", service);
    memory = ioctl(service, TEE_IOC_SHM_ALLOC, &shared);
    say("has memory ", "that is shared", memory);
    at = mmap(NULL, shared.size, PROT_READ | PROT_WRITE, MAP_SHARED, memory, 0);
    if (at == MAP_FAILED) {
        say("maps ", "it", -1);
        return;
    }
    memcpy(at, text, sizeof text);
    invoke(service, &shared, sizeof text);
    say("finds: ", at, 0);
    munmap(at, shared.size);
    close(memory);
    close(service);
}

/* A process that loads from where Linux may not, by /dev/mem, ends by SIGBUS, and nothing else does. */
static void reach(const char *what, off_t at) {
    int status = 0, child = fork();
    if (child == 0) {
        int memory = open("/dev/mem", O_RDONLY);
        volatile char *page = mmap(NULL, PAGE_BYTES, PROT_READ, MAP_SHARED, memory, at);
        exit(page == MAP_FAILED ? 2 : *page == 0);
    }
    waitpid(child, &status, 0);
    say("a process that reaches for ", what, WIFSIGNALED(status) && WTERMSIG(status) == SIGBUS ? 0 : -1);
}

/* All that works with partitions. */
static void use_partitions(bool has_core) {
    bool has_tee = load("/tee.ko", ""), has_services = load("/arm-tstee.ko", "");
    if (has_services) use_service();
    reach("a partition's page has SIGBUS", place_of("partition_at=", 0x43E00000));
    reach("a table of the core has SIGBUS", place_of("table_at=", 0x40000000));
    load("/optee.ko", "");
    load("/ffa_try.ko", arguments_of_driver());
    unload("ffa_try");
    unload("optee");
    if (has_services) unload("arm_tstee");
    if (has_tee) unload("tee");
    unload("ffa_module");
    load("/ffa-module.ko", "");
    unload("ffa_module");
    if (has_core) unload("ffa_core");
}

int main(void) {
    bool has_core;
    say("is there", "", 0);
    say("mounts ", "/dev", mount("dev", "/dev", "devtmpfs", 0, NULL));
    say("mounts ", "/proc", mount("proc", "/proc", "proc", 0, NULL));
    tell_memory();
    has_core = load("/ffa-core.ko", "");
    if (load("/ffa-module.ko", "")) use_partitions(has_core);
    tell_memory();
    say("turns the board off", "", 0);
    reboot(LINUX_REBOOT_CMD_POWER_OFF);
    return 1;
}
