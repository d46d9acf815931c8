/*
 * Stands below libibumad, in an unmodified InfiniBand program, in place of the kernel's user MAD device:
 *     LD_PRELOAD=umad_shim.so LIVE_PORT=DIR PROGRAM ..
 * DIR is the folder that live/bridge.py makes for one port of the simulated fabric. What the program reads below
 * /sys/class/infiniband and /sys/class/infiniband_mad comes from DIR. /dev/infiniband/umad0 is a Unix socket to the bridge,
 * DIR/socket. The bridge first sends a packet that says that it is ready. Then a packet is one write or one read of the
 * device, laid out as the kernel does (struct ib_user_mad). An ioctl that registers an agent, or takes it back, is sent to
 * the bridge as a line of text behind four bytes 0xff.
 * Nothing else of the program is changed.
 */
#define _GNU_SOURCE
#include <dirent.h>
#include <dlfcn.h>
#include <errno.h>
#include <fcntl.h>
#include <poll.h>
#include <stdarg.h>
#include <stddef.h>
#include <stdint.h>
#include <stdio.h>
#include <stdlib.h>
#include <string.h>
#include <sys/ioctl.h>
#include <sys/socket.h>
#include <sys/un.h>
#include <unistd.h>

#define SYS_CLASS "/sys/class/"
#define DEVICE "/dev/infiniband/"
#define HEADER 64  /* of the kernel, before the MAD */
#define MAD 256
#define SHORTEST 36 /* the kernel takes no shorter MAD */
#define AGENTS 32
#define FILES 1024
#define OPENING 60000 /* milliseconds: at the SM port the fabric is brought up first */

/* The two forms of a registration, and its ioctls (rdma/ib_user_mad.h). */
struct request {
    uint32_t id;
    uint32_t methods[4];
    uint8_t qp, class, version, oui[3], rmpp;
};
struct request2 {
    uint32_t id, qp;
    uint8_t class, version;
    uint16_t reserved;
    uint32_t flags;
    uint64_t methods[2];
    uint32_t oui;
    uint8_t rmpp, reserved2[3];
};
#define REGISTER _IOWR(0x1b, 1, struct request)
#define UNREGISTER _IOW(0x1b, 2, uint32_t)
#define ENABLE_PKEY _IO(0x1b, 3)
#define REGISTER2 _IOWR(0x1b, 4, struct request2)
#define USER_RMPP 1 /* the only flag of request2 */

/* Of each open device the agents that are registered, by bits; `is_device` says which files are devices. */
static uint8_t is_device[FILES];
static uint32_t agents[FILES];

#define REAL(name) ((__typeof__(&name))dlsym(RTLD_NEXT, #name))

static int is_open(int fd) { return fd >= 0 && fd < FILES && is_device[fd]; }

static int fail(int error) {
    errno = error;
    return -1;
}

/* The file of the port's folder that takes the place of this one; the same file if none does. */
static const char *mapped(const char *path, char *buffer, size_t size) {
    const char *port = getenv("LIVE_PORT");
    size_t length = strlen(SYS_CLASS "infiniband");
    if (!port || !path || strncmp(path, SYS_CLASS "infiniband", length) != 0) return path;
    if (snprintf(buffer, size, "%s/%s", port, path + strlen(SYS_CLASS)) >= (int)size) return path;
    return buffer;
}

static int open_device(const char *name, int flags) {
    const char *port = getenv("LIVE_PORT");
    struct sockaddr_un address = {.sun_family = AF_UNIX};
    char welcome;
    int fd;
    if (strcmp(name, "umad0") != 0) return fail(ENOENT);
    if (snprintf(address.sun_path, sizeof address.sun_path, "%s/socket", port) >= (int)sizeof address.sun_path) return fail(ENAMETOOLONG);
    fd = socket(AF_UNIX, SOCK_SEQPACKET | SOCK_CLOEXEC | (flags & O_NONBLOCK ? SOCK_NONBLOCK : 0), 0);
    if (fd < 0) return -1;
    if (fd >= FILES || connect(fd, (struct sockaddr *)&address, sizeof address) < 0) {
        int error = fd >= FILES ? EMFILE : errno;
        fprintf(stderr, "live: the bridge does not answer at %s: %s\n", address.sun_path, strerror(error));
        REAL(close)(fd);
        return fail(error);
    }
    if (poll(&(struct pollfd){.fd = fd, .events = POLLIN}, 1, OPENING) != 1 || recv(fd, &welcome, 1, 0) <= 0) {
        fprintf(stderr, "live: the bridge does not answer at %s\n", address.sun_path);
        REAL(close)(fd);
        return fail(ENODEV);
    }
    is_device[fd] = 1;
    agents[fd] = 0;
    return fd;
}

static int opened(const char *path, int flags, mode_t mode) {
    char buffer[4096];
    if (getenv("LIVE_PORT") && path && strncmp(path, DEVICE, strlen(DEVICE)) == 0) return open_device(path + strlen(DEVICE), flags);
    return REAL(open)(mapped(path, buffer, sizeof buffer), flags, mode);
}

static mode_t mode_of(int flags, va_list rest) { return flags & (O_CREAT | __O_TMPFILE) ? va_arg(rest, mode_t) : 0; }

int open(const char *path, int flags, ...) {
    va_list rest;
    va_start(rest, flags);
    mode_t mode = mode_of(flags, rest);
    va_end(rest);
    return opened(path, flags, mode);
}

int open64(const char *path, int flags, ...) {
    va_list rest;
    va_start(rest, flags);
    mode_t mode = mode_of(flags, rest);
    va_end(rest);
    return opened(path, flags | O_LARGEFILE, mode);
}

DIR *opendir(const char *path) {
    char buffer[4096];
    return REAL(opendir)(mapped(path, buffer, sizeof buffer));
}

int scandir(const char *path, struct dirent ***found, int (*filter)(const struct dirent *),
            int (*order)(const struct dirent **, const struct dirent **)) {
    char buffer[4096];
    return REAL(scandir)(mapped(path, buffer, sizeof buffer), found, filter, order);
}

/* Sends to the bridge. One that is gone is a device that is gone, not a signal. */
static ssize_t put(int fd, const void *bytes, size_t count) {
    ssize_t sent = send(fd, bytes, count, MSG_NOSIGNAL);
    return sent < 0 && (errno == EPIPE || errno == ECONNRESET) ? fail(EIO) : sent;
}

ssize_t write(int fd, const void *bytes, size_t count) {
    uint32_t id;
    if (!is_open(fd)) return REAL(write)(fd, bytes, count);
    if (count < HEADER + SHORTEST) return fail(EINVAL);
    memcpy(&id, bytes, sizeof id);
    if (id >= AGENTS || !(agents[fd] & (1u << id))) return fail(EIO);
    return put(fd, bytes, count);
}

/* One packet. If it does not fit, the first segment alone is read, and the packet stays: its header has the length. */
ssize_t read(int fd, void *bytes, size_t count) {
    ssize_t length;
    char none;
    if (!is_open(fd)) return REAL(read)(fd, bytes, count);
    length = recv(fd, &none, 0, MSG_PEEK | MSG_TRUNC);
    if (length < 0) return errno == ECONNRESET ? fail(EIO) : length;
    if (length == 0) return fail(EIO);
    if ((size_t)length <= count) return recv(fd, bytes, count, 0);
    if (count < HEADER + MAD) return fail(EINVAL);
    if (recv(fd, bytes, HEADER + MAD, MSG_PEEK) < 0) return -1;
    return fail(ENOSPC);
}

/* Registers an agent under the least free number, which it returns. */
static int registered(int fd, const struct request2 *wanted) {
    char line[200] = "\377\377\377\377";
    uint32_t id = 0;
    if (wanted->qp > 1) return fail(EINVAL);
    while (id < AGENTS && agents[fd] & (1u << id)) id++;
    if (id == AGENTS) return fail(ENOMEM);
    snprintf(line + 4, sizeof line - 4, "register %u %u %u %u %u %u %06x %016llx%016llx", id, wanted->qp, wanted->class,
             wanted->version, wanted->rmpp, wanted->flags & USER_RMPP, wanted->oui & 0xffffff,
             (unsigned long long)wanted->methods[1], (unsigned long long)wanted->methods[0]);
    if (put(fd, line, 4 + strlen(line + 4)) < 0) return -1;
    agents[fd] |= 1u << id;
    return (int)id;
}

static int register_old(int fd, struct request *given) {
    struct request2 wanted = {.qp = given->qp, .class = given->class, .version = given->version, .rmpp = given->rmpp};
    wanted.oui = given->oui[0] << 16 | given->oui[1] << 8 | given->oui[2];
    memcpy(wanted.methods, given->methods, sizeof wanted.methods);
    int id = registered(fd, &wanted);
    if (id < 0) return -1;
    given->id = id;
    return 0;
}

static int register_new(int fd, struct request2 *given) {
    if (given->flags & ~USER_RMPP) {
        given->flags = USER_RMPP;
        return fail(EINVAL);
    }
    int id = registered(fd, given);
    if (id < 0) return -1;
    given->id = id;
    return 0;
}

static int unregister(int fd, uint32_t id) {
    char line[40] = "\377\377\377\377";
    if (id >= AGENTS || !(agents[fd] & (1u << id))) return fail(EINVAL);
    agents[fd] &= ~(1u << id);
    snprintf(line + 4, sizeof line - 4, "unregister %u", id);
    return put(fd, line, 4 + strlen(line + 4)) < 0 ? -1 : 0;
}

int ioctl(int fd, unsigned long request, ...) {
    va_list rest;
    va_start(rest, request);
    void *argument = va_arg(rest, void *);
    va_end(rest);
    if (!is_open(fd)) return REAL(ioctl)(fd, request, argument);
    switch (request) {
    case REGISTER: return register_old(fd, argument);
    case REGISTER2: return register_new(fd, argument);
    case UNREGISTER: return unregister(fd, *(uint32_t *)argument);
    case ENABLE_PKEY: return 0;
    default: return fail(EINVAL);
    }
}

int close(int fd) {
    if (is_open(fd)) is_device[fd] = 0;
    return REAL(close)(fd);
}
