// The userfaultfd: how it is opened, its messages, and its ioctls.
#include "host.h"

#include "../../audit/programs/newer.h"
#include <errno.h>
#include <fcntl.h>
#include <poll.h>
#include <string.h>
#include <sys/ioctl.h>
#include <sys/socket.h>
#include <sys/syscall.h>
#include <sys/un.h>
#include <unistd.h>

#define FLAGS (O_CLOEXEC | O_NONBLOCK)

static int fd = -1;

int userfault_fd(void)
{
    return fd;
}

int is_readable(void)
{
    struct pollfd file = { fd, POLLIN, 0 };
    return fd >= 0 && poll(&file, 1, 0) > 0 && file.revents & POLLIN;
}

// By the system call, by the device, or for faults in user mode alone, which needs no privilege and is enough here.
static int new_userfault(void)
{
    int made = syscall(SYS_userfaultfd, FLAGS), device;
    if (made >= 0)
        return made;
    device = open("/dev/userfaultfd", O_RDWR | O_CLOEXEC);
    if (device >= 0) {
        made = ioctl(device, USERFAULTFD_IOC_NEW, FLAGS);
        close(device);
    }
    return made >= 0 ? made : syscall(SYS_userfaultfd, FLAGS | UFFD_USER_MODE_ONLY);
}

void open_userfault(uint64_t features)
{
    struct uffdio_api api = { UFFD_API, features, 0 };
    if (fd >= 0)
        close(fd);
    fd = new_userfault();
    answer_result(fd < 0 ? -1 : ioctl(fd, UFFDIO_API, &api));
}

void answer_message(void)
{
    struct uffd_msg message;
    ssize_t length = read(fd, &message, sizeof message);
    if (length < 0 && errno == EAGAIN) {
        answer("none");
        return;
    }
    if (length != sizeof message) {
        answer_result(-1);
        return;
    }
    switch (message.event) {
    case UFFD_EVENT_PAGEFAULT:
        answer("fault 0x%llx %llu %u", message.arg.pagefault.address, message.arg.pagefault.flags,
               message.arg.pagefault.feat.ptid);
        break;
    case UFFD_EVENT_REMAP:
        answer("remap 0x%llx 0x%llx %llu", message.arg.remap.from, message.arg.remap.to, message.arg.remap.len);
        break;
    case UFFD_EVENT_REMOVE:
        answer("remove 0x%llx 0x%llx", message.arg.remove.start, message.arg.remove.end);
        break;
    case UFFD_EVENT_UNMAP:
        answer("unmap 0x%llx 0x%llx", message.arg.remove.start, message.arg.remove.end);
        break;
    default:
        answer("event 0x%x", message.event);
    }
}

static int send_descriptor(int peer)
{
    union {
        struct cmsghdr header;
        char room[CMSG_SPACE(sizeof(int))];
    } control = { .header = { .cmsg_len = CMSG_LEN(sizeof fd), .cmsg_level = SOL_SOCKET, .cmsg_type = SCM_RIGHTS } };
    char byte = 0;
    struct iovec part = { &byte, 1 };
    struct msghdr message = {
        .msg_iov = &part, .msg_iovlen = 1, .msg_control = &control, .msg_controllen = sizeof control
    };
    memcpy(CMSG_DATA(&control.header), &fd, sizeof fd);
    return sendmsg(peer, &message, MSG_NOSIGNAL) == 1 ? 0 : -1;
}

// Gives the descriptor to a program that listens at a Unix socket.
void lend_userfault(const char *path)
{
    struct sockaddr_un address = { .sun_family = AF_UNIX };
    int peer = socket(AF_UNIX, SOCK_STREAM | SOCK_CLOEXEC, 0), result;
    strncpy(address.sun_path, path, sizeof address.sun_path - 1);
    result = connect(peer, (struct sockaddr *)&address, sizeof address);
    answer_result(result ? result : send_descriptor(peer));
    close(peer);
}

static int digit(char c)
{
    return c <= '9' ? c - '0' : (c | 32) - 'a' + 10;
}

void answer_copy(uint64_t addr, uint64_t mode, const char *bytes)
{
    static char page[PAGE] __attribute__((aligned(4096)));
    struct uffdio_copy copy = { addr, (uint64_t)(uintptr_t)page, PAGE, mode, 0 };
    if (strlen(bytes) != 2 * PAGE) {
        answer("what");
        return;
    }
    for (uint64_t i = 0; i < PAGE; i++)
        page[i] = digit(bytes[2 * i]) << 4 | digit(bytes[2 * i + 1]);
    answer_result(ioctl(fd, UFFDIO_COPY, &copy));
}

void answer_move(uint64_t to, uint64_t from, uint64_t length, uint64_t mode)
{
    struct uffdio_move move = { to, from, length, mode, 0 };
    answer_result(ioctl(fd, UFFDIO_MOVE, &move));
}

void answer_range_call(const char *name, uint64_t addr, uint64_t length, uint64_t mode)
{
    struct uffdio_range range = { addr, length };
    if (!strcmp(name, "register")) {
        struct uffdio_register call = { range, mode, 0 };
        answer_result(ioctl(fd, UFFDIO_REGISTER, &call));
    } else if (!strcmp(name, "writeprotect")) {
        struct uffdio_writeprotect call = { range, mode };
        answer_result(ioctl(fd, UFFDIO_WRITEPROTECT, &call));
    } else if (!strcmp(name, "zeropage")) {
        struct uffdio_zeropage call = { range, mode, 0 };
        answer_result(ioctl(fd, UFFDIO_ZEROPAGE, &call));
    } else if (!strcmp(name, "continue")) {
        struct uffdio_continue call = { range, mode, 0 };
        answer_result(ioctl(fd, UFFDIO_CONTINUE, &call));
    } else if (!strcmp(name, "poison")) {
        struct uffdio_poison call = { range, mode, 0 };
        answer_result(ioctl(fd, UFFDIO_POISON, &call));
    } else if (!strcmp(name, "unregister")) {
        answer_result(ioctl(fd, UFFDIO_UNREGISTER, &range));
    } else {
        answer_result(ioctl(fd, UFFDIO_WAKE, &range));
    }
}
