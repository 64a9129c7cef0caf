/* Hands the memory of a monitor over. */
#include "handing.h"

#include <errno.h>
#include <inttypes.h>
#include <poll.h>
#include <stdio.h>
#include <string.h>
#include <unistd.h>

#include "kernel.h"
#include "live.h"

#define MOST_TEXT 8192u
#define NANOSECONDS 1000000000u

int handing_connect(const struct address *address, uint32_t patience)
{
    uint64_t limit = kernel_now() + patience * (uint64_t)NANOSECONDS;
    int error = 0;

    while (kernel_now() < limit) {
        int file = socket(AF_UNIX, SOCK_STREAM | SOCK_CLOEXEC, 0);

        if (file < 0)
            refuse_errno(errno, "a socket");
        if (!connect(file, (const struct sockaddr *)&address->name, address->length))
            return file;
        error = errno;
        (void)close(file);      /* nothing was written */
        (void)poll(NULL, 0, 2); /* a shorter sleep is as good */
    }
    lose("no handler at %s for %" PRIu32 " s: %s (%s)", address->text, patience, strerrorname_np(error),
         strerror(error));
}

static size_t write_list(char *text, const struct handed_range *ranges, uint32_t count)
{
    static const char form[] =
        "%c{\"base_host_virt_addr\":%" PRIu64 ",\"size\":%" PRIu64 ",\"offset\":%" PRIu64 ",\"page_size\":%u}";
    size_t length = 0;

    for (uint32_t i = 0; i < count; i++)
        length += (size_t)snprintf(text + length, MOST_TEXT - length, form, i ? ',' : '[', ranges[i].at,
                                   ranges[i].bytes, ranges[i].offset, PAGE_BYTES); /* all of it fits */
    text[length++] = ']';
    return length;
}

void handing_give(int handler, int userfault, const struct handed_range *ranges, uint32_t count)
{
    static char text[MOST_TEXT];
    union {
        struct cmsghdr header;
        char bytes[CMSG_SPACE(sizeof(int))];
    } control = { 0 };
    struct iovec part = { text, 0 };
    struct msghdr message = {
        .msg_iov = &part, .msg_iovlen = 1, .msg_control = &control, .msg_controllen = sizeof control
    };

    if (!count || count > MOST_HANDED)
        refuse("a monitor hands over 1 to %u ranges", MOST_HANDED);
    part.iov_len = write_list(text, ranges, count);
    control.header =
        (struct cmsghdr){ .cmsg_level = SOL_SOCKET, .cmsg_type = SCM_RIGHTS, .cmsg_len = CMSG_LEN(sizeof userfault) };
    memcpy(CMSG_DATA(&control.header), &userfault, sizeof userfault);
    if (sendmsg(handler, &message, MSG_NOSIGNAL) != (ssize_t)part.iov_len)
        refuse_errno(errno, "the memory cannot be handed over");
}

void handing_say(int handler, char what)
{
    (void)send(handler, &what, 1, MSG_NOSIGNAL);
}

void handing_hear(int handler, char wanted, const char *otherwise)
{
    char what = 0;
    ssize_t got;

    do
        got = recv(handler, &what, 1, 0);
    while (got < 0 && errno == EINTR);
    if (got == 1 && what != wanted && wanted)
        lose("the handler says 0x%02x, and not `%c`", (unsigned char)what, wanted);
    if (got < 0 || what != wanted)
        lose("%s", otherwise);
}
