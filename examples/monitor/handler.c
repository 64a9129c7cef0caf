/* A page-fault handler in Firecracker's form, which is the destination of a migration. A monitor hands over its
   userfaultfd and its memory at a Unix socket; the frames of a source come at the standard input. Once all pages
   are there the memory is left to the kernel, and the handler ends.

       handler unix:PATH PAGES PROCESSORS */
#include <errno.h>
#include <liblive.h>
#include <poll.h>
#include <signal.h>
#include <stdlib.h>
#include <string.h>

static struct handed monitor; /* its descriptor, its memory, and the copies that are kept of its pages */
static struct node node;
static struct watch watch; /* its faults and events, for the node */
static struct guest guest; /* (of this only how many pages and processors it has) */
static struct stream channel;
static bool has_run, has_ended;

/* A copy that comes before the guest runs. (Nothing can be written to the monitor's memory but by UFFDIO_COPY,
   which puts no page twice.) */
static void keep(uint64_t first, const struct frame *frame)
{
    uint64_t count = frame->page_bytes ? frame->page_bytes / PAGE_BYTES : 1, page = first - LOW_PAGE;

    if (page + count > monitor.pages)
        refuse("page 0x%llx is not the monitor's", (unsigned long long)first);
    if (frame->page_bytes)
        memcpy(monitor.copies + page * PAGE_BYTES, frame->pages, frame->page_bytes);
    else
        memset(monitor.copies + page * PAGE_BYTES, 0, PAGE_BYTES);
    handed_keep(&monitor, page, count);
}

/* The node has the Package. Only what it calls present is a copy that still counts: a Discard has taken others
   away. */
static void run_guest(void)
{
    uint32_t end = LOW_PAGE + monitor.pages;
    postmig_pages run;

    for (uint32_t first = LOW_PAGE; first < end; first += run.count) {
        node_expect(postmig_destination_pages(&node.handle, first, &run), "postmig_destination_pages");
        if (run.state == POSTMIG_PAGE_UNMAPPED || run.count > end - first)
            refuse("the source's memory is not the monitor's");
        if (run.state != POSTMIG_PAGE_PRESENT)
            handed_forget(&monitor, first - LOW_PAGE, run.count);
    }
    watch_take_over(&watch);
    handed_say(&monitor, HANDED_RUN);
    has_run = true;
}

/* A page that comes since: first the node says where it goes, then the kernel puts it, then the node makes the
   step. */
static void install(const struct frame *frame)
{
    postmig_effect next;
    int error;

    do {
        node_expect(postmig_destination_next_install(&node.handle, &next), "postmig_destination_next_install");
        if (next.kind == POSTMIG_DID_DROP)
            break;
        error = frame->page_bytes ? kernel_copy(watch.userfault, watch_page(&watch, next.addr), frame->pages)
                                  : kernel_zero(watch.userfault, watch_page(&watch, next.addr));
        if (error == EAGAIN)
            watch_again(&watch); /* the guest gives pages back: that is read first */
        else if (error)
            watch_unexpected(error, "UFFDIO_COPY", next.addr);
    } while (error);
    node_expect(postmig_destination_install(&node.handle, &next), "postmig_destination_install");
    if (next.kind == POSTMIG_DID_INSTALL)
        watch_wake(&watch, next.addr);
}

static void take(const struct frame *frame)
{
    postmig_effect effect;

    node_expect(postmig_destination_take(&node.handle, frame->head, frame->head_bytes, &effect),
                "a frame of the source");
    has_ended |= effect.kind == POSTMIG_DID_TAKE_END;
    if (effect.kind == POSTMIG_DID_TAKE_PACKAGE)
        run_guest();
    /* (of a Page the effect is that of a Zero) */
    else if (effect.kind != POSTMIG_DID_TAKE_ZERO && effect.kind != POSTMIG_DID_TAKE_RUN)
        return;
    else if (has_run)
        install(frame);
    else
        keep(effect.addr / PAGE_BYTES, frame);
}

/* What has arrived is taken, and what the node wants to send is sent. */
static void exchange(void)
{
    struct frame frame;
    size_t missing = 0;
    bool is_whole;

    (void)node_front(&channel, &frame, &missing); /* how much it lacks is what counts */
    is_whole = stream_receive(&channel, missing);
    while (node_front(&channel, &frame, &missing)) {
        take(&frame);
        stream_take(&channel, frame.head_bytes + frame.page_bytes);
    }
    (void)node_send_frames(&node, &channel); /* the count is not needed */
    if ((!is_whole || !stream_send(&channel)) && !has_ended)
        lose("the source has ended");
}

int main(int count, char **words)
{
    struct address address;
    struct hello own;

    if (count != 4)
        refuse("use: handler unix:PATH PAGES PROCESSORS");
    (void)signal(SIGPIPE, SIG_IGN); /* it always succeeds */
    stream_open(&channel, feed_channel(), NULL, &(struct cut)NO_CUT);
    address_read(&address, words[1]);
    guest.plan = (struct guest_plan){ .pages = (uint32_t)strtoul(words[2], NULL, 10),
                                      .threads = (uint32_t)strtoul(words[3], NULL, 10) };
    node_expect(postmig_destination_new((uint8_t)guest.plan.threads, &node.handle), "postmig_destination_new");
    handed_accept(&monitor, &address, guest.plan.pages);
    greet_begin(&own, guest.plan.pages, guest.plan.threads);
    greet_source(&channel, &own);
    watch_open(&watch, &node, &guest, &monitor);
    watch_keep_times(&watch);
    while (!has_ended || stream_unsent(&channel)) {
        struct pollfd files[] = { { .fd = channel.file, .events = stream_unsent(&channel) ? POLLIN | POLLOUT : POLLIN },
                                  { .fd = has_run ? watch.userfault : -1, .events = POLLIN } };

        /* what is there is looked at in any case */
        (void)poll(files, 2, watch.is_behind || monitor.kept_pages ? 0 : 100);
        if (has_run)
            watch_handle(&watch);
        exchange();
        if (has_run)
            (void)watch_install_kept(&watch, 16);
    }
    while (watch_install_kept(&watch, 16))
        watch_handle(&watch);
    handed_leave(&monitor, NULL);
    return STATUS_OK;
}
