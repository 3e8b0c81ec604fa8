/* haabuvilkd: a small xenstore daemon over the library. One thread; the store lives as long as the process. */
#include "connection.h"

#include <assert.h>
#include <errno.h>
#include <fcntl.h>
#include <poll.h>
#include <signal.h>
#include <stdarg.h>
#include <stdio.h>
#include <stdlib.h>
#include <string.h>
#include <sys/socket.h>
#include <sys/stat.h>
#include <sys/un.h>
#include <unistd.h>

/* Each socket has its share of the connections, so that no guest can keep others out. */
enum {
    GUESTS = 16,
    MAIN_SHARE = 32,
    GUEST_SHARE = 4,
    LISTENERS = 1 + GUESTS,
    CONNECTIONS = MAIN_SHARE + GUESTS * GUEST_SHARE,
    TOP_DOMAIN = 32751
};

static const char daemon_help[] =
    "usage: haabuvilkd --socket PATH [--guest N=PATH]... [--log]\n"
    "\n"
    "A xenstore daemon with an empty store on Unix sockets.\n"
    "\n"
    "  --socket PATH   connections here speak as domain 0\n"
    "  --guest N=PATH  connections here speak as domain N (1 to 32751), which domain 0 must have introduced;\n"
    "                  up to 16 of these\n"
    "  --log           write a line for each message to standard error, beside those for connections that are closed\n"
    "  --help          print this\n"
    "\n"
    "Up to 32 connections on the main socket and 4 on each guest's are served at a time; others wait.\n"
    "SIGINT and SIGTERM end it and remove the sockets. xenstore's own tools find it by XENSTORED_PATH=PATH.\n";

struct listener {
    int fd;
    uint32_t domain;
    const char *path;
    int open; /* connections */
};

static struct connection daemon_connections[CONNECTIONS];
static struct listener daemon_listeners[LISTENERS];
static int daemon_listener_count;
static unsigned daemon_connection_count;
static bool daemon_logging;
static const char daemon_gone[] = "it has gone";
static volatile sig_atomic_t daemon_stopping;

static void stop(int signal) {
    (void)signal;
    daemon_stopping = 1;
}

static void say(const char *format, ...) {
    va_list words;
    va_start(words, format);
    fputs("haabuvilkd: ", stderr);
    vfprintf(stderr, format, words);
    fputc('\n', stderr);
    va_end(words);
}

static const char *type_name(uint32_t type) {
    static const char *const names[] = {
        [1] = "DIRECTORY",      [2] = "READ",   [3] = "GET_PERMS", [4] = "WATCH",      [5] = "UNWATCH",
        [6] = "START",          [7] = "END",    [8] = "INTRODUCE", [9] = "RELEASE",    [10] = "GET_DOMAIN_PATH",
        [11] = "WRITE",         [12] = "MKDIR", [13] = "RM",       [14] = "SET_PERMS", [17] = "IS_DOMAIN_INTRODUCED",
        [21] = "RESET_WATCHES",
    };
    return type < sizeof names / sizeof *names && names[type] ? names[type] : "another type";
}

static void remove_sockets(void) {
    for (int i = 0; i < daemon_listener_count; i++)
        unlink(daemon_listeners[i].path);
}

/* Every watch that hears has been noted as some connection's. */
static void send_to(int who, const uint8_t *bytes, size_t length) {
    assert(who >= 0 && who < CONNECTIONS);
    connection_put(&daemon_connections[who], bytes, length);
}

static void log_call(const struct connection *c, const uint8_t *message) {
    bool error = core_le32(core_reply) == 16;
    say("connection %u, domain %u: %s, transaction %u: %s, bytes %u, events %u", c->number, c->domain,
        type_name(core_le32(message)), core_le32(core_reply + 8), error ? (const char *)core_reply + 16 : "done",
        core_reply_length - 16, core_event_count);
}

/* Hands one message to the store, and its reply and events to whom they belong. */
static void handle(struct connection *c, size_t size) {
    int who = (int)(c - daemon_connections);
    uint32_t number = core_call(who, c->domain, c->in, size);
    if (number == HAABUVILK_STRANGER) {
        c->closing = "its domain is not introduced";
    } else if (number == HAABUVILK_TOO_LONG) {
        c->closing = "its message is longer than 4096 bytes";
    } else if (number != HAABUVILK_HANDLED) {
        c->closing = "its message has no right frame";
    } else {
        if (daemon_logging)
            log_call(c, c->in);
        connection_put(c, core_reply, core_reply_length);
        core_deliver(send_to);
    }
    connection_take(c, size);
}

/* Handles what was gathered, as long as the connection takes the answers. */
static void serve(struct connection *c) {
    size_t size;
    connection_flush(c);
    while (!c->closing && connection_waiting(c) < OUT_ENOUGH && (size = connection_next(c)) > 0) {
        handle(c, size);
        connection_flush(c);
    }
    if (c->ended && !c->closing && connection_waiting(c) == 0)
        c->closing = daemon_gone;
}

static void close_connection(struct connection *c) {
    if (daemon_logging || c->closing != daemon_gone)
        say("connection %u of domain %u closed: %s", c->number, c->domain, c->closing);
    core_forget((int)(c - daemon_connections), c->domain);
    daemon_listeners[c->listener].open--;
    close(c->fd);
    free(c->out);
    *c = (struct connection){.fd = -1};
}

static bool has_room(int listener) {
    return daemon_listeners[listener].open < (listener == 0 ? MAIN_SHARE : GUEST_SHARE);
}

static void accept_one(int listener) {
    struct listener *from = &daemon_listeners[listener];
    int fd = accept4(from->fd, NULL, NULL, SOCK_NONBLOCK | SOCK_CLOEXEC), place = 0;
    if (fd < 0)
        return;
    while (place < CONNECTIONS && daemon_connections[place].fd >= 0)
        place++;
    assert(place < CONNECTIONS);
    daemon_connections[place] = (struct connection){
        .fd = fd, .listener = listener, .domain = from->domain, .number = ++daemon_connection_count};
    from->open++;
    if (daemon_logging)
        say("connection %u: domain %u", daemon_connection_count, from->domain);
}

/* Fills in what to poll for, listeners first; one whose share is used up waits. */
static void prepare(struct pollfd *polls) {
    for (int i = 0; i < daemon_listener_count; i++)
        polls[i] = (struct pollfd){.fd = has_room(i) ? daemon_listeners[i].fd : -1, .events = POLLIN};
    for (int i = 0; i < CONNECTIONS; i++) {
        const struct connection *c = &daemon_connections[i];
        bool hear = !c->ended && connection_waiting(c) < OUT_ENOUGH;
        polls[daemon_listener_count + i] = (struct pollfd){
            .fd = c->fd, .events = (short)((hear ? POLLIN : 0) | (connection_waiting(c) ? POLLOUT : 0))};
    }
}

static void serve_all(const struct pollfd *polls) {
    for (int i = 0; i < CONNECTIONS; i++) {
        struct connection *c = &daemon_connections[i];
        short ready = polls[i].revents;
        if (c->fd < 0 || !ready || c->closing)
            continue;
        if (ready & POLLIN)
            connection_gather(c);
        else if (ready & (POLLHUP | POLLERR))
            c->closing = daemon_gone;
        serve(c);
    }
}

/* What was put for others goes out, and connections that are to be closed are. */
static void settle_all(void) {
    for (int i = 0; i < CONNECTIONS; i++) {
        struct connection *c = &daemon_connections[i];
        if (c->fd >= 0 && !c->closing)
            connection_flush(c);
        if (c->fd >= 0 && c->closing)
            close_connection(c);
    }
}

static int run(const sigset_t *while_waiting) {
    struct pollfd polls[LISTENERS + CONNECTIONS];
    while (!daemon_stopping) {
        prepare(polls);
        int ready = ppoll(polls, (nfds_t)(daemon_listener_count + CONNECTIONS), NULL, while_waiting);
        if (ready < 0 && errno != EINTR) {
            say("poll: %s", strerror(errno));
            return 1;
        }
        if (ready <= 0)
            continue;
        serve_all(polls + daemon_listener_count);
        settle_all();
        for (int i = 0; i < daemon_listener_count; i++)
            if (polls[i].revents & POLLIN)
                accept_one(i);
    }
    return 0;
}

/* Whether nobody listens on a socket left by a process that is gone; then it is removed. */
static bool clear_old(const struct sockaddr_un *address) {
    struct stat found;
    if (lstat(address->sun_path, &found) < 0)
        return errno == ENOENT;
    if (!S_ISSOCK(found.st_mode))
        return false;
    int fd = socket(AF_UNIX, SOCK_STREAM | SOCK_CLOEXEC, 0);
    bool refused =
        fd >= 0 && connect(fd, (const struct sockaddr *)address, sizeof *address) < 0 && errno == ECONNREFUSED;
    if (fd >= 0)
        close(fd);
    return refused && unlink(address->sun_path) == 0;
}

static bool listen_on(const char *path, uint32_t domain) {
    struct sockaddr_un address = {.sun_family = AF_UNIX};
    if (daemon_listener_count == LISTENERS || !*path || strlen(path) >= sizeof address.sun_path) {
        say(daemon_listener_count == LISTENERS ? "more than 16 guests" : "%s: a socket's path has 1 to 107 bytes",
            path);
        return false;
    }
    strcpy(address.sun_path, path);
    if (!clear_old(&address)) {
        say("%s: there is a file or a running daemon there", path);
        return false;
    }
    int fd = socket(AF_UNIX, SOCK_STREAM | SOCK_NONBLOCK | SOCK_CLOEXEC, 0);
    if (fd < 0 || bind(fd, (const struct sockaddr *)&address, sizeof address) < 0) {
        say("%s: %s", path, strerror(errno));
        return false;
    }
    daemon_listeners[daemon_listener_count++] = (struct listener){.fd = fd, .domain = domain, .path = path};
    if (listen(fd, 16) < 0) {
        say("%s: %s", path, strerror(errno));
        return false;
    }
    return true;
}

/* `N=PATH`; null where it is not. */
static const char *guest_path(const char *text, uint32_t *domain) {
    char *end;
    errno = 0;
    unsigned long number = strtoul(text, &end, 10);
    if (*text < '1' || *text > '9' || *end != '=' || errno || number > TOP_DOMAIN)
        return NULL;
    *domain = (uint32_t)number;
    return end + 1;
}

static int usage(const char *what, const char *word) {
    fprintf(stderr, "haabuvilkd: %s%s (haabuvilkd --help says what there is)\n", what, word);
    return 2;
}

int main(int count, char **words) {
    const char *main_path = NULL, *guests[LISTENERS];
    uint32_t domains[LISTENERS];
    int guest_count = 0;
    for (int i = 1; i < count; i++) {
        bool more = i + 1 < count;
        if (strcmp(words[i], "--help") == 0)
            return fputs(daemon_help, stdout) < 0;
        if (strcmp(words[i], "--log") == 0) {
            daemon_logging = true;
        } else if (strcmp(words[i], "--socket") == 0 && more && !main_path) {
            main_path = words[++i];
        } else if (strcmp(words[i], "--guest") == 0 && more && guest_count < LISTENERS - 1) {
            guests[guest_count] = guest_path(words[++i], &domains[guest_count]);
            if (!guests[guest_count++])
                return usage("not N=PATH with a domain of 1 to 32751: ", words[i]);
        } else {
            return usage("not understood here: ", words[i]);
        }
    }
    if (!main_path)
        return usage("--socket PATH is missing", "");

    sigset_t stops, others;
    struct sigaction action = {.sa_handler = stop};
    sigemptyset(&stops);
    sigaddset(&stops, SIGINT);
    sigaddset(&stops, SIGTERM);
    sigprocmask(SIG_BLOCK, &stops, &others);
    sigaction(SIGINT, &action, NULL);
    sigaction(SIGTERM, &action, NULL);

    core_start();
    for (int i = 0; i < CONNECTIONS; i++)
        daemon_connections[i].fd = -1;
    umask(0177);
    atexit(remove_sockets);
    if (!listen_on(main_path, 0))
        return 1;
    for (int i = 0; i < guest_count; i++)
        if (!listen_on(guests[i], domains[i]))
            return 1;
    say("listening on %s", main_path);
    int status = run(&others);
    if (daemon_logging)
        say("stopping");
    return status;
}
