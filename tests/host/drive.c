/* Drives haabuvilkd over its sockets: drive DAEMON FOLDER, where FOLDER is empty. Prints each failure and a last line.
 */
#include <errno.h>
#include <fcntl.h>
#include <poll.h>
#include <signal.h>
#include <stdbool.h>
#include <stdint.h>
#include <stdio.h>
#include <stdlib.h>
#include <string.h>
#include <sys/socket.h>
#include <sys/stat.h>
#include <sys/un.h>
#include <sys/wait.h>
#include <unistd.h>

enum {
    DIRECTORY = 1,
    READ = 2,
    WATCH = 4,
    UNWATCH = 5,
    START = 6,
    END = 7,
    INTRODUCE = 8,
    RELEASE = 9,
    WRITE = 11,
    MKDIR = 12,
    RM = 13,
    SET_PERMS = 14,
    EVENT = 15,
    ERROR = 16
};

static const char *drive_daemon_path;
static char drive_main_socket[90], drive_guest_socket[90], drive_log_file[90];
static pid_t drive_daemon_pid;
static int drive_checks, drive_failures;

#define CHECK(condition) check((condition), #condition, __LINE__)

static void check(bool holds, const char *what, int line) {
    drive_checks++;
    if (!holds) {
        drive_failures++;
        printf("host: line %d: not so: %s\n", line, what);
    }
}

static int connect_to(const char *path) {
    struct sockaddr_un address = {.sun_family = AF_UNIX};
    snprintf(address.sun_path, sizeof address.sun_path, "%s", path);
    for (int tries = 0; tries < 500; tries++) {
        int fd = socket(AF_UNIX, SOCK_STREAM, 0);
        if (connect(fd, (struct sockaddr *)&address, sizeof address) == 0)
            return fd;
        close(fd);
        usleep(10000);
    }
    printf("host: cannot connect to %s\n", path);
    exit(1);
}

static void start_daemon(void) {
    drive_daemon_pid = fork();
    if (drive_daemon_pid == 0) {
        char guest[100];
        snprintf(guest, sizeof guest, "3=%s", drive_guest_socket);
        int log = open(drive_log_file, O_WRONLY | O_CREAT | O_TRUNC, 0600);
        dup2(log, 2);
        execl(drive_daemon_path, drive_daemon_path, "--socket", drive_main_socket, "--guest", guest, "--log",
              (char *)NULL);
        _exit(127);
    }
}

static int stop_daemon(int signal) {
    int status;
    kill(drive_daemon_pid, signal);
    waitpid(drive_daemon_pid, &status, 0);
    return status;
}

/* The exit status of the daemon with other arguments. */
static int run_daemon(const char *first, const char *second, const char *third, const char *fourth) {
    int status;
    pid_t child = fork();
    if (child == 0) {
        int null = open("/dev/null", O_WRONLY);
        dup2(null, 1);
        dup2(null, 2);
        execl(drive_daemon_path, drive_daemon_path, first, second, third, fourth, (char *)NULL);
        _exit(127);
    }
    waitpid(child, &status, 0);
    return WIFEXITED(status) ? WEXITSTATUS(status) : -1;
}

static bool logged(const char *words) {
    static char text[1 << 24];
    FILE *file = fopen(drive_log_file, "r");
    size_t length = file ? fread(text, 1, sizeof text - 1, file) : 0;
    text[length] = 0;
    if (file)
        fclose(file);
    return strstr(text, words) != NULL;
}

static bool send_all(int fd, const void *bytes, size_t length) {
    return send(fd, bytes, length, MSG_NOSIGNAL) == (ssize_t)length;
}

/* A message; `|` in the text stands for a nul. */
static size_t build(uint8_t *message, uint32_t type, uint32_t req, uint32_t tx, const char *text) {
    uint32_t header[4] = {type, req, tx, (uint32_t)strlen(text)};
    memcpy(message, header, 16);
    for (size_t i = 0; i < header[3]; i++)
        message[16 + i] = text[i] == '|' ? 0 : (uint8_t)text[i];
    return 16 + header[3];
}

static void post(int fd, uint32_t type, uint32_t req, uint32_t tx, const char *text) {
    uint8_t message[5000];
    CHECK(send_all(fd, message, build(message, type, req, tx, text)));
}

struct message {
    uint32_t type, req, tx, length;
    char text[4097];
};

/* The next message, or type 0 at the end of the connection or after two seconds without one. */
static struct message receive(int fd) {
    struct message m = {0};
    struct pollfd poll_fd = {.fd = fd, .events = POLLIN};
    if (poll(&poll_fd, 1, 2000) != 1 || recv(fd, &m, 16, MSG_WAITALL) != 16)
        return (struct message){0};
    if (m.length > 4096 || (m.length && recv(fd, m.text, m.length, MSG_WAITALL) != (ssize_t)m.length))
        return (struct message){0};
    for (uint32_t i = 0; i < m.length; i++)
        if (!m.text[i])
            m.text[i] = '|';
    return m;
}

static bool silent(int fd) {
    struct pollfd poll_fd = {.fd = fd, .events = POLLIN};
    return poll(&poll_fd, 1, 50) == 0;
}

static bool closed(int fd) {
    char byte;
    struct pollfd poll_fd = {.fd = fd, .events = POLLIN};
    return poll(&poll_fd, 1, 2000) == 1 && recv(fd, &byte, 1, 0) <= 0;
}

static bool is(struct message m, uint32_t type, const char *text) {
    bool same = m.type == type && strcmp(m.text, text) == 0;
    if (!same)
        printf("host: got type %u `%s`, not type %u `%s`\n", m.type, m.text, type, text);
    return same;
}

/* Whether a request is answered so. */
static bool asks(int fd, uint32_t type, uint32_t tx, const char *text, const char *answer) {
    static uint32_t req;
    post(fd, type, ++req, tx, text);
    struct message m = receive(fd);
    return m.req == req && m.tx == tx && is(m, answer[0] == 'E' ? ERROR : type, answer);
}

static void frames(void) {
    uint8_t message[200];
    int a = connect_to(drive_main_socket);
    size_t length = build(message, WRITE, 9, 0, "/a/b|seven");
    for (size_t i = 0; i < length; i++) {
        CHECK(send_all(a, message + i, 1));
        if (i % 8 == 3)
            usleep(1000);
    }
    CHECK(is(receive(a), WRITE, "OK|"));
    length = build(message, READ, 10, 0, "/a/b|");
    length += build(message + length, READ, 11, 0, "/a|");
    length += build(message + length, READ, 12, 0, "/x|");
    CHECK(send_all(a, message, length));
    CHECK(is(receive(a), READ, "seven"));
    CHECK(is(receive(a), READ, ""));
    CHECK(is(receive(a), ERROR, "ENOENT|"));
    CHECK(asks(a, 99, 0, "", "ENOSYS|"));
    close(a);
}

static void half_closed(void) {
    int a = connect_to(drive_main_socket);
    post(a, READ, 1, 0, "/a/b|");
    shutdown(a, SHUT_WR);
    CHECK(is(receive(a), READ, "seven"));
    CHECK(closed(a));
    close(a);
}

static void watches_of_two(void) {
    int a = connect_to(drive_main_socket), b = connect_to(drive_main_socket), c = connect_to(drive_main_socket);
    CHECK(asks(a, WATCH, 0, "/w|one|", "OK|"));
    CHECK(is(receive(a), EVENT, "/w|one|"));
    CHECK(asks(b, WATCH, 0, "/w|two|", "OK|"));
    CHECK(is(receive(b), EVENT, "/w|two|"));
    CHECK(asks(b, WATCH, 0, "w/x|rel|", "OK|"));
    CHECK(is(receive(b), EVENT, "w/x|rel|"));
    CHECK(asks(c, WRITE, 0, "/w/y|1", "OK|"));
    CHECK(is(receive(a), EVENT, "/w|one|"));
    CHECK(is(receive(a), EVENT, "/w/y|one|"));
    CHECK(is(receive(b), EVENT, "/w|two|"));
    CHECK(is(receive(b), EVENT, "/w/y|two|"));
    CHECK(silent(a) && silent(b) && silent(c));
    close(b);
    CHECK(asks(c, WRITE, 0, "/w/y|2", "OK|"));
    CHECK(is(receive(a), EVENT, "/w/y|one|"));
    b = connect_to(drive_main_socket);
    CHECK(asks(b, UNWATCH, 0, "/w|two|", "ENOENT|"));
    CHECK(asks(b, WATCH, 0, "/w|two|", "OK|"));
    CHECK(is(receive(b), EVENT, "/w|two|"));
    CHECK(asks(a, UNWATCH, 0, "/w|one|", "OK|"));
    CHECK(asks(c, WRITE, 0, "/w/y|3", "OK|"));
    CHECK(is(receive(b), EVENT, "/w/y|two|"));
    CHECK(silent(a));
    close(a), close(b), close(c);
}

/* Each created node is told, the parent first, outside transactions and by a commit. */
static void created_nodes(void) {
    int a = connect_to(drive_main_socket), b = connect_to(drive_main_socket);
    CHECK(asks(a, WATCH, 0, "/n|t|1|", "OK|"));
    CHECK(is(receive(a), EVENT, "/n|t|"));
    CHECK(asks(b, MKDIR, 0, "/n/x/y|", "OK|"));
    CHECK(is(receive(a), EVENT, "/n|t|"));
    CHECK(is(receive(a), EVENT, "/n/x|t|"));
    CHECK(silent(a));
    CHECK(asks(b, START, 0, "|", "1|"));
    CHECK(asks(b, RM, 1, "/n|", "OK|"));
    CHECK(asks(b, WRITE, 1, "/n/z/y|1", "OK|"));
    CHECK(silent(a));
    CHECK(asks(b, END, 1, "T|", "OK|"));
    CHECK(is(receive(a), EVENT, "/n|t|"));
    CHECK(is(receive(a), EVENT, "/n|t|"));
    CHECK(is(receive(a), EVENT, "/n/z|t|"));
    CHECK(silent(a));
    CHECK(asks(b, RM, 0, "/n|", "OK|"));
    close(a), close(b);
}

/* One commit's events for a connection that has every watch. */
static void fullest_commit(void) {
    int a = connect_to(drive_main_socket), b = connect_to(drive_main_socket);
    char text[300];
    for (int i = 0; i < 16; i++) {
        snprintf(text, sizeof text, "/|%032d|", i);
        CHECK(asks(a, WATCH, 0, text, "OK|"));
        CHECK(receive(a).type == EVENT);
    }
    CHECK(asks(b, START, 0, "|", "1|"));
    for (int i = 0; i < 8; i++) {
        int length = 0;
        for (int level = 0; level < 8; level++)
            length += snprintf(text + length, sizeof text - (size_t)length, "/%032d", level ? level : 90 + i);
        strcpy(text + length, "|");
        CHECK(asks(b, MKDIR, 1, text, "OK|"));
    }
    CHECK(asks(b, END, 1, "T|", "OK|"));
    bool whole = true;
    for (int i = 0; i < 64 * 16; i++) {
        struct message m = receive(a);
        whole = whole && m.type == EVENT && m.length == (uint32_t)(33 * (i / 16 % 8 + 1) + 34);
    }
    CHECK(whole && silent(a));
    close(a);
    for (int i = 0; i < 8; i++) {
        snprintf(text, sizeof text, "/%032d|", 90 + i);
        CHECK(asks(b, RM, 0, text, "OK|"));
    }
    close(b);
}

static void transactions_of_two(void) {
    int a = connect_to(drive_main_socket), b = connect_to(drive_main_socket), c = connect_to(drive_main_socket);
    CHECK(asks(a, START, 0, "|", "1|"));
    CHECK(asks(b, START, 0, "|", "2|"));
    CHECK(asks(b, WRITE, 2, "/t|b", "OK|"));
    CHECK(asks(b, WRITE, 1, "/t|b", "ENOENT|"));
    CHECK(asks(b, END, 1, "F|", "ENOENT|"));
    CHECK(asks(a, WRITE, 1, "/t|a", "OK|"));
    close(a);
    CHECK(asks(c, READ, 0, "/t|", "ENOENT|"));
    CHECK(asks(c, START, 0, "|", "1|"));
    CHECK(asks(b, END, 2, "T|", "OK|"));
    CHECK(asks(c, READ, 0, "/t|", "b"));
    CHECK(asks(c, END, 1, "T|", "EAGAIN|"));
    CHECK(asks(c, START, 0, "|", "1|"));
    CHECK(asks(c, WRITE, 1, "/t|c", "OK|"));
    CHECK(asks(c, END, 1, "T|", "OK|"));
    CHECK(asks(b, READ, 0, "/t|", "c"));
    close(b), close(c);
}

static void guests(void) {
    int g = connect_to(drive_guest_socket), a = connect_to(drive_main_socket);
    post(g, READ, 1, 0, "/a|");
    CHECK(closed(g));
    CHECK(logged("domain 3 closed: its domain is not introduced"));
    close(g);
    CHECK(asks(a, WATCH, 0, "@releaseDomain|gone|", "OK|"));
    CHECK(is(receive(a), EVENT, "@releaseDomain|gone|"));
    CHECK(asks(a, INTRODUCE, 0, "3|1|1|", "OK|"));
    g = connect_to(drive_guest_socket);
    CHECK(asks(g, READ, 0, "/a/b|", "EACCES|"));
    CHECK(asks(a, MKDIR, 0, "/local/domain/3|", "OK|"));
    CHECK(asks(a, SET_PERMS, 0, "/local/domain/3|n3|", "OK|"));
    CHECK(asks(g, WATCH, 0, "x|t|", "OK|"));
    CHECK(is(receive(g), EVENT, "x|t|"));
    CHECK(asks(g, WRITE, 0, "x|hello", "OK|"));
    CHECK(is(receive(g), EVENT, "x|t|"));
    CHECK(asks(a, READ, 0, "/local/domain/3/x|", "hello"));
    CHECK(asks(a, RELEASE, 0, "3|", "OK|"));
    CHECK(is(receive(a), EVENT, "@releaseDomain|gone|"));
    post(g, READ, 1, 0, "x|");
    CHECK(closed(g));
    close(g), close(a);
}

static void too_long(void) {
    int a = connect_to(drive_main_socket), b = connect_to(drive_main_socket);
    uint32_t header[4] = {WRITE, 1, 0, 4097};
    CHECK(send_all(a, header, 16));
    CHECK(closed(a));
    CHECK(logged("its message is longer than 4096 bytes"));
    CHECK(asks(b, READ, 0, "/a/b|", "seven"));
    close(a), close(b);
}

/* Large replies that are read late: none is lost, and they come in order. */
static void slow_reader(void) {
    enum { REPLIES = 600 };
    int a = connect_to(drive_main_socket), small = 4096;
    char name[60];
    for (int i = 0; i < 60; i++) {
        snprintf(name, sizeof name, "/big/%032d|", i);
        CHECK(asks(a, MKDIR, 0, name, "OK|"));
    }
    setsockopt(a, SOL_SOCKET, SO_RCVBUF, &small, sizeof small);
    pid_t child = fork();
    if (child == 0) {
        for (uint32_t i = 0; i < REPLIES; i++)
            post(a, DIRECTORY, i, 0, "/big|");
        _exit(0);
    }
    usleep(200000);
    bool ordered = true;
    for (uint32_t i = 0; i < REPLIES; i++) {
        struct message m = receive(a);
        ordered = ordered && m.type == DIRECTORY && m.req == i && m.length == 60 * 33;
    }
    CHECK(ordered);
    waitpid(child, NULL, 0);
    CHECK(asks(a, RM, 0, "/big|", "OK|"));
    close(a);
}

/* A watcher that does not read is dropped; who writes is served all the while. */
static void stopped_reader(void) {
    int a = connect_to(drive_main_socket), b = connect_to(drive_main_socket);
    char text[300] = "";
    for (int i = 0; i < 8; i++)
        strcat(text, "/0123456789abcdef0123456789abcdef");
    strcat(text, "|");
    CHECK(asks(a, WATCH, 0, "/|lazy|", "OK|"));
    bool served = true;
    for (int i = 0; i < 6000 && served; i++)
        served = asks(b, WRITE, 0, text, "OK|");
    CHECK(served);
    CHECK(logged("it does not read what it is sent"));
    CHECK(asks(b, RM, 0, "/0123456789abcdef0123456789abcdef|", "OK|"));
    CHECK(asks(b, WATCH, 0, "/|lazy|", "OK|"));
    close(a), close(b);
}

/* Past a socket's share connections wait, and those of another socket don't. */
static void many_connections(void) {
    enum { MANY = 40 };
    int fds[MANY], guests[8], g;
    for (int i = 0; i < MANY; i++)
        fds[i] = connect_to(drive_main_socket);
    CHECK(asks(fds[31], READ, 0, "/a/b|", "seven"));
    post(fds[MANY - 1], READ, 5, 0, "/a/b|");
    CHECK(silent(fds[MANY - 1]));
    g = connect_to(drive_guest_socket);
    post(g, READ, 1, 0, "/a|");
    CHECK(closed(g));
    close(g);
    for (int i = 0; i < 10; i++)
        close(fds[i]);
    CHECK(is(receive(fds[MANY - 1]), READ, "seven"));
    for (int i = 0; i < 8; i++)
        guests[i] = connect_to(drive_guest_socket);
    CHECK(asks(fds[MANY - 1], READ, 0, "/a/b|", "seven"));
    for (int i = 0; i < 8; i++)
        close(guests[i]);
    for (int i = 10; i < MANY; i++)
        close(fds[i]);
}

/* Bytes without sense, and connections that go in the middle of a message. */
static void nonsense(void) {
    unsigned seed = 12345;
    for (int round = 0; round < 200; round++) {
        uint8_t bytes[600];
        int a = connect_to(round % 4 ? drive_main_socket : drive_guest_socket);
        size_t length = 1 + (seed >> 8) % sizeof bytes;
        for (size_t i = 0; i < length; i++) {
            seed = seed * 1103515245 + 12345;
            bytes[i] = (uint8_t)(seed >> 16);
        }
        if (round % 2 && length > 16) {
            uint32_t header[4] = {(seed >> 5) % 23, seed, (seed >> 3) % 4, (seed >> 9) % 500};
            memcpy(bytes, header, 16);
        }
        send_all(a, bytes, length);
        close(a);
    }
    int a = connect_to(drive_main_socket);
    CHECK(asks(a, READ, 0, "/a/b|", "seven"));
    close(a);
}

static void arguments(void) {
    char plain[120], guest[130];
    snprintf(plain, sizeof plain, "%s.plain", drive_main_socket);
    snprintf(guest, sizeof guest, "0=%s", plain);
    CHECK(run_daemon("--help", NULL, NULL, NULL) == 0);
    CHECK(run_daemon(NULL, NULL, NULL, NULL) == 2);
    CHECK(run_daemon("--socket", NULL, NULL, NULL) == 2);
    CHECK(run_daemon("--other", NULL, NULL, NULL) == 2);
    CHECK(run_daemon("--socket", plain, "--guest", guest) == 2);
    CHECK(run_daemon("--socket", plain, "--guest", "32752=x") == 2);
    CHECK(run_daemon("--socket", drive_main_socket, NULL, NULL) == 1);
    CHECK(run_daemon("--socket", "/nowhere/at/all", NULL, NULL) == 1);
    close(open(plain, O_WRONLY | O_CREAT, 0600));
    CHECK(run_daemon("--socket", plain, NULL, NULL) == 1);
    CHECK(unlink(plain) == 0);
}

int main(int count, char **words) {
    if (count != 3)
        return 2;
    drive_daemon_path = words[1];
    snprintf(drive_main_socket, sizeof drive_main_socket, "%s/socket", words[2]);
    snprintf(drive_guest_socket, sizeof drive_guest_socket, "%s/guest", words[2]);
    snprintf(drive_log_file, sizeof drive_log_file, "%s/log", words[2]);
    start_daemon();
    frames();
    half_closed();
    watches_of_two();
    created_nodes();
    fullest_commit();
    transactions_of_two();
    guests();
    too_long();
    slow_reader();
    many_connections();
    nonsense();
    stopped_reader();
    arguments();
    struct stat found;
    CHECK(stop_daemon(SIGTERM) == 0);
    CHECK(stat(drive_main_socket, &found) < 0 && stat(drive_guest_socket, &found) < 0);
    start_daemon();
    close(connect_to(drive_main_socket));
    CHECK(stop_daemon(SIGKILL) != 0);
    CHECK(stat(drive_main_socket, &found) == 0);
    start_daemon();
    usleep(200000);
    close(connect_to(drive_main_socket));
    CHECK(stop_daemon(SIGINT) == 0);
    CHECK(stat(drive_main_socket, &found) < 0 && stat(drive_guest_socket, &found) < 0);
    printf("host: %d checks, %d failed\n", drive_checks, drive_failures);
    return drive_failures != 0;
}
