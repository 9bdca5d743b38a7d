/* Tries an echo service: starts it on a free port of 127.0.0.1, sends it lines over three connections, and compares what
 * comes back, what the service prints, and its status. Usage: echo_client PROGRAM. It ends within half a minute. */

#define _POSIX_C_SOURCE 200809L

#include <arpa/inet.h>
#include <netinet/in.h>
#include <stdbool.h>
#include <stdio.h>
#include <stdlib.h>
#include <string.h>
#include <sys/socket.h>
#include <sys/time.h>
#include <sys/wait.h>
#include <time.h>
#include <unistd.h>

static void fail(const char *what)
{
    fprintf(stderr, "echo_client: %s\n", what);
    exit(EXIT_FAILURE);
}

static struct sockaddr_in loopback(unsigned short port)
{
    struct sockaddr_in address = {0};
    address.sin_family = AF_INET;
    address.sin_port = htons(port);
    address.sin_addr.s_addr = htonl(INADDR_LOOPBACK);
    return address;
}

static unsigned short free_port(void)
{
    struct sockaddr_in address = loopback(0);
    socklen_t size = sizeof address;
    int descriptor = socket(AF_INET, SOCK_STREAM, 0);
    if (bind(descriptor, (struct sockaddr *) &address, size) != 0
        || getsockname(descriptor, (struct sockaddr *) &address, &size) != 0) {
        fail("there is no free port");
    }
    close(descriptor);
    return ntohs(address.sin_port);
}

/* Starts the service, which reads its port; what it prints can be read from the returned descriptor. */
static int start(const char *program, unsigned short port, pid_t *service)
{
    int input[2];
    int output[2];
    if (pipe(input) != 0 || pipe(output) != 0 || (*service = fork()) < 0) {
        fail("the service isn't started");
    }
    if (*service == 0) {
        dup2(input[0], STDIN_FILENO);
        dup2(output[1], STDOUT_FILENO);
        close(input[0]);
        close(input[1]);
        close(output[0]);
        close(output[1]);
        setenv("VAULT_WAIT", "5", 1);
        execl(program, program, (char *) NULL);
        _exit(127);
    }
    close(input[0]);
    close(output[1]);
    dprintf(input[1], "%u\n", (unsigned) port);
    close(input[1]);
    return output[0];
}

/* The service needs a moment before it listens. */
static int connect_to(unsigned short port)
{
    struct sockaddr_in address = loopback(port);
    struct timespec moment = {0, 50000000};
    struct timeval wait = {5, 0};
    for (int turn = 0; turn < 100; turn++) {
        int descriptor = socket(AF_INET, SOCK_STREAM, 0);
        if (connect(descriptor, (struct sockaddr *) &address, sizeof address) == 0) {
            setsockopt(descriptor, SOL_SOCKET, SO_RCVTIMEO, &wait, sizeof wait);
            return descriptor;
        }
        close(descriptor);
        nanosleep(&moment, NULL);
    }
    fail("nobody listens");
    return -1;
}

/* Reads so many bytes, or as many as there are. */
static size_t read_bytes(int descriptor, char *bytes, size_t count)
{
    size_t length = 0;
    while (length < count) {
        ssize_t more = read(descriptor, bytes + length, count - length);
        if (more <= 0) {
            break;
        }
        length += (size_t) more;
    }
    return length;
}

/* Each line has to come back before the next one is sent. */
static void send_lines(unsigned short port, const char *const *lines, int count)
{
    int descriptor = connect_to(port);
    for (int i = 0; i < count; i++) {
        char back[256];
        size_t length = strlen(lines[i]);
        if (send(descriptor, lines[i], length, MSG_NOSIGNAL) != (ssize_t) length) {
            fail("a line isn't sent");
        }
        if (read_bytes(descriptor, back, length) != length || memcmp(back, lines[i], length) != 0) {
            fail("a line comes back otherwise");
        }
        fputs(lines[i], stdout);
    }
    close(descriptor);
}

int main(int count, char **words)
{
    static const char *const lines[] = {"attach\n", "read 512 bytes\n", "detach\n"};
    static const char wanted[] = "29\n7\n7\n"; /* the bytes of each connection */
    char printed[sizeof wanted];
    unsigned short port = free_port();
    pid_t service = 0;
    int status = 0;
    int output;
    if (count != 2) {
        fail("usage: echo_client PROGRAM");
    }
    alarm(30);
    output = start(words[1], port, &service);
    send_lines(port, lines, 3);
    send_lines(port, lines, 1);
    send_lines(port, lines + 2, 1);
    if (read_bytes(output, printed, sizeof printed) != sizeof wanted - 1
        || memcmp(printed, wanted, sizeof wanted - 1) != 0) {
        fail("the service prints something else");
    }
    if (waitpid(service, &status, 0) != service || !WIFEXITED(status) || WEXITSTATUS(status) != 0) {
        fail("the service ends otherwise");
    }
    puts("the service sent all lines back, and ended");
    return EXIT_SUCCESS;
}
