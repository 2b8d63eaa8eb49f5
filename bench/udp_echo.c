// A bare echo over UDP: each of so many threads sends each datagram that it receives back with the bit of a response set, and does
// nothing else. They share a socket. It bounds what as many threads can answer with a system call to receive and one to send.
//
//     udp_echo PORT THREADS
#include <arpa/inet.h>
#include <pthread.h>
#include <stdlib.h>
#include <string.h>
#include <sys/socket.h>
#include <unistd.h>

static int sock;

static void *echo(void *unused) {
    unsigned char message[65535];
    (void)unused;
    for (;;) {
        struct sockaddr_in peer;
        socklen_t length = sizeof peer;
        ssize_t count = recvfrom(sock, message, sizeof message, 0, (struct sockaddr *)&peer, &length);
        if (count < 12) continue;
        message[2] |= 0x80;
        sendto(sock, message, (size_t)count, 0, (struct sockaddr *)&peer, length);
    }
    return NULL;
}

int main(int argc, char **argv) {
    if (argc != 3) return 2;
    struct sockaddr_in at;
    memset(&at, 0, sizeof at);
    at.sin_family = AF_INET;
    at.sin_port = htons((unsigned short)atoi(argv[1]));
    at.sin_addr.s_addr = htonl(INADDR_LOOPBACK);
    sock = socket(AF_INET, SOCK_DGRAM, 0);
    int size = 4 * 1024 * 1024;
    setsockopt(sock, SOL_SOCKET, SO_RCVBUF, &size, sizeof size);
    if (sock < 0 || bind(sock, (struct sockaddr *)&at, sizeof at) != 0) return 1;
    for (int more = atoi(argv[2]) - 1; more > 0; more--) {
        pthread_t thread;
        if (pthread_create(&thread, NULL, echo, NULL) != 0) return 1;
    }
    echo(NULL);
}
