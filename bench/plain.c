/* A plain C program that writes and reads the same files as idxtool, as simply as it can be written: one thread, all samples in
 * memory, one table look-up for each axis and sample. It is written from docs/FORMATS.md and docs/MODEL.md alone.
 *
 *     plain convert RAW FOLDER X Y Z SIZE BITS PERFILE           one field, a box from 0, the guessed mask, files %06x.bin
 *     plain query FOLDER X Y Z SIZE BITS PERFILE XLO XHI YLO YHI ZLO ZHI LO HI
 *     plain cut RAW X Y Z SIZE XLO XHI YLO YHI ZLO ZHI LO HI      the samples of a box between two levels out of a raw volume
 *     plain ask PORT COUNT < TARGETS                             COUNT requests over one connection; prints us for each reply
 *
 * X, Y, Z are numbers of samples along axes 0, 1, 2; SIZE is the bytes of a sample.
 */
#define _GNU_SOURCE /* strcasestr */
#include <arpa/inet.h>
#include <fcntl.h>
#include <netinet/tcp.h>
#include <stdint.h>
#include <stdio.h>
#include <stdlib.h>
#include <string.h>
#include <strings.h>
#include <sys/socket.h>
#include <sys/stat.h>
#include <time.h>
#include <unistd.h>

enum { AXES = 3, ROW = 40 };

struct dataset {
    uint64_t count[AXES];        /* samples along each axis */
    uint64_t size, bits, per_file;
    int digits;                  /* M, the digits of the mask */
    int axis_of[64];             /* the axis of each digit, the coarsest first */
    uint64_t *address[AXES];     /* for each coordinate of an axis its bits of the Z address */
};

static void stop(const char *why) {
    perror(why);
    exit(1);
}

static void *memory(size_t bytes) {
    void *got = calloc(bytes ? bytes : 1, 1);
    if (!got) stop("memory");
    return got;
}

static int digits_of(uint64_t greatest) {
    int digits = 0;
    for (; greatest; greatest >>= 1) digits++;
    return digits;
}

/* The guessed mask: from the finest digit leftward in rounds, from the last axis to the first. */
static void guess(struct dataset *d) {
    int left[AXES], place;
    d->digits = 0;
    for (int a = 0; a < AXES; a++) d->digits += left[a] = digits_of(d->count[a] - 1);
    for (place = d->digits; place > 0;)
        for (int a = AXES - 1; a >= 0; a--)
            if (left[a] > 0) {
                left[a]--;
                d->axis_of[--place] = a;
            }
}

static void tables(struct dataset *d) {
    guess(d);
    for (int a = 0; a < AXES; a++) {
        d->address[a] = memory(d->count[a] * sizeof(uint64_t));
        for (uint64_t at = 0; at < d->count[a]; at++) {
            int bit = 0;
            for (int place = d->digits - 1; place >= 0; place--)
                if (d->axis_of[place] == a) {
                    uint64_t digit = at >> bit++ & 1;
                    d->address[a][at] |= digit << (d->digits - 1 - place);
                }
        }
    }
}

static uint64_t hierarchical(const struct dataset *d, uint64_t z) {
    return z ? (z | (uint64_t)1 << d->digits) >> (__builtin_ctzll(z) + 1) : 0;
}

static int level_of(const struct dataset *d, uint64_t z) { return z ? d->digits - __builtin_ctzll(z) : 0; }

static void read_dataset(struct dataset *d, char **word) {
    for (int a = 0; a < AXES; a++) d->count[a] = strtoull(word[a], NULL, 10);
    d->size = strtoull(word[3], NULL, 10);
    d->bits = strtoull(word[4], NULL, 10);
    d->per_file = strtoull(word[5], NULL, 10);
    tables(d);
}

static void put_word(unsigned char *to, uint32_t value) {
    for (int byte = 0; byte < 4; byte++) to[byte] = (unsigned char)(value >> (24 - 8 * byte));
}

static uint32_t get_word(const unsigned char *from) {
    return (uint32_t)from[0] << 24 | (uint32_t)from[1] << 16 | (uint32_t)from[2] << 8 | from[3];
}

static void write_all(int file, const unsigned char *from, uint64_t bytes) {
    while (bytes) {
        ssize_t put = write(file, from, bytes);
        if (put < 0) stop("write");
        from += put;
        bytes -= (uint64_t)put;
    }
}

static void read_all(int file, unsigned char *to, uint64_t bytes, uint64_t offset) {
    while (bytes) {
        ssize_t got = pread(file, to, bytes, (off_t)offset);
        if (got <= 0) stop("read");
        to += got;
        offset += (uint64_t)got;
        bytes -= (uint64_t)got;
    }
}

static void path_of(char *to, size_t room, const char *folder, uint64_t file) {
    snprintf(to, room, "%s/%06llx.bin", folder, (unsigned long long)file);
}

/* A file of a timestep: the table, and the present blocks behind it. */
static void write_file(const struct dataset *d, const char *folder, uint64_t first, const unsigned char *samples,
                       const unsigned char *present) {
    uint64_t block_bytes = d->size << d->bits, table = ROW + ROW * d->per_file, offset = table;
    uint64_t blocks = (uint64_t)1 << (d->digits - (int)d->bits);
    unsigned char *rows = memory(table);
    for (uint64_t place = 0; place < d->per_file && first + place < blocks; place++)
        if (present[first + place]) {
            unsigned char *row = rows + ROW + ROW * place;
            put_word(row + 8, (uint32_t)offset);
            put_word(row + 12, (uint32_t)(offset >> 32));
            put_word(row + 16, (uint32_t)block_bytes);
            offset += block_bytes;
        }
    if (offset > table) {
        char path[4096];
        path_of(path, sizeof path, folder, first);
        int file = open(path, O_WRONLY | O_CREAT | O_TRUNC, 0644);
        if (file < 0) stop(path);
        write_all(file, rows, table);
        for (uint64_t place = 0; place < d->per_file && first + place < blocks; place++)
            if (present[first + place]) write_all(file, samples + (first + place) * block_bytes, block_bytes);
        if (close(file)) stop(path);
    }
    free(rows);
}

/* Copies one sample; the sizes of numbers are told apart so that a copy is one instruction. */
static inline void copy(unsigned char *to, const unsigned char *from, uint64_t size) {
    switch (size) {
    case 1: *to = *from; break;
    case 4: memcpy(to, from, 4); break;
    case 8: memcpy(to, from, 8); break;
    default: memcpy(to, from, size);
    }
}

static void convert(char **word) {
    struct dataset d;
    read_dataset(&d, word + 2);
    uint64_t points = d.count[0] * d.count[1] * d.count[2];
    unsigned char *raw = memory(points * d.size), *samples = memory(d.size << d.digits);
    unsigned char *present = memory((size_t)1 << (d.digits - (int)d.bits)), *from = raw;
    int file = open(word[0], O_RDONLY);
    if (file < 0) stop(word[0]);
    read_all(file, raw, points * d.size, 0);
    for (uint64_t z = 0; z < d.count[2]; z++)
        for (uint64_t y = 0; y < d.count[1]; y++)
            for (uint64_t x = 0; x < d.count[0]; x++, from += d.size) {
                uint64_t at = hierarchical(&d, d.address[0][x] | d.address[1][y] | d.address[2][z]);
                copy(samples + at * d.size, from, d.size);
                present[at >> d.bits] = 1;
            }
    mkdir(word[1], 0755);
    for (uint64_t first = 0; first < (uint64_t)1 << (d.digits - (int)d.bits); first += d.per_file)
        write_file(&d, word[1], first, samples, present);
}

/* The samples of a block, read when it is first asked for; an absent block has zeros. */
static const unsigned char *block_of(const struct dataset *d, const char *folder, unsigned char **blocks, uint64_t number) {
    uint64_t block_bytes = d->size << d->bits;
    if (!blocks[number]) {
        char path[4096];
        unsigned char row[ROW];
        uint64_t first = number / d->per_file * d->per_file;
        blocks[number] = memory(block_bytes);
        path_of(path, sizeof path, folder, first);
        int file = open(path, O_RDONLY);
        if (file >= 0) {
            read_all(file, row, ROW, ROW + ROW * (number - first));
            if (get_word(row + 16))
                read_all(file, blocks[number], block_bytes, get_word(row + 8) | (uint64_t)get_word(row + 12) << 32);
            close(file);
        }
    }
    return blocks[number];
}

/* The part of a dataset that is asked for: a box, on the grid of the finest level that is asked for. */
struct part {
    uint64_t low[AXES], high[AXES], step[AXES], points;
    int coarsest;
};

static struct part read_part(const struct dataset *d, char **word) {
    struct part p = {.points = 1, .coarsest = atoi(word[2 * AXES])};
    for (int a = 0; a < AXES; a++) {
        p.step[a] = 1;
        for (int place = atoi(word[2 * AXES + 1]); place < d->digits; place++) p.step[a] <<= d->axis_of[place] == a;
        p.low[a] = (strtoull(word[2 * a], NULL, 10) + p.step[a] - 1) / p.step[a] * p.step[a];
        p.high[a] = strtoull(word[2 * a + 1], NULL, 10);
        p.points *= p.high[a] < p.low[a] ? 0 : (p.high[a] - p.low[a]) / p.step[a] + 1;
    }
    return p;
}

static void query(char **word) {
    struct dataset d;
    read_dataset(&d, word + 1);
    struct part p = read_part(&d, word + 7);
    unsigned char **blocks = memory(sizeof(*blocks) << (d.digits - (int)d.bits));
    unsigned char *answer = memory(p.points * d.size), *to = answer;
    uint64_t inside = ((uint64_t)1 << d.bits) - 1;
    for (uint64_t z = p.low[2]; z <= p.high[2]; z += p.step[2])
        for (uint64_t y = p.low[1]; y <= p.high[1]; y += p.step[1])
            for (uint64_t x = p.low[0]; x <= p.high[0]; x += p.step[0]) {
                uint64_t address = d.address[0][x] | d.address[1][y] | d.address[2][z];
                if (level_of(&d, address) < p.coarsest) continue;
                uint64_t at = hierarchical(&d, address);
                copy(to, block_of(&d, word[0], blocks, at >> d.bits) + (at & inside) * d.size, d.size);
                to += d.size;
            }
    write_all(STDOUT_FILENO, answer, (uint64_t)(to - answer));
}

static void cut(char **word) {
    struct dataset d = {.bits = 1, .per_file = 1};
    for (int a = 0; a < AXES; a++) d.count[a] = strtoull(word[1 + a], NULL, 10);
    d.size = strtoull(word[4], NULL, 10);
    tables(&d);
    struct part p = read_part(&d, word + 5);
    unsigned char *answer = memory(p.points * d.size), *to = answer, *row = memory(d.count[0] * d.size);
    int file = open(word[0], O_RDONLY);
    if (file < 0) stop(word[0]);
    for (uint64_t z = p.low[2]; z <= p.high[2]; z += p.step[2])
        for (uint64_t y = p.low[1]; y <= p.high[1]; y += p.step[1]) {
            if (p.low[0] > p.high[0]) continue;
            read_all(file, row, (p.high[0] - p.low[0] + 1) * d.size, ((z * d.count[1] + y) * d.count[0] + p.low[0]) * d.size);
            for (uint64_t x = p.low[0]; x <= p.high[0]; x += p.step[0]) {
                if (level_of(&d, d.address[0][x] | d.address[1][y] | d.address[2][z]) < p.coarsest) continue;
                copy(to, row + (x - p.low[0]) * d.size, d.size);
                to += d.size;
            }
        }
    write_all(STDOUT_FILENO, answer, (uint64_t)(to - answer));
}

/* Reads one reply; gives the bytes of its body. */
static uint64_t read_reply(int link, char *room, size_t size) {
    size_t have = 0;
    char *end = NULL;
    while (!end) {
        ssize_t got = recv(link, room + have, size - 1 - have, 0);
        if (got <= 0) stop("recv");
        have += (size_t)got;
        room[have] = 0;
        end = strstr(room, "\r\n\r\n");
    }
    char *field = strcasestr(room, "\r\nContent-Length:");
    if (strncmp(room, "HTTP/1.1 200", 12) || !field || field > end) {
        fprintf(stderr, "the reply is %.40s\n", room);
        exit(1);
    }
    uint64_t length = strtoull(field + 17, NULL, 10), body = have - (size_t)(end + 4 - room);
    while (body < length) {
        ssize_t got = recv(link, room, size, 0);
        if (got <= 0) stop("recv");
        body += (uint64_t)got;
    }
    return length;
}

static void ask(char **word) {
    enum { ROOM = 1 << 20, MOST = 4096 };
    static char line[ROOM], room[ROOM], *requests[MOST];
    int count = atoi(word[1]), targets = 0, on = 1;
    for (char target[2048]; targets < MOST && scanf("%2000s", target) == 1; targets++) {
        snprintf(line, sizeof line, "GET %s HTTP/1.1\r\nHost: 127.0.0.1\r\n\r\n", target);
        requests[targets] = strdup(line);
    }
    if (!targets) stop("no targets");
    struct sockaddr_in peer = {.sin_family = AF_INET, .sin_port = htons((uint16_t)atoi(word[0]))};
    peer.sin_addr.s_addr = htonl(INADDR_LOOPBACK);
    int link = socket(AF_INET, SOCK_STREAM, 0);
    if (link < 0 || connect(link, (struct sockaddr *)&peer, sizeof peer)) stop("connect");
    setsockopt(link, IPPROTO_TCP, TCP_NODELAY, &on, sizeof on);
    struct timespec begin, end;
    clock_gettime(CLOCK_MONOTONIC, &begin);
    for (int each = 0; each < count; each++) {
        const char *request = requests[each % targets];
        write_all(link, (const unsigned char *)request, strlen(request));
        read_reply(link, room, sizeof room);
    }
    clock_gettime(CLOCK_MONOTONIC, &end);
    printf("%.3f\n", ((double)(end.tv_sec - begin.tv_sec) * 1e6 + (double)(end.tv_nsec - begin.tv_nsec) / 1e3) / count);
}

int main(int count, char **word) {
    if (count == 10 && !strcmp(word[1], "convert")) convert(word + 2);
    else if (count == 17 && !strcmp(word[1], "query")) query(word + 2);
    else if (count == 15 && !strcmp(word[1], "cut")) cut(word + 2);
    else if (count == 4 && !strcmp(word[1], "ask")) ask(word + 2);
    else {
        fprintf(stderr, "usage: plain convert RAW FOLDER X Y Z SIZE BITS PERFILE, query .., cut .., ask PORT COUNT\n");
        return 1;
    }
    return 0;
}
