/* Every function of the header, its answers held against document 01. A check that fails prints its line. */
#include <hinurapay.h>
#include <stdio.h>
#include <string.h>

static int wrong = 0;

#define CHECK(holds)                                                             \
    do {                                                                         \
        if (!(holds)) {                                                          \
            fprintf(stderr, "all_functions.c:%d: not so: %s\n", __LINE__, #holds); \
            wrong = 1;                                                           \
        }                                                                        \
    } while (0)

static const uint8_t NAME[10] = {'8', '8', '4', '1', ' ', ' ', ' ', ' ', ' ', ' '};
static const uint8_t HELLO[5] = {'h', 'e', 'l', 'l', 'o'};

/* the longest MEMX-UDP packet, and room for it, or for the longest UFO packet, and all held messages */
enum { SLOT = 1472, JUMBO = 8972, ROOM = JUMBO + 31 * SLOT, UFO_ROOM = 1472 + 31 * SLOT, FRESH = 0x5a };

/* the output, which holds FRESH wherever nothing was written */
static uint8_t out[ROOM];

/* the held area, which holds FRESH wherever nothing was held */
static uint8_t area[32 * SLOT];

static void clear(void) {
    memset(out, FRESH, sizeof out);
    memset(area, FRESH, sizeof area);
}

/* exactly these bytes stand at the output's start, and nothing after them was touched */
static int laid(const void *bytes, size_t length) {
    for (size_t place = length; place < sizeof out; place++)
        if (out[place] != FRESH) return 0;
    return memcmp(out, bytes, length) == 0;
}

/* a packet was written, and it is these bytes */
static int wrote(hp_wrote answer, const void *bytes, size_t length) {
    return answer.refusal == 0 && answer.bytes == length && laid(bytes, length);
}

/* nothing was written, and that is the number */
static int turned_down(hp_wrote answer, uint64_t refusal) {
    return answer.refusal == refusal && answer.bytes == 0 && laid("", 0);
}

static hp_packet of_type(uint8_t type) {
    hp_packet fields;
    memset(&fields, 0, sizeof fields);
    fields.type = type;
    return fields;
}

static int same_record(hp_record one, hp_record other) {
    return one.style == other.style && one.ended == other.ended && memcmp(one.name, other.name, sizeof one.name) == 0
        && one.session == other.session && one.next == other.next && one.top == other.top && one.asked == other.asked
        && one.held == other.held;
}

/* takes a datagram with the area and the whole output */
static hp_taken take(hp_record record, const uint8_t *datagram, size_t length) {
    return hp_take(record, area, sizeof area, datagram, length, out, sizeof out);
}

static void soup(void) {
    static const uint8_t accept[] = "A      8841                   1\n"; /* six spaces, nineteen spaces */
    hp_read read = hp_soup_read(accept, sizeof accept - 1);
    CHECK(read.refusal == 0 && read.packet.type == 'A' && read.packet.number == 1);
    CHECK(memcmp(read.packet.name, "      8841", 10) == 0);

    static const uint8_t blank[] = "A      8841                    \n";
    read = hp_soup_read(blank, sizeof blank - 1);
    CHECK(read.refusal == 6 && read.packet.type == 0 && read.packet.number == 0);

    static const uint8_t over[] = "A      884118446744073709551616\n";
    CHECK(hp_soup_read(over, sizeof over - 1).refusal == 7);
    CHECK(hp_soup_read(over, 0).refusal == 1);

    read = hp_soup_read((const uint8_t *)"Shello\n", 7);
    CHECK(read.refusal == 0 && read.packet.type == 'S' && read.packet.start == 1 && read.packet.length == 5);

    clear();
    CHECK(turned_down(hp_soup_write(of_type('S'), HELLO, sizeof HELLO, out, 6), 9));
    CHECK(turned_down(hp_soup_write(of_type('H'), HELLO, sizeof HELLO, out, sizeof out), 4));
    CHECK(wrote(hp_soup_write(of_type('S'), HELLO, sizeof HELLO, out, 7), "Shello\n", 7));
}

/* the fields of a login with a blank password and no user */
static hp_packet nameless(const char *session) {
    hp_packet fields = of_type('L');
    memset(fields.user, ' ', sizeof fields.user);
    memset(fields.password, ' ', sizeof fields.password);
    memcpy(fields.name, session, sizeof fields.name);
    return fields;
}

/* a Soup login with a user of one letter, and the same without one */
static void soup_login(void) {
    uint8_t login[] = "Lu     " "          " "      8841" "                   7\n";
    hp_packet fields = nameless("      8841");
    fields.number = 7;
    clear();
    CHECK(turned_down(hp_soup_write(fields, NULL, 0, out, sizeof out), 6));
    CHECK(turned_down(hp_soup_write(fields, NULL, 0, out, 0), 6)); /* before 9 */
    CHECK(turned_down(hp_soup_write(fields, HELLO, sizeof HELLO, out, sizeof out), 4));
    fields.user[0] = 'u';
    CHECK(wrote(hp_soup_write(fields, NULL, 0, out, 48), login, 48));
    hp_read read = hp_soup_read(login, 48);
    CHECK(read.refusal == 0 && read.packet.type == 'L' && read.packet.number == 7 && read.packet.user[0] == 'u');
    login[1] = ' ';
    read = hp_soup_read(login, 48);
    CHECK(read.refusal == 6 && read.packet.type == 0 && read.packet.number == 0 && read.packet.user[0] == 0);
    memset(login + 27, '9', 20); /* above 2^64-1, which would be 7 */
    CHECK(hp_soup_read(login, 48).refusal == 6);
    login[46] = 'x';
    CHECK(hp_soup_read(login, 48).refusal == 5);
}

/* a packet is read as number 42, and written again it is this spelling, which is read alike */
static void padded(const char *packet, const char *spelt) {
    size_t length = strlen(packet);
    hp_read read = hp_soup_read((const uint8_t *)packet, length), again;
    CHECK(read.refusal == 0 && read.packet.type == packet[0] && read.packet.number == 42);
    clear();
    CHECK(wrote(hp_soup_write(read.packet, NULL, 0, out, length), spelt, length));
    again = hp_soup_read(out, length);
    CHECK(again.refusal == 0 && again.packet.type == packet[0] && again.packet.number == 42);
    CHECK(memcmp(again.packet.user, read.packet.user, 6) == 0 && memcmp(again.packet.password, read.packet.password, 10) == 0);
    CHECK(memcmp(again.packet.name, read.packet.name, 10) == 0);
    CHECK(wrote(hp_soup_write(again.packet, NULL, 0, out, length), spelt, length));
}

/* noughts before a number, behind spaces or alone; a space behind a nought is 5 */
static void noughts(void) {
    static const char accept[] = "A      8841" "                  42\n", login[] = "Lu     secret          8841" "                  42\n";
    padded("A      8841" "00000000000000000042\n", accept);
    padded("A      8841" "      00000000000042\n", accept);
    padded("Lu     secret          8841" "00000000000000000042\n", login);
    padded("Lu     secret          8841" "                0042\n", login);
    padded(login, login);

    uint8_t packet[] = "A      8841" "00000000000000000000\n";
    hp_read read = hp_soup_read(packet, 32);
    CHECK(read.refusal == 6 && read.packet.type == 0 && read.packet.number == 0);
    packet[29] = '1';
    CHECK(hp_soup_read(packet, 32).packet.number == 10);
    packet[20] = ' ';
    CHECK(hp_soup_read(packet, 32).refusal == 5);

    uint8_t latest[] = "Lu     secret          8841" "00000000000000000000\n";
    read = hp_soup_read(latest, 48);
    CHECK(read.refusal == 0 && read.packet.type == 'L' && read.packet.number == 0);
    latest[1] = ' ';
    CHECK(hp_soup_read(latest, 48).refusal == 6);
}

/* the buffer of a stream, which holds FRESH wherever nothing was laid */
enum { LONGEST = 4098 };
static uint8_t buffer[LONGEST + 2];

/* these bytes stand at the buffer's start, and nothing after them was touched */
static int kept_is(const void *bytes, size_t length) {
    for (size_t place = length; place < sizeof buffer; place++)
        if (buffer[place] != FRESH) return 0;
    return memcmp(buffer, bytes, length) == 0;
}

static int stands(hp_pieces pieces, uint64_t kept, uint8_t dropping, uint64_t next) {
    return pieces.kept == kept && pieces.dropping == dropping && pieces.next == next;
}

/* lays these bytes into a fresh buffer */
static void keep(const void *bytes, size_t length) {
    memset(buffer, FRESH, sizeof buffer);
    memcpy(buffer, bytes, length);
}

/* feeds a piece from a place on */
static hp_piece feed(hp_pieces pieces, const char *piece, uint64_t place) {
    return hp_soup_take(pieces, buffer, LONGEST, (const uint8_t *)piece, strlen(piece), place);
}

/* the call is refused with that number, and nothing else is in the answer but the stream as it was given */
static int not_fed(hp_pieces given, size_t room, const char *piece, uint64_t place, uint64_t refusal) {
    uint8_t before[sizeof buffer];
    memcpy(before, buffer, sizeof buffer);
    hp_piece fed = hp_soup_take(given, buffer, room, (const uint8_t *)piece, strlen(piece), place);
    return fed.refusal == refusal && fed.place == 0 && fed.what == 0 && fed.why == 0 && fed.number == 0 && fed.bytes == 0
        && fed.packet.type == 0 && stands(fed.pieces, given.kept, given.dropping, given.next)
        && memcmp(buffer, before, sizeof buffer) == 0;
}

/* a login, a message in three pieces, a heartbeat: each packet stands in the buffer */
static void pieces(void) {
    static const char login[] = "A      8841                   7\nSa";
    keep("", 0);
    hp_piece fed = feed((hp_pieces){0, 0, 0}, login, 0);
    CHECK(fed.refusal == 0 && fed.what == 1 && fed.place == 32 && fed.bytes == 32 && fed.number == 0 && fed.why == 0);
    CHECK(fed.packet.type == 'A' && fed.packet.number == 7 && memcmp(fed.packet.name, "      8841", 10) == 0);
    CHECK(stands(fed.pieces, 0, 0, 7) && kept_is(login, 32));
    keep("", 0);
    fed = feed(fed.pieces, login, 32);
    CHECK(fed.refusal == 0 && fed.what == 0 && fed.place == 34 && fed.bytes == 0 && fed.packet.type == 0);
    CHECK(stands(fed.pieces, 2, 0, 7) && kept_is("Sa", 2));
    fed = feed(fed.pieces, "b", 0);
    CHECK(fed.what == 0 && fed.place == 1 && stands(fed.pieces, 3, 0, 7) && kept_is("Sab", 3));
    fed = feed(fed.pieces, "c\nH\n", 0);
    CHECK(fed.refusal == 0 && fed.what == 1 && fed.place == 2 && fed.number == 7 && fed.bytes == 5 && kept_is("Sabc\n", 5));
    CHECK(fed.packet.type == 'S' && fed.packet.start == 1 && fed.packet.length == 3 && stands(fed.pieces, 0, 0, 8));
    fed = feed(fed.pieces, "c\nH\n", 2);
    CHECK(fed.what == 1 && fed.place == 4 && fed.number == 0 && fed.packet.type == 'H' && kept_is("H\nbc\n", 5));
    fed = feed(fed.pieces, "c\nH\n", 4); /* at the end there is nothing */
    CHECK(fed.refusal == 0 && fed.what == 0 && fed.place == 4 && stands(fed.pieces, 0, 0, 8) && kept_is("H\nbc\n", 5));
}

/* a packet that is refused is used up, has no fields, and leaves the count */
static int used_up(uint64_t next, const char *packet, uint64_t why) {
    size_t length = strlen(packet);
    keep("", 0);
    hp_piece fed = feed((hp_pieces){0, 0, next}, packet, 0);
    return fed.refusal == 0 && fed.what == 2 && fed.why == why && fed.number == 0 && fed.place == length && fed.bytes == length
        && fed.packet.type == 0 && fed.packet.start == 0 && stands(fed.pieces, 0, 0, next) && kept_is(packet, length);
}

static void refused_pieces(void) {
    CHECK(used_up(0, "Sab\n", 16) && used_up(1, "A      8841                   7\n", 16));
    CHECK(used_up(UINT64_MAX, "S\n", 7) && used_up(0, "A      884118446744073709551616\n", 7));
    CHECK(used_up(1, "\n", 3) && used_up(1, "Hx\n", 4) && used_up(1, "JX\n", 5) && used_up(1, "A                             7\n", 6));
    CHECK(used_up(1, "L      secret          8841                   7\n", 6)); /* no user */
    CHECK(used_up(0, "A      884100000000000000000000\n", 6) && used_up(0, "A      8841000 0000000000000007\n", 5));
    keep("", 0);
    hp_piece fed = feed((hp_pieces){0, 0, UINT64_MAX - 1}, "S\n", 0);
    CHECK(fed.what == 1 && fed.number == UINT64_MAX - 1 && stands(fed.pieces, 0, 0, UINT64_MAX));
    fed = feed((hp_pieces){0, 0, 0}, "A      884118446744073709551615\n", 0);
    CHECK(fed.what == 1 && stands(fed.pieces, 0, 0, UINT64_MAX));
    fed = feed((hp_pieces){0, 0, 0}, "A      884100000000000000000042\n", 0);
    CHECK(fed.what == 1 && fed.packet.number == 42 && stands(fed.pieces, 0, 0, 42));

    hp_pieces given = {2, 0, 3};
    keep("Sa", 2);
    CHECK(not_fed(given, LONGEST - 1, "\n", 0, 10) && not_fed(given, LONGEST, "\n", 2, 4) && not_fed(given, LONGEST, "", 1, 4));
    CHECK(not_fed((hp_pieces){2, 1, 3}, LONGEST, "\n", 2, 10) && not_fed((hp_pieces){0, 2, 3}, LONGEST, "\n", 2, 10));
    CHECK(not_fed((hp_pieces){4098, 0, 3}, sizeof buffer, "\n", 0, 10) && not_fed((hp_pieces){UINT64_MAX, 0, 3}, LONGEST, "", 0, 10));
    keep("\na", 2);
    CHECK(not_fed(given, LONGEST, "", 0, 10));
    given.kept = 0;
    fed = hp_soup_take(given, buffer, LONGEST, NULL, 0, 0);
    CHECK(fed.refusal == 0 && fed.what == 0 && fed.place == 0 && stands(fed.pieces, 0, 0, 3) && kept_is("\na", 2));
}

/* a packet as long as may be is taken; an overlong one is refused once, and dropped up to its linefeed */
static void overlong_piece(void) {
    static char longest[LONGEST];
    memset(longest, 'x', sizeof longest);
    longest[0] = 'S';
    keep(longest, LONGEST - 1);
    hp_pieces given = {LONGEST - 1, 0, 5};
    hp_piece fed = feed(given, "\nS", 0);
    CHECK(fed.what == 1 && fed.number == 5 && fed.place == 1 && fed.bytes == LONGEST && fed.packet.length == 4096);
    CHECK(stands(fed.pieces, 0, 0, 6) && buffer[LONGEST - 1] == '\n' && buffer[LONGEST] == FRESH);
    keep(longest, LONGEST - 1);
    fed = feed(given, "xS\n", 0);
    CHECK(fed.refusal == 0 && fed.what == 2 && fed.why == 2 && fed.place == 1 && fed.bytes == LONGEST && fed.packet.type == 0);
    CHECK(stands(fed.pieces, 0, 1, 5) && kept_is(longest, LONGEST));
    fed = feed(fed.pieces, "no linefeed", 0);
    CHECK(fed.refusal == 0 && fed.what == 0 && fed.place == 11 && stands(fed.pieces, 0, 1, 5) && kept_is(longest, LONGEST));
    fed = feed(fed.pieces, "S\nS!\n", 0);
    CHECK(fed.what == 1 && fed.number == 5 && fed.place == 5 && fed.bytes == 3 && stands(fed.pieces, 0, 0, 6));
}

static void ufo_down(void) {
    /* 6 "HI", 7 empty */
    static const uint8_t packet[14] = {0x53, 0, 0, 0, 6, 0, 2, 0, 2, 0x48, 0x49, 0, 0, 0};
    hp_read read = hp_ufo_read_down(packet, 13);
    CHECK(read.refusal == 0 && read.packet.type == 'S' && read.packet.number == 6 && read.packet.count == 2);
    CHECK(read.packet.start == 7 && read.packet.length == 6 && read.packet.next == 0);
    CHECK(hp_ufo_read_down(packet, 14).refusal == 4);

    static const uint8_t end[5] = {0x45, 0, 0, 0, 0};
    read = hp_ufo_read_down(end, sizeof end);
    CHECK(read.refusal == 0 && read.packet.type == 'E' && read.packet.number == 0);

    hp_block block = hp_next_block(packet + 7, 6, 0);
    CHECK(block.refusal == 0 && block.start == 2 && block.length == 2 && block.next == 4);
    block = hp_next_block(packet + 7, 6, 4);
    CHECK(block.refusal == 0 && block.start == 6 && block.length == 0 && block.next == 6);
    block = hp_next_block(packet + 7, 6, 6);
    CHECK(block.refusal == 4 && block.start == 0 && block.length == 0 && block.next == 0);

    clear();
    hp_packet fields = of_type('S');
    fields.number = UINT64_C(1) << 32;
    fields.count = 2;
    CHECK(turned_down(hp_ufo_write_down(fields, packet + 7, 6, out, sizeof out), 7));
    fields.number = 6;
    CHECK(turned_down(hp_ufo_write_down(fields, packet + 7, 6, out, 12), 9));
    CHECK(wrote(hp_ufo_write_down(fields, packet + 7, 6, out, 13), packet, 13));
}

static void ufo_up(void) {
    static const uint8_t packet[12] = {0, 7, 0x54, 0, 0, 0, 3, 0, 2, 0, 1, 'R'}; /* asks 3, two messages; and is there */
    hp_read read = hp_ufo_read_up(packet, sizeof packet);
    CHECK(read.refusal == 0 && read.packet.type == 0 && read.packet.count == 2);
    CHECK(hp_ufo_read_up(packet, 11).refusal == 4);

    read = hp_ufo_read_message(packet, sizeof packet, 0);
    CHECK(read.refusal == 0 && read.packet.type == 'T' && read.packet.number == 3 && read.packet.count == 2);
    CHECK(read.packet.next == 9);
    read = hp_ufo_read_message(packet, sizeof packet, 9);
    CHECK(read.refusal == 0 && read.packet.type == 'R' && read.packet.next == sizeof packet);
    CHECK(hp_ufo_read_message(packet, sizeof packet, sizeof packet).refusal == 4);
    CHECK(hp_ufo_read_message(packet, 10, 0).refusal == 4); /* a byte is left over behind the message */
    static const uint8_t inside[6] = {0, 4, 'U', 0, 1, 'R'};
    read = hp_ufo_read_message(inside, sizeof inside, 0);
    CHECK(read.refusal == 0 && read.packet.type == 'U' && read.packet.start == 3 && read.packet.length == 3);
    CHECK(hp_ufo_read_message(inside, sizeof inside, 3).refusal == 4); /* it is data, and no block of the packet */

    clear();
    hp_packet fields = of_type('T');
    CHECK(turned_down(hp_ufo_write_message(fields, NULL, 0, out, sizeof out), 6));
    fields.number = 3;
    fields.count = 2;
    CHECK(wrote(hp_ufo_write_message(fields, NULL, 0, out, sizeof out), packet, 9));
    CHECK(hp_ufo_add_message(of_type('R'), NULL, 0, out, 11, 9).refusal == 9 && laid(packet, 9));
    CHECK(wrote(hp_ufo_add_message(of_type('R'), NULL, 0, out, 12, 9), packet, 12));
}

/* a UFO login with a user of one letter, and the same without one, alone and behind a heartbeat */
static void ufo_login(void) {
    uint8_t packet[] = "\0\1R" "\0\33Lu     " "          " "8841      ";
    hp_packet fields = nameless("8841      ");
    clear();
    CHECK(turned_down(hp_ufo_write_message(fields, NULL, 0, out, sizeof out), 6));
    CHECK(turned_down(hp_ufo_write_message(fields, NULL, 0, out, 0), 6)); /* before 9 */
    CHECK(wrote(hp_ufo_add_message(of_type('R'), NULL, 0, out, sizeof out, 0), packet, 3));
    hp_wrote answer = hp_ufo_add_message(fields, NULL, 0, out, sizeof out, 3);
    CHECK(answer.refusal == 6 && answer.bytes == 0 && laid(packet, 3));
    fields.user[0] = 'u';
    CHECK(wrote(hp_ufo_add_message(fields, NULL, 0, out, 32, 3), packet, 32));
    CHECK(hp_ufo_read_up(packet, 32).packet.count == 2 && hp_ufo_read_message(packet, 32, 3).packet.user[0] == 'u');
    packet[6] = ' ';
    hp_read read = hp_ufo_read_up(packet, 32);
    CHECK(read.refusal == 6 && read.packet.count == 0);
    read = hp_ufo_read_message(packet, 32, 3);
    CHECK(read.refusal == 6 && read.packet.type == 0 && read.packet.next == 0);
    CHECK(hp_ufo_read_message(packet, 32, 0).refusal == 6); /* the heartbeat is not read either */
}

/* what is refused when a message is added: the output is as before, whatever it is */
static int not_added(hp_packet fields, size_t body_length, uint64_t used, uint64_t refusal) {
    static const uint8_t body[ROOM];
    uint8_t before[ROOM];
    memcpy(before, out, sizeof out);
    hp_wrote answer = hp_ufo_add_message(fields, body, body_length, out, sizeof out, used);
    return answer.refusal == refusal && answer.bytes == 0 && memcmp(out, before, sizeof out) == 0;
}

static void adding(void) {
    clear();
    hp_packet request = of_type('T');
    request.number = UINT64_C(1) << 32;
    CHECK(not_added(request, 0, ROOM + 1, 4)); /* past the end */
    CHECK(not_added(request, 0, 3, 4));        /* behind what is no packet */
    CHECK(not_added(request, 0, ROOM, 2));     /* behind what is too long */
    CHECK(not_added(request, 0, 0, 6));        /* a count of 0 */
    request.count = 1;
    CHECK(not_added(request, 0, 0, 7));
    CHECK(not_added(request, 1463, 0, 4));
    CHECK(not_added(request, 1464, 0, 2));
    CHECK(not_added(of_type('U'), 1470, 0, 2));
    CHECK(wrote(hp_ufo_add_message(of_type('O'), NULL, 0, out, sizeof out, 0), "\0\1O", 3));
    CHECK(not_added(of_type('X'), 1466, 3, 3));
    CHECK(not_added(of_type('X'), 1467, 3, 2));
    CHECK(not_added(of_type('U'), 1467, 3, 2));
    CHECK(not_added(of_type('R'), 0, 2, 4)); /* behind a packet that is cut */
}

static void memx(void) {
    uint8_t heartbeat[18] = {0, 18};
    heartbeat[9] = 7;
    hp_read read = hp_memx_read(heartbeat, sizeof heartbeat);
    CHECK(read.refusal == 0 && read.packet.type == 0 && read.packet.session == 7 && read.packet.number == 0);
    CHECK(read.packet.start == 0 && read.packet.length == 0 && read.packet.extra == 0);
    uint8_t short_header[18] = {0, 17};
    CHECK(hp_memx_read(short_header, sizeof short_header).refusal == 5);

    clear();
    hp_packet fields = of_type(2);
    fields.session = 7;
    fields.number = 1;
    CHECK(turned_down(hp_memx_write(fields, NULL, 0, NULL, 0, out, sizeof out), 6)); /* a count of 0 */
    fields = of_type(0);
    fields.session = 7;
    CHECK(wrote(hp_memx_write(fields, NULL, 0, NULL, 0, out, sizeof heartbeat), heartbeat, sizeof heartbeat));

    hp_opened opened = hp_open_memx(7);
    CHECK(opened.refusal == 0 && opened.record.style == 2 && opened.record.session == 7 && opened.record.next == 1);
    clear();
    hp_taken taken = take(opened.record, heartbeat, sizeof heartbeat);
    CHECK(taken.refusal == 0 && taken.bytes == 0 && taken.record.top == 0 && taken.record.ended == 0);
    CHECK(!hp_standing_of(taken.record).complete);
    heartbeat[9] = 8;
    taken = take(opened.record, heartbeat, sizeof heartbeat);
    CHECK(taken.refusal == 11 && same_record(taken.record, opened.record) && laid("", 0));
}

/* a header of 20 bytes: the two past its own fields are kept, and not looked at */
static void longer_header(void) {
    uint8_t packet[29] = {2, 20};
    packet[9] = 7;
    packet[17] = 1;
    memcpy(packet + 18, "\0\1" "\0\2" "\0\0" "\0\2HI", 10); /* extra, a count, 1 empty, 2 "HI" */
    hp_read read = hp_memx_read(packet, 28);
    CHECK(read.refusal == 0 && read.packet.type == 2 && read.packet.session == 7 && read.packet.number == 1);
    CHECK(read.packet.extra == 2 && read.packet.count == 2 && read.packet.start == 22 && read.packet.length == 6);
    CHECK(read.packet.next == 0);
    CHECK(hp_memx_read(packet, 29).refusal == 4);
    CHECK(hp_memx_read(packet, 19).refusal == 4); /* a header longer than the datagram */

    clear();
    hp_packet fields = read.packet;
    fields.extra = 200; /* not looked at: the count behind the pointer is */
    CHECK(turned_down(hp_memx_write(fields, packet + 18, 2, packet + 22, 6, out, 27), 9));
    CHECK(turned_down(hp_memx_write(fields, packet + 18, 2, packet + 22, 5, out, sizeof out), 4));
    CHECK(wrote(hp_memx_write(fields, packet + 18, 2, packet + 22, 6, out, 28), packet, 28));

    clear();
    hp_taken taken = take(hp_open_memx(7).record, packet, 28);
    CHECK(taken.refusal == 0 && taken.messages == 2 && taken.bytes == 6 && laid(packet + 22, 6));
    CHECK(taken.record.next == 3 && taken.record.top == 2 && taken.record.ended == 0);
    packet[1] = 17;
    CHECK(hp_memx_read(packet, 29).refusal == 5); /* before the byte that is left over */
    clear();
    taken = take(hp_open_memx(7).record, packet, 29);
    CHECK(taken.refusal == 5 && same_record(taken.record, hp_open_memx(7).record) && laid("", 0));
}

/* headers of 255 bytes and more */
static void longest_header(void) {
    static uint8_t bytes[ROOM] = {1, 255}; /* a shutdown */
    memset(bytes + 18, 0xff, sizeof bytes - 18);
    hp_read read = hp_memx_read(bytes, 255);
    CHECK(read.refusal == 0 && read.packet.type == 1 && read.packet.extra == 237);
    CHECK(hp_memx_read(bytes, 254).refusal == 4 && hp_memx_read(bytes, 256).refusal == 4);

    clear();
    hp_packet fields = of_type(1);
    CHECK(wrote(hp_memx_write(fields, bytes + 18, 237, NULL, 0, out, 255), bytes, 255));
    clear();
    CHECK(turned_down(hp_memx_write(fields, bytes + 18, 237, HELLO, 1, out, sizeof out), 4));
    CHECK(turned_down(hp_memx_write(fields, bytes + 18, 238, HELLO, 1, out, sizeof out), 5));
    CHECK(turned_down(hp_memx_write(fields, bytes + 18, 8954, NULL, 0, out, sizeof out), 5));
    CHECK(turned_down(hp_memx_write(fields, bytes + 18, 8954, HELLO, 1, out, sizeof out), 2));
    CHECK(turned_down(hp_memx_write(of_type(3), bytes + 18, 238, NULL, 0, out, sizeof out), 3));
    CHECK(turned_down(hp_memx_write(of_type(3), bytes + 18, 8955, NULL, 0, out, sizeof out), 2));
}

/* a packet of session 7 with one message of so many bytes: it stands here, and so long is it */
static uint8_t jumbo[JUMBO + 1];
static size_t lay_jumbo(uint8_t number, size_t length) {
    memset(jumbo, number, sizeof jumbo);
    memset(jumbo, 0, 20);
    jumbo[0] = 2;
    jumbo[1] = 18;
    jumbo[9] = 7;
    jumbo[17] = number;
    jumbo[19] = 1;
    jumbo[20] = (uint8_t)(length >> 8);
    jumbo[21] = (uint8_t)length;
    return 22 + length;
}

/* a packet of 8,972 bytes is read and written, and not one of a byte more */
static void longest_packet(void) {
    size_t length = lay_jumbo(1, 8950);
    hp_read read = hp_memx_read(jumbo, length);
    CHECK(length == JUMBO && read.refusal == 0 && read.packet.type == 2 && read.packet.number == 1);
    CHECK(read.packet.count == 1 && read.packet.start == 20 && read.packet.length == 8952 && read.packet.extra == 0);
    CHECK(hp_ufo_read_down(jumbo, 1473).refusal == 2); /* UFO's limit is another */
    clear();
    CHECK(turned_down(hp_memx_write(read.packet, NULL, 0, jumbo + 20, 8952, out, JUMBO - 1), 9));
    CHECK(turned_down(hp_memx_write(read.packet, NULL, 0, jumbo + 20, 8953, out, sizeof out), 2));
    CHECK(turned_down(hp_memx_write(read.packet, HELLO, 1, jumbo + 20, 8952, out, sizeof out), 2));
    CHECK(wrote(hp_memx_write(read.packet, NULL, 0, jumbo + 20, 8952, out, JUMBO), jumbo, JUMBO));
    length = lay_jumbo(1, 8951);
    read = hp_memx_read(jumbo, length);
    CHECK(length == JUMBO + 1 && read.refusal == 2 && read.packet.type == 0 && read.packet.length == 0);
}

static hp_tcp of_tcp_type(uint8_t type) {
    hp_tcp fields;
    memset(&fields, 0, sizeof fields);
    fields.type = type;
    return fields;
}

static void tcp(void) {
    uint8_t begin[15] = {5, 0, 12, 0, 0, 0, 0, 0, 0, 0, 3, 0, 0, 0, 2}; /* a replay of two messages, from 3 on */
    hp_tcp_reading read = hp_tcp_read(begin, sizeof begin);
    CHECK(read.refusal == 0 && read.packet.type == 5 && read.packet.number == 3 && read.packet.count == 2);
    CHECK(read.packet.letter == 0 && read.packet.session == 0 && read.packet.top == 0);
    CHECK(read.packet.start == 0 && read.packet.length == 0);
    CHECK(hp_tcp_read(begin, 0).refusal == 1);
    CHECK(hp_tcp_read(begin, 14).refusal == 4);
    begin[10] = 0;
    read = hp_tcp_read(begin, sizeof begin);
    CHECK(read.refusal == 6 && read.packet.type == 0 && read.packet.count == 0);
    begin[0] = 12;
    CHECK(hp_tcp_read(begin, sizeof begin).refusal == 3);

    static uint8_t longest[65539] = {11, 255, 255};
    read = hp_tcp_read(longest, 65538);
    CHECK(read.refusal == 0 && read.packet.type == 11 && read.packet.start == 3 && read.packet.length == 65535);
    CHECK(hp_tcp_read(longest, 65539).refusal == 2);

    static const uint8_t login[13] = {100, 0, 10, 'P', 'm', 'e', ':', 's', 'e', 'c', 'r', 'e', 't'};
    read = hp_tcp_read(login, sizeof login);
    CHECK(read.refusal == 0 && read.packet.type == 100 && read.packet.letter == 'P');
    CHECK(read.packet.start == 4 && read.packet.length == 9);

    clear();
    hp_tcp fields = of_tcp_type(100);
    CHECK(turned_down(hp_tcp_write(fields, login + 4, 9, out, sizeof out), 5));
    fields.letter = 'P';
    CHECK(turned_down(hp_tcp_write(fields, longest, 256, out, sizeof out), 4));
    CHECK(turned_down(hp_tcp_write(fields, longest, 65535, out, sizeof out), 2));
    CHECK(turned_down(hp_tcp_write(fields, login + 4, 9, out, 12), 9));
    CHECK(wrote(hp_tcp_write(fields, login + 4, 9, out, 13), login, 13));

    static const uint8_t request[23] = {101, 0, 20, 0, 0, 0, 0, 0, 0, 0, 7, 0, 0, 0, 0, 0, 0, 0, 3, 0, 0, 0, 2};
    clear();
    fields = of_tcp_type(101);
    fields.session = 7;
    fields.count = 2;
    CHECK(turned_down(hp_tcp_write(fields, NULL, 0, out, sizeof out), 6));
    fields.number = 3;
    CHECK(turned_down(hp_tcp_write(fields, login, 1, out, sizeof out), 4));
    CHECK(wrote(hp_tcp_write(fields, NULL, 0, out, sizeof out), request, sizeof request));
}

/* two messages taken into a fresh record */
static void delivery(void) {
    static const uint8_t packet[] = {'S', 0, 0, 0, 1, 0, 2, 0, 2, 'H', 'I', 0, 0};
    hp_record fresh = hp_open_ufo(&NAME).record;
    clear();
    hp_taken taken = hp_take(fresh, area, sizeof area, packet, sizeof packet, out, 5);
    CHECK(taken.refusal == 9 && taken.bytes == 0 && taken.messages == 0 && same_record(taken.record, fresh) && laid("", 0));
    taken = take(fresh, packet, sizeof packet - 1);
    CHECK(taken.refusal == 4 && same_record(taken.record, fresh) && laid("", 0));
    taken = hp_take(fresh, area, sizeof area, packet, sizeof packet, out, 6);
    CHECK(taken.refusal == 0 && taken.messages == 2 && taken.bytes == 6 && laid(packet + 7, 6));
    CHECK(taken.record.next == 3 && taken.record.top == 2 && taken.record.ended == 0 && taken.record.asked == 0);
}

/* takes `S` with this number and so many empty messages */
static hp_taken take_s(hp_record record, uint8_t number, uint8_t count) {
    uint8_t packet[7 + 2 * 8] = {0x53, 0, 0, 0, 0, 0, 0};
    packet[4] = number;
    packet[6] = count;
    return take(record, packet, 7 + 2 * (size_t)count);
}

/* takes `E` with this total */
static hp_taken take_e(hp_record record, uint8_t total) {
    uint8_t packet[5] = {0x45, 0, 0, 0, 0};
    packet[4] = total;
    return take(record, packet, sizeof packet);
}

/* the specimen book's session, and what to ask in it */
static void record(void) {
    static const uint8_t blank[10] = {' ', ' ', ' ', ' ', ' ', ' ', ' ', ' ', ' ', ' '};
    hp_opened refused = hp_open_ufo(&blank);
    CHECK(refused.refusal == 6 && refused.record.style == 0 && refused.record.next == 0);
    hp_opened opened = hp_open_ufo(&NAME);
    CHECK(opened.refusal == 0 && opened.record.style == 1 && memcmp(opened.record.name, NAME, sizeof NAME) == 0);
    CHECK(opened.record.next == 1 && opened.record.top == 0 && opened.record.asked == 0 && opened.record.ended == 0);
    CHECK(opened.record.held == 0);

    hp_taken taken = take_s(opened.record, 1, 2);
    CHECK(taken.refusal == 0 && taken.messages == 2 && taken.bytes == 4);
    CHECK(taken.record.next == 3 && taken.record.top == 2);
    taken = take_s(taken.record, 5, 1);
    CHECK(taken.refusal == 0 && taken.messages == 0 && taken.record.top == 5 && taken.record.held == 1 << 5);
    hp_standing standing = hp_standing_of(taken.record);
    CHECK(standing.refusal == 0 && !standing.complete && standing.missing == 1 && standing.first == 3 && standing.last == 4);

    hp_sheet sheet = {0, 0, 0};
    hp_patience never = {0, 0, 0}, fixed = {1, 100, 0};
    hp_asked asked = hp_ask(taken.record, sheet, never, 0);
    CHECK(asked.refusal == 0 && asked.what == 2 && asked.first == 3 && asked.count == 2 && asked.record.asked == 3);
    CHECK(hp_ask(asked.record, sheet, never, 86400000).what == 1);
    CHECK(hp_ask(asked.record, sheet, fixed, 99).what == 1);
    CHECK(hp_ask(asked.record, sheet, fixed, 100).what == 2);
    asked = hp_ask(asked.record, sheet, fixed, -1);
    CHECK(asked.refusal == 15 && asked.what == 0 && asked.first == 0 && asked.record.asked == 3);

    taken = take_s(taken.record, 2, 3); /* 3 and 4, and 5 that was held */
    CHECK(taken.refusal == 0 && taken.messages == 3 && taken.record.next == 6 && taken.record.held == 0);
    CHECK(hp_standing_of(taken.record).complete == 0);
    taken = take_e(taken.record, 5);
    standing = hp_standing_of(taken.record);
    CHECK(taken.refusal == 0 && taken.record.ended == 1 && standing.complete == 1 && standing.missing == 0);
    CHECK(hp_ask(taken.record, sheet, never, 0).what == 0);

    CHECK(take_e(taken.record, 4).refusal == 12);
    CHECK(take_s(taken.record, 9, 0).refusal == 12);
    hp_taken stale = take_s(taken.record, 3, 0);
    CHECK(stale.refusal == 0 && same_record(stale.record, taken.record));
    hp_record broken = taken.record;
    broken.next = 0;
    CHECK(hp_standing_of(broken).refusal == 10);
}

static int range_is(hp_record record, uint64_t place, uint64_t first, uint64_t last) {
    hp_range range = hp_missing_range(record, place);
    return range.refusal == 0 && range.first == first && range.last == last;
}

/* these bytes stand at a slot's start, and the rest of the slot was not touched */
static int slot_has(size_t slot, const void *bytes, size_t length) {
    const uint8_t *at = area + slot * SLOT;
    for (size_t place = length; place < SLOT; place++)
        if (at[place] != FRESH) return 0;
    return memcmp(at, bytes, length) == 0;
}

/* messages that come early, over the end of the slots: 30 is next, 31 and 33 are held, then 32 */
static void early(void) {
    static const uint8_t at_31[] = {'S', 0, 0, 0, 31, 0, 1, 0, 2, 'H', 'I'}, again[] = {'S', 0, 0, 0, 31, 0, 2, 0, 2, 'H', 'O', 0, 0};
    static const uint8_t at_33[] = {'S', 0, 0, 0, 33, 0, 1, 0, 1, '!'}, at_30[] = {'S', 0, 0, 0, 30, 0, 1, 0, 0};
    static const uint8_t too_early[] = {'S', 0, 0, 0, 62, 0, 1, 0, 1, '?'};
    hp_record given = hp_open_ufo(&NAME).record;
    given.next = 30;
    given.top = 29;
    clear();
    hp_taken taken = take(given, at_31, sizeof at_31);
    CHECK(taken.refusal == 0 && taken.bytes == 0 && taken.record.held == UINT32_C(1) << 31 && slot_has(31, at_31 + 7, 4));
    taken = take(taken.record, at_33, sizeof at_33);
    CHECK(taken.refusal == 0 && taken.record.held == (UINT32_C(1) << 31 | 2) && slot_has(1, at_33 + 7, 3));
    CHECK(hp_standing_of(taken.record).missing == 2);
    CHECK(range_is(taken.record, 0, 30, 30) && range_is(taken.record, 1, 32, 32) && range_is(taken.record, 2, 0, 0));
    taken = take(taken.record, again, sizeof again); /* slot 31 keeps what it has, and slot 0 gets 32 */
    CHECK(taken.refusal == 0 && slot_has(31, at_31 + 7, 4) && slot_has(0, "\0\0", 2));
    taken = take(taken.record, too_early, sizeof too_early);
    CHECK(taken.refusal == 0 && taken.record.top == 62 && taken.record.held == (UINT32_C(1) << 31 | 3));
    CHECK(range_is(taken.record, 0, 30, 30) && range_is(taken.record, 1, 34, 62) && slot_has(30, "", 0) && laid("", 0));

    given = taken.record;
    static const uint8_t due[] = {0, 0, 0, 2, 'H', 'I', 0, 0, 0, 1, '!'}; /* 30 to 33 */
    taken = hp_take(given, area, sizeof area, at_30, sizeof at_30, out, sizeof due - 1);
    CHECK(taken.refusal == 9 && same_record(taken.record, given) && laid("", 0));
    taken = hp_take(given, area, sizeof area, at_30, sizeof at_30, out, sizeof due);
    CHECK(taken.refusal == 0 && taken.messages == 4 && taken.bytes == sizeof due && laid(due, sizeof due));
    CHECK(taken.record.next == 34 && taken.record.held == 0);
    CHECK(slot_has(31, at_31 + 7, 4) && slot_has(0, "\0\0", 2) && slot_has(1, at_33 + 7, 3)); /* freed slots keep their bytes */
}

/* full slots and areas that don't hang together are 10, before an empty datagram is 1 */
static void not_held(void) {
    hp_record given = hp_open_ufo(&NAME).record;
    given.top = 4;
    given.held = 1 << 3;
    clear();
    CHECK(take(given, NULL, 0).refusal == 10); /* what stands there is no length of a held message */
    CHECK(hp_standing_of(given).refusal == 0 && hp_missing_range(given, 0).refusal == 0);
    memcpy(area + 3 * SLOT, "\5\277", 2);
    CHECK(take(given, NULL, 0).refusal == 10); /* 1,471 */
    memcpy(area + 3 * SLOT, "\5\276", 2);
    CHECK(take(given, NULL, 0).refusal == 1); /* 1,470 */
    CHECK(hp_take(given, area, sizeof area - 1, NULL, 0, out, sizeof out).refusal == 10);
    for (unsigned slot = 0; slot < 32; slot++) {
        uint64_t refusal = slot >= 2 && slot <= 4 ? 0 : 10;
        given.held = UINT32_C(1) << slot;
        hp_range range = hp_missing_range(given, 0);
        CHECK(range.refusal == refusal && range.first == (refusal ? 0 : 1) && hp_standing_of(given).refusal == refusal);
        CHECK(hp_ask(given, (hp_sheet){0, 0, 0}, (hp_patience){0, 0, 0}, 0).refusal == refusal);
        if (refusal) CHECK(take(given, NULL, 0).refusal == 10);
    }
}

/* an early message of 1,470 bytes is held and one of 1,471 is not: it is missing, and delivered once it is next */
static void too_long(void) {
    hp_record fresh = hp_open_memx(7).record;
    clear();
    size_t length = lay_jumbo(3, 1470);
    hp_taken taken = take(fresh, jumbo, length);
    CHECK(taken.refusal == 0 && taken.bytes == 0 && taken.record.held == 1 << 3 && slot_has(3, jumbo + 20, SLOT));
    length = lay_jumbo(2, 1471);
    taken = take(taken.record, jumbo, length);
    CHECK(taken.refusal == 0 && taken.bytes == 0 && taken.record.held == 1 << 3 && slot_has(2, "", 0));
    length = lay_jumbo(4, 1471);
    taken = take(taken.record, jumbo, length);
    CHECK(taken.refusal == 0 && taken.record.held == 1 << 3 && taken.record.top == 4 && slot_has(4, "", 0) && laid("", 0));
    CHECK(range_is(taken.record, 0, 1, 2) && range_is(taken.record, 1, 4, 4) && range_is(taken.record, 2, 0, 0));
    hp_asked asked = hp_ask(taken.record, (hp_sheet){0, 0, 0}, (hp_patience){0, 0, 0}, 0);
    CHECK(asked.what == 2 && asked.first == 1 && asked.count == 2);

    length = lay_jumbo(1, 0);
    taken = take(taken.record, jumbo, length);
    CHECK(taken.refusal == 0 && taken.messages == 1 && taken.record.next == 2 && range_is(taken.record, 0, 2, 2));
    length = lay_jumbo(2, 1471);
    taken = take(taken.record, jumbo, length);
    CHECK(taken.refusal == 0 && taken.messages == 2 && taken.bytes == 1473 + SLOT && taken.record.next == 4);
    CHECK(memcmp(out, jumbo + 20, 1473) == 0 && memcmp(out + 1473, area + 3 * SLOT, SLOT) == 0 && out[1473 + SLOT] == FRESH);
}

/* where 31 messages of 1,470 bytes are held, a packet of 8,972 has room in 54,604 bytes and not in 47,104 */
static void room(void) {
    static uint8_t before[32 * SLOT];
    hp_record given = hp_open_memx(7).record;
    clear();
    for (uint8_t number = 2; number <= 32; number++) given = take(given, jumbo, lay_jumbo(number, 1470)).record;
    memcpy(before, area, sizeof area);
    size_t length = lay_jumbo(1, 8950), needed = 8952 + 31 * SLOT, rooms[] = {0, 8952, UFO_ROOM, needed - 1};
    CHECK(given.held == ~UINT32_C(2) && UFO_ROOM == 47104 && ROOM == 54604);
    for (size_t each = 0; each < sizeof rooms / sizeof *rooms; each++) {
        hp_taken taken = hp_take(given, area, sizeof area, jumbo, length, out, rooms[each]);
        CHECK(taken.refusal == 9 && taken.bytes == 0 && taken.messages == 0 && same_record(taken.record, given));
        CHECK(laid("", 0) && memcmp(area, before, sizeof area) == 0);
    }
    hp_taken taken = hp_take(given, area, sizeof area, jumbo, length, out, needed);
    CHECK(taken.refusal == 0 && taken.messages == 32 && taken.bytes == needed && taken.record.next == 33 && taken.record.held == 0);
    CHECK(take(given, jumbo, length).refusal == 0 && memcmp(out, jumbo + 20, 8952) == 0);
}

static void patience(void) {
    hp_timed timed = hp_time((hp_sheet){0, 0, 0}, 100);
    CHECK(timed.refusal == 0 && timed.sheet.mean == 100 && timed.sheet.spread == 50 && timed.sheet.timed == 1);
    timed = hp_time(timed.sheet, 60);
    CHECK(timed.refusal == 0 && timed.sheet.mean == 95 && timed.sheet.spread == 47.5);
    timed = hp_time(timed.sheet, 95);
    CHECK(timed.refusal == 0 && timed.sheet.mean == 95 && timed.sheet.spread == 35.625);
    hp_timed refused = hp_time(timed.sheet, 60001);
    CHECK(refused.refusal == 15 && refused.sheet.spread == 35.625);

    hp_wait wait = hp_wait_of(timed.sheet, (hp_patience){2, 50, 1000});
    CHECK(wait.refusal == 0 && wait.waits == 1 && wait.milliseconds == 237.5);
    CHECK(hp_wait_of(timed.sheet, (hp_patience){2, 50, 200}).milliseconds == 200);
    CHECK(hp_wait_of(timed.sheet, (hp_patience){0, 0, 0}).waits == 0);
    CHECK(hp_wait_of(timed.sheet, (hp_patience){3, 50, 200}).refusal == 15);

    CHECK(hp_line_lost(10000, 0).yes == 0 && hp_line_lost(10001, 0).yes == 1 && hp_line_lost(0, 1).refusal == 14);
    CHECK(hp_heartbeat_due(1000, 0).yes == 0 && hp_heartbeat_due(1001, 0).yes == 1 && hp_heartbeat_due(0, 1).refusal == 14);
}

/* many messages at once behind "hello", in a copy of its log with a little more room */
static void adding_many(hp_log log, const uint8_t *hello) {
    static const uint8_t two[] = {0, 0, 0, 2, 'H', 'I'}, over[2 + 1464] = {1464 >> 8, 1464 & 255};
    uint8_t bytes[13] = {0}, before[13];
    memcpy(bytes, hello, 7);
    memcpy(before, bytes, sizeof bytes);
    hp_logged logged = hp_log_add_many(log, bytes, sizeof bytes, NULL, 0);
    CHECK(logged.refusal == 0 && logged.log.count == 1 && logged.log.used == 7);
    CHECK(hp_log_add_many(log, bytes, sizeof bytes, two, 5).refusal == 4);
    CHECK(hp_log_add_many(log, bytes, sizeof bytes, over, sizeof over).refusal == 2);
    logged = hp_log_add_many(log, bytes, sizeof bytes - 1, two, sizeof two);
    CHECK(logged.refusal == 9 && logged.log.count == 1 && logged.log.used == 7);
    log.ended = 1;
    CHECK(hp_log_add_many(log, bytes, sizeof bytes, two, 5).refusal == 13);
    log.ended = 2;
    logged = hp_log_add_many(log, bytes, sizeof bytes, two, 5);
    CHECK(logged.refusal == 10 && logged.log.ended == 2);
    CHECK(memcmp(bytes, before, sizeof bytes) == 0);
    log.ended = 0;
    logged = hp_log_add_many(log, bytes, sizeof bytes, two, sizeof two);
    CHECK(logged.refusal == 0 && logged.log.count == 3 && logged.log.used == sizeof bytes && logged.log.ended == 0);
    CHECK(memcmp(bytes, "\0\5hello\0\0\0\2HI", sizeof bytes) == 0);
}

static void lending(void) {
    static const uint8_t long_message[1464];
    static uint8_t bytes[8];
    hp_log log = {0, 0, 0};
    hp_logged logged = hp_log_add(log, bytes, sizeof bytes, HELLO, sizeof HELLO);
    CHECK(logged.refusal == 0 && logged.log.count == 1 && logged.log.used == 7 && logged.log.ended == 0);
    CHECK(memcmp(bytes, "\0\5hello\0", sizeof bytes) == 0);
    log = logged.log;
    CHECK(hp_log_add(log, bytes, sizeof bytes, long_message, sizeof long_message).refusal == 2);
    logged = hp_log_add(log, bytes, sizeof bytes, HELLO, 0);
    CHECK(logged.refusal == 9 && logged.log.count == 1 && logged.log.used == 7);
    adding_many(log, bytes);

    clear();
    CHECK(turned_down(hp_log_answer(log, bytes, sizeof bytes, 0, 1, out, sizeof out), 6));
    CHECK(turned_down(hp_log_answer(log, bytes, sizeof bytes, 1, 1, out, 1471), 9));
    CHECK(wrote(hp_log_answer(log, bytes, sizeof bytes, 1, 9, out, 1472), "S\0\0\0\1\0\1\0\5hello", 14));
    clear();
    CHECK(wrote(hp_log_answer(log, bytes, sizeof bytes, 2, 1, out, 1472), "S\0\0\0\2\0\0", 7));
    clear();
    CHECK(turned_down(hp_log_heartbeat(log, bytes, sizeof bytes, out, 6), 9));
    CHECK(wrote(hp_log_heartbeat(log, bytes, sizeof bytes, out, 7), "S\0\0\0\2\0\0", 7));
    clear();
    CHECK(turned_down(hp_log_end_packet(log, bytes, sizeof bytes, out, sizeof out), 12));

    logged = hp_log_declare_end(log, bytes, sizeof bytes);
    CHECK(logged.refusal == 0 && logged.log.ended == 1 && logged.log.count == 1);
    log = logged.log;
    CHECK(wrote(hp_log_end_packet(log, bytes, sizeof bytes, out, 5), "E\0\0\0\1", 5));
    clear();
    CHECK(wrote(hp_log_answer(log, bytes, sizeof bytes, 2, 1, out, 1472), "E\0\0\0\1", 5));
    CHECK(hp_log_declare_end(log, bytes, sizeof bytes).refusal == 13);
    CHECK(hp_log_add(log, bytes, sizeof bytes, HELLO, 0).refusal == 13);
    log.used = 6;
    CHECK(hp_log_add(log, bytes, sizeof bytes, HELLO, 0).refusal == 10);
    CHECK(hp_log_declare_end(log, bytes, sizeof bytes).refusal == 10);
}

int main(void) {
    soup();
    soup_login();
    noughts();
    pieces();
    refused_pieces();
    overlong_piece();
    ufo_down();
    ufo_up();
    ufo_login();
    adding();
    memx();
    longer_header();
    longest_header();
    longest_packet();
    tcp();
    delivery();
    record();
    early();
    not_held();
    too_long();
    room();
    patience();
    lending();
    return wrong;
}
