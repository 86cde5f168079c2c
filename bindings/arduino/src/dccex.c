/* SPDX-License-Identifier: MIT OR Apache-2.0
 *
 * A command station that takes the commands of DCC-EX (dccex.h). Each row of `rows` is a command. */
#include "dccex.h"

enum {
    SLOTS = 64, REPEATS = 2,
    NUMBERS = 6,         /* the most numbers and words of a command */
    LONGEST_SHORT = 127, /* addresses above are long addresses, as in DCC-EX */
    FORWARD = 128, STOP = 0, EMERGENCY_STOP = 1,
    SHOWN_FUNCTIONS = 29, /* answers show F0 to F28 */
    RESETS = 3, COPIES = 5, RECOVERY = 2, POWER_UP = 20, /* packets of a question */
    LEAST_CURRENT = 4000, MOST_CURRENT = 9000,
    OVERLOAD = 3, /* of dccex.overload: the power goes off */
    MOST_LATE = 4 /* idle packets for which the main track waits for the programming track if they are joined */
};

/* The commands that act at once, and their places in the field `urgent`. */
enum { ALL_STOP, POWER_OFF };
static const char urgent_letters[DCCEX_URGENT] = {'!', '0'};

/* The form of DCC-EX's commands that this file knows. Programs such as JMRI choose their commands by this number. */
#define SPOKEN "5.0.0"

/* What a number or a word of a command means. A command has a word as WORD(kind), and ABSENT after its last value. */
enum {
    NOTHING, CAB, ZERO, REGISTER, SPEED, DIR, FUNC, ON, ADDR, SUB, LINEAR, ID, CV, VALUE, BIT, BYTE, N,
    MAIN, PROG, JOIN, DCC, A, R, T, C
};
static const char words[][5] = {"MAIN", "PROG", "JOIN", "DCC", "A", "R", "T", "C"};
#define WORD(kind) (-1000 - (kind))
enum { MOST_NEGATIVE = 999, ABSENT = -2000 };

/* ---- answers ---- */

static void put(dccex *it, char c) {
    if (it->text.len < DCCEX_TEXT) it->text.bytes[it->text.len++] = c;
}

static void put_text(dccex *it, const char *text) {
    while (*text) put(it, *text++);
}

static void put_number(dccex *it, int32_t number) {
    char digits[10];
    uint8_t count = 0;
    if (number < 0) {
        put(it, '-');
        number = -number;
    }
    do {
        digits[count++] = (char)('0' + number % 10);
        number /= 10;
    } while (number > 0);
    while (count > 0) put(it, digits[--count]);
}

/* Begins an answer. */
static void begin(dccex *it, const char *text) {
    it->text.len = 0;
    put_text(it, text);
}

/* Adds a number to the answer, after a blank. */
static void add(dccex *it, int32_t number) {
    put(it, ' ');
    put_number(it, number);
}

/* Gives the answer to a port. Returns false if there is no room for the whole answer. */
static bool give(dccex *it, uint8_t port) {
    dccex_answers *to = &it->answers[port];
    uint8_t len = it->text.len;
    if (len > DCCEX_ANSWERS - to->len) {
        to->has_dropped = true;
        return false;
    }
    for (uint8_t i = 0; i < len; i++) to->ring[(to->first + to->len + i) % DCCEX_ANSWERS] = it->text.bytes[i];
    to->len += len;
    return true;
}

/* Ends the answer, and gives it to the port of the command. Returns false if there is no room. */
static bool tell(dccex *it) {
    put_text(it, ">\n");
    return give(it, it->port);
}

/* Ends the answer, and gives it to all ports. */
static void tell_all(dccex *it) {
    put_text(it, ">\n");
    for (uint8_t port = 0; port < DCCEX_PORTS; port++) give(it, port);
}

static bool tell_text(dccex *it, const char *text) {
    begin(it, text);
    return tell(it);
}

bool dccex_give(dccex *it, uint8_t port, char *c) {
    dccex_answers *from = &it->answers[port];
    if (from->len == 0) return false;
    *c = from->ring[from->first];
    from->first = (from->first + 1) % DCCEX_ANSWERS;
    from->len--;
    return true;
}

/* ---- frames ---- */

/* Adds a command to the station, and returns true. Returns false if the station refuses the command. */
static bool send_frame(dccex *it, const dcc_frame *frame) {
    return dcc_station_command(&it->station, frame->bytes, frame->len) == 0;
}

static bool send(dccex *it, const dcc_packet *packet) {
    dcc_frame frame;
    return dcc_frame_of_packet(packet, &frame) == 0 && send_frame(it, &frame);
}

static uint8_t kind_of(uint16_t cab) {
    return cab > LONGEST_SHORT ? DCC_LONG : DCC_SHORT;
}

static dcc_packet packet_to(uint8_t kind, uint16_t cab) {
    dcc_packet packet = {.kind = kind, .to = kind_of(cab), .address = cab};
    return packet;
}

/* ---- locomotives ---- */

/* Returns the place of a locomotive, or a free place, or null if all places are taken. */
static dccex_cab *place_of(dccex *it, uint16_t cab) {
    dccex_cab *unused = 0;
    for (uint8_t i = 0; i < DCCEX_CABS; i++) {
        if (it->cabs[i].cab == cab) return &it->cabs[i];
        if (it->cabs[i].cab == 0 && !unused) unused = &it->cabs[i];
    }
    return unused;
}

/* Returns a locomotive as it stands in its place. A free place has a new locomotive. */
static dccex_cab cab_in(const dccex_cab *place, uint16_t cab) {
    dccex_cab fresh = {.cab = cab, .speed = FORWARD};
    return place->cab == cab ? *place : fresh;
}

/* The last command of the queue is one of this locomotive. */
static void note_last(const dccex *it, dccex_cab *place) {
    place->ahead = dcc_station_waiting(&it->station);
}

/* Remembers a locomotive whose command was added to the queue as its last one. */
static void remember(dccex *it, dccex_cab *place, const dccex_cab *changed) {
    *place = *changed;
    note_last(it, place);
}

/* Writes `<l CAB PLACE SPEED FUNCTIONS`. */
static void write_cab(dccex *it, const dccex_cab *place) {
    begin(it, "<l");
    add(it, place->cab);
    add(it, place - it->cabs);
    add(it, place->speed);
    add(it, (int32_t)((uint32_t)place->functions.on[0] & (((uint32_t)1 << SHOWN_FUNCTIONS) - 1)));
}

/* Tells all ports what a locomotive does. */
static void answer_cab(dccex *it, const dccex_cab *place) {
    write_cab(it, place);
    tell_all(it);
}

/* All remembered locomotives have stopped, and keep their directions. */
static void answer_stop(dccex *it, uint8_t speed) {
    for (dccex_cab *place = it->cabs; place < it->cabs + DCCEX_CABS; place++) {
        if (place->cab == 0) continue;
        place->speed = (place->speed & FORWARD) | speed;
        answer_cab(it, place);
    }
}

/* ---- the programming track ---- */

/* What a command for the programming track asks for, and the operations that it needs. An operation has the state ASKS
 * while it has a further question, and FAILED if the decoder gave no answer. */
enum { NO_TASK, FOUND_CV, CHANGED_CV, FOUND_BIT, CHANGED_BIT, FOUND_ADDRESS, CHANGED_ADDRESS };
enum { VERIFY, READ, WRITE, VERIFY_BIT, WRITE_BIT };
enum { FAILED = -1, ASKS = -2 };
/* CVs of an address (NMRA S-9.2.2). The bit of CV29 chooses the long address, whose high byte begins at FIRST_HIGH */
enum { CV_SHORT = 1, CV_HIGH = 17, CV_LOW = 18, CV_MODE = 29, LONG_BIT = 5, FIRST_HIGH = 192, LAST_HIGH = 231 };

static const dcc_timing programming_timing = DCC_PROGRAMMING_TIMING;

/* Asks a question. The interrupt does not use the question and the answer while is_asking is false. */
static void ask(dccex *it, const dcc_frame *question) {
    dccex_programming *track = &it->programming;
    bool is_in_service = track->has_power && !track->is_joined;
    track->is_joined = false;
    dcc_sender_start(&track->question, question->bytes, question->len, &programming_timing);
    track->packets = RESETS + COPIES + RECOVERY + (is_in_service ? 0 : POWER_UP);
    track->has_answer = false;
    __atomic_signal_fence(__ATOMIC_SEQ_CST); /* the interrupt finds the question complete */
    track->is_asking = true;
    track->has_power = true;
}

/* No command for the programming track runs. The track has the packets of the main track if the tracks are joined, and
 * no power if not. A packet that waits from the last time is not sent. */
static void rest(dccex *it) {
    dccex_programming *track = &it->programming;
    track->is_asking = track->is_joined = track->is_ready = false;
    __atomic_signal_fence(__ATOMIC_SEQ_CST); /* the interrupt finds no packet that is old */
    track->is_joined = it->is_joined;
    track->has_power = it->is_joined;
}

/* Joins or separates the tracks, after the command for the programming track if one runs. */
static void join(dccex *it, bool is_joined) {
    it->is_joined = is_joined;
    if (it->task.kind == NO_TASK && it->programming.is_joined != is_joined) rest(it);
}

/* Asks the next question of the operation. */
static void ask_next(dccex *it) {
    const dccex_task *task = &it->task;
    dcc_frame question;
    dcc_service_packet packet = {.cv = task->cv, .value = task->value, .place = task->place, .one = task->value == 1};
    switch (task->operation) {
    case READ: dcc_reader_question(&task->reader, &question); break;
    case WRITE: dcc_writer_question(&task->writer, &question); break;
    case VERIFY:
        packet.kind = DCC_CV_VERIFY;
        dcc_service_frame(&packet, &question);
        break;
    default:
        packet.kind = task->operation == WRITE_BIT && !task->is_second ? DCC_CV_BIT_WRITE : DCC_CV_BIT_VERIFY;
        packet.one ^= task->operation == VERIFY_BIT && task->is_second;
        dcc_service_frame(&packet, &question);
    }
    ask(it, &question);
}

/* Begins an operation with the CV, the value and the bit of the task. */
static void begin_operation(dccex *it, uint8_t operation) {
    dccex_task *task = &it->task;
    task->operation = operation;
    task->is_second = false;
    dcc_reader_new(&task->reader, task->cv);
    dcc_writer_new(&task->writer, task->cv, task->value);
    ask_next(it);
}

/* Begins a further operation, which reads a CV, writes a byte, or writes the bit that chooses the address. */
static void go_on(dccex *it, uint8_t operation, uint16_t cv, uint8_t value) {
    it->task.cv = cv;
    it->task.value = value;
    it->task.place = LONG_BIT;
    begin_operation(it, operation);
}

/* The byte of a CV of the address was read. Returns the address, FAILED if there is none that a command can have, or
 * ASKS if a further CV has a part of it. */
static int16_t read_address(dccex *it, int16_t value) {
    int16_t address;
    switch (it->task.cv) {
    case CV_MODE: go_on(it, READ, value & 1 << LONG_BIT ? CV_HIGH : CV_SHORT, 0); return ASKS;
    case CV_HIGH:
        it->task.high = (uint8_t)value;
        if (value < FIRST_HIGH || value > LAST_HIGH) return FAILED;
        go_on(it, READ, CV_LOW, 0);
        return ASKS;
    case CV_LOW:
        address = (int16_t)((it->task.high - FIRST_HIGH) * 256 + value);
        return address > LONGEST_SHORT ? address : FAILED;
    default: return value > 0 && value <= LONGEST_SHORT ? value : FAILED;
    }
}

/* A CV of the address was written. Returns the address, or ASKS if a further CV has a part of it. */
static int16_t write_address(dccex *it) {
    uint16_t cab = it->task.cab;
    switch (it->task.cv) {
    case CV_HIGH: go_on(it, WRITE, CV_LOW, (uint8_t)cab); return ASKS;
    case CV_SHORT:
    case CV_LOW: go_on(it, WRITE_BIT, CV_MODE, cab > LONGEST_SHORT); return ASKS;
    default: return (int16_t)cab;
    }
}

/* Takes the answer to the second question of an operation with a bit, or to its first question. */
static int16_t take_bit(dccex_task *task, bool yes) {
    bool is_first = !task->is_second;
    task->is_second = true;
    if (task->operation == WRITE_BIT) return is_first ? ASKS : yes ? task->value : FAILED;
    if (yes) return is_first ? task->value : 1 - task->value;
    return is_first ? ASKS : FAILED;
}

/* Takes the answer to a question. Returns the value that the operation has found or written, FAILED or ASKS. */
static int16_t take_answer(dccex_task *task, bool yes) {
    uint8_t value = 0, state;
    switch (task->operation) {
    case READ:
        state = dcc_reader_answer(&task->reader, yes, &value);
        return state == DCC_MORE ? ASKS : state == DCC_VALUE ? value : FAILED;
    case WRITE:
        state = dcc_writer_answer(&task->writer, yes);
        return state == DCC_MORE ? ASKS : state == DCC_DONE ? task->value : FAILED;
    case VERIFY:
        task->operation = READ;
        return yes ? task->value : ASKS;
    default: return take_bit(task, yes);
    }
}

/* Writes the answer to the command, for example `<v CV VALUE`, or `<rN|N|CV VALUE` if the command has numbers N. */
static void write_result(dccex *it, int16_t result) {
    static const char *const letters[] = {"", "<v", "<r", "<v", "<r", "<r", "<w"};
    const dccex_task *task = &it->task;
    begin(it, task->has_numbers ? "<r" : letters[task->kind]);
    if (task->has_numbers) {
        for (uint8_t i = 0; i < 2; i++) {
            put_number(it, task->numbers[i]);
            put(it, '|');
        }
        put_number(it, task->cv);
    } else if (task->kind < FOUND_ADDRESS) {
        add(it, task->cv);
    }
    if (task->kind == FOUND_BIT || task->kind == CHANGED_BIT) add(it, task->place);
    add(it, result);
}

/* Ends the task, and tells the port that asked. The result is FAILED if the decoder gave no answer. */
static void finish(dccex *it, int16_t result) {
    uint8_t port = it->port;
    write_result(it, result);
    it->task.kind = NO_TASK;
    rest(it);
    it->port = it->task.port;
    tell(it);
    it->port = port;
}

/* The last packet of a question was sent. */
static void end_question(dccex *it, bool yes) {
    int16_t result = take_answer(&it->task, yes);
    if (result == ASKS) {
        ask_next(it);
        return;
    }
    if (result != FAILED && it->task.kind == FOUND_ADDRESS) result = read_address(it, result);
    if (result != FAILED && it->task.kind == CHANGED_ADDRESS) result = write_address(it);
    if (result != ASKS) finish(it, result);
}

/* ---- commands ---- */

/* A function of a command gets the numbers of the command. It returns false for the answer <X>. */

/* Returns true if the command that runs came before an urgent command, which has acted. */
static bool came_before(const dccex *it, uint8_t urgent) {
    return it->urgent[urgent].before[it->port] > 0;
}

/* Writes the tracks that have power. */
static void write_power(dccex *it) {
    begin(it, it->is_on || it->programming_is_on ? "<p1" : "<p0");
    if (it->is_joined) put_text(it, " JOIN");
    if (it->is_on && !it->programming_is_on) put_text(it, " MAIN");
    if (it->programming_is_on && !it->is_on) put_text(it, " PROG");
}

static void answer_power(dccex *it) {
    write_power(it);
    tell_all(it);
}

static void write_turnout(dccex *it, const dccex_turnout *turnout) {
    begin(it, "<H");
    add(it, turnout->id);
    add(it, turnout->is_thrown);
}

/* Tells that answers or commands of the port were dropped. If this answer finds no room, the next <s> tells it. */
static void answer_dropped(dccex *it) {
    dccex_answers *answers = &it->answers[it->port];
    dccex_line *line = &it->lines[it->port];
    if (answers->has_dropped) answers->has_dropped = !tell_text(it, "<* answers were dropped *");
    if (!line->has_dropped) return;
    line->has_dropped = false;
    if (!tell_text(it, "<* commands were dropped *")) line->has_dropped = true;
}

static bool run_status(dccex *it, const int16_t *numbers) {
    (void)numbers;
    tell_text(it, "<iDCC-EX V-" SPOKEN " / MCU / Kogreffyn G-" DCC_VERSION);
    write_power(it);
    tell(it);
    for (uint8_t i = 0; i < DCCEX_TURNOUTS; i++) {
        if (!it->turnouts[i].is_defined) continue;
        write_turnout(it, &it->turnouts[i]);
        tell(it);
    }
    answer_dropped(it);
    return true;
}

static bool run_places(dccex *it, const int16_t *numbers) {
    (void)numbers;
    begin(it, "<#");
    add(it, DCCEX_CABS);
    tell(it);
    return true;
}

/* The current of the main track, and its limit as the end of the scale and as the warning. */
static bool run_meter(dccex *it, const int16_t *numbers) {
    (void)numbers;
    if (it->most_current == 0) return false;
    begin(it, "<c CurrentMAIN");
    add(it, it->current);
    put_text(it, " C Milli 0");
    add(it, it->most_current);
    add(it, 1);
    add(it, it->most_current);
    tell(it);
    return true;
}

static bool run_tracks(dccex *it, const int16_t *numbers) {
    (void)numbers;
    tell_text(it, "<= A MAIN");
    tell_text(it, "<= B PROG");
    return true;
}

/* The command has the word MAIN, PROG or JOIN, or none for both tracks. A command that came before <0> does nothing. */
static bool run_on(dccex *it, const int16_t *words) {
    if (!came_before(it, POWER_OFF)) {
        join(it, words[0] == WORD(JOIN));
        if (words[0] != WORD(PROG)) it->is_on = true;
        if (words[0] != WORD(MAIN)) it->programming_is_on = true;
    }
    answer_power(it);
    return true;
}

static bool run_off(dccex *it, const int16_t *words) {
    join(it, false);
    if (words[0] != WORD(PROG)) it->is_on = false;
    if (words[0] != WORD(MAIN)) {
        it->programming_is_on = false;
        if (it->task.kind != NO_TASK) finish(it, FAILED);
    }
    answer_power(it);
    return true;
}

/* The stop withdraws waiting commands, so at most as many as still wait stand before the last command of a cab. */
static bool run_emergency_stop(dccex *it, const int16_t *numbers) {
    uint8_t waiting;
    (void)numbers;
    dcc_station_stop(&it->station);
    waiting = dcc_station_waiting(&it->station);
    for (uint8_t i = 0; i < DCCEX_CABS; i++) {
        if (it->cabs[i].ahead > waiting) it->cabs[i].ahead = waiting;
    }
    for (uint8_t i = 0; i < DCCEX_QUEUE; i++) {
        if (it->leaving[i].ahead > waiting) it->leaving[i].ahead = waiting;
    }
    answer_stop(it, EMERGENCY_STOP);
    return true;
}

/* Speed commands for all locomotives: stop (0) and emergency stop (-1), which keep the directions. */
static bool run_throttle_of_all(dccex *it, int16_t speed) {
    dcc_packet stop = {.kind = DCC_SPEED28, .to = DCC_ALL, .forward = true, .bits = 1};
    if (speed > 0) return false;
    if (speed < 0) return run_emergency_stop(it, 0);
    if (!send(it, &stop)) return false;
    answer_stop(it, STOP);
    return true;
}

/* Returns the speed of a command. A step that came before <!> is an emergency stop, so no locomotive moves again. */
static int16_t speed_of(const dccex *it, int16_t typed) {
    return typed > 0 && came_before(it, ALL_STOP) ? -1 : typed;
}

static bool run_throttle(dccex *it, const int16_t *numbers) {
    uint16_t cab = (uint16_t)numbers[0];
    int16_t speed = speed_of(it, numbers[1]);
    dcc_packet packet = packet_to(DCC_SPEED128, cab);
    dccex_cab *place = place_of(it, cab), changed;
    if (cab == 0) return run_throttle_of_all(it, numbers[1]);
    if (!place) return false;
    packet.forward = numbers[2] == 1;
    packet.bits = (uint8_t)(speed < 0 ? EMERGENCY_STOP : speed == 0 ? STOP : speed + 1);
    if (!send(it, &packet)) return false;
    changed = cab_in(place, cab);
    changed.speed = (packet.forward ? FORWARD : 0) | packet.bits;
    remember(it, place, &changed);
    answer_cab(it, place);
    return true;
}

/* The form of DCC++, with a register before the cab: also answers `<T REGISTER SPEED DIR>`. */
static bool run_old_throttle(dccex *it, const int16_t *numbers) {
    if (!run_throttle(it, numbers + 1)) return false;
    begin(it, "<T");
    add(it, numbers[0]);
    add(it, speed_of(it, numbers[2]));
    add(it, numbers[3]);
    tell(it);
    return true;
}

/* Answers the state of a locomotive, which is new if the station does not remember it. */
static bool run_state(dccex *it, const int16_t *numbers) {
    uint16_t cab = (uint16_t)numbers[0];
    const dccex_cab *place = place_of(it, cab);
    if (place && place->cab == cab) {
        write_cab(it, place);
    } else {
        begin(it, "<l");
        add(it, cab);
        put_text(it, " -1 128 0");
    }
    tell(it);
    return true;
}

static bool run_function(dccex *it, const int16_t *numbers) {
    uint16_t cab = (uint16_t)numbers[0];
    dccex_cab *place = place_of(it, cab), changed;
    dcc_frame frame;
    if (!place) return false;
    changed = cab_in(place, cab);
    dcc_functions_turn(&changed.functions, kind_of(cab), cab, (uint8_t)numbers[1], numbers[2] == 1, &frame);
    if (!send_frame(it, &frame)) return false;
    remember(it, place, &changed);
    answer_cab(it, place);
    return true;
}

/* Turns on one of the two outputs of a pair. No packet turns the output off: the decoder ends the pulse of a coil. */
static bool turn(dccex *it, uint16_t board, uint8_t pair, bool side) {
    dcc_packet packet = {.kind = DCC_ACCESSORY, .address = board, .on = true};
    packet.output = (uint8_t)(2 * pair + side);
    return send(it, &packet);
}

/* The board and the pair of a turnout that is counted from 1 on. */
static uint16_t board_of(const dccex *it, int16_t linear) {
    return (uint16_t)((linear - 1) / 4 + (it->counts_from_board_0 ? 0 : 1));
}

static uint8_t pair_of(int16_t linear) {
    return (uint8_t)((linear - 1) % 4);
}

static bool run_accessory(dccex *it, const int16_t *numbers) {
    return turn(it, (uint16_t)numbers[0], (uint8_t)numbers[1], numbers[2] == 1);
}

static bool run_linear(dccex *it, const int16_t *numbers) {
    return turn(it, board_of(it, numbers[0]), pair_of(numbers[0]), numbers[1] == 1);
}

/* ---- turnouts ---- */

/* Returns the turnout with this number, or null. */
static dccex_turnout *turnout_of(dccex *it, int16_t id) {
    for (uint8_t i = 0; i < DCCEX_TURNOUTS; i++) {
        if (it->turnouts[i].is_defined && it->turnouts[i].id == (uint16_t)id) return &it->turnouts[i];
    }
    return 0;
}

static dccex_turnout *free_turnout(dccex *it) {
    for (uint8_t i = 0; i < DCCEX_TURNOUTS; i++) {
        if (!it->turnouts[i].is_defined) return &it->turnouts[i];
    }
    return 0;
}

/* Defines a turnout, or changes its place and keeps its state. Returns false if there is no room. */
static bool define(dccex *it, int16_t id, uint16_t board, uint8_t pair) {
    dccex_turnout *turnout = turnout_of(it, id);
    if (!turnout) {
        turnout = free_turnout(it);
        if (!turnout) return false;
        turnout->is_thrown = false;
    }
    turnout->id = (uint16_t)id;
    turnout->board = board;
    turnout->pair = pair;
    turnout->is_defined = true;
    tell_text(it, "<O");
    return true;
}

static bool run_define(dccex *it, const int16_t *numbers) {
    return define(it, numbers[0], (uint16_t)numbers[1], (uint8_t)numbers[2]);
}

/* (a word stands between the numbers) */
static bool run_define_dcc(dccex *it, const int16_t *numbers) {
    return define(it, numbers[0], (uint16_t)numbers[2], (uint8_t)numbers[3]);
}

static bool run_define_linear(dccex *it, const int16_t *numbers) {
    return define(it, numbers[0], board_of(it, numbers[2]), pair_of(numbers[2]));
}

static bool run_undefine(dccex *it, const int16_t *numbers) {
    dccex_turnout *turnout = turnout_of(it, numbers[0]);
    if (!turnout) return false;
    turnout->is_defined = false;
    tell_text(it, "<O");
    return true;
}

/* Throws a turnout (1 or T), which is output 1 of its pair, or closes it (0 or C). */
static bool run_turnout(dccex *it, const int16_t *numbers) {
    dccex_turnout *turnout = turnout_of(it, numbers[0]);
    bool is_thrown = numbers[1] == 1 || numbers[1] == WORD(T);
    if (!turnout || !turn(it, turnout->board, turnout->pair, is_thrown)) return false;
    turnout->is_thrown = is_thrown;
    write_turnout(it, turnout);
    tell_all(it);
    return true;
}

/* Answers `<H ID DCC BOARD PAIR STATE>` for each turnout. */
static bool run_turnouts(dccex *it, const int16_t *numbers) {
    bool has_one = false;
    (void)numbers;
    for (const dccex_turnout *turnout = it->turnouts; turnout < it->turnouts + DCCEX_TURNOUTS; turnout++) {
        if (!turnout->is_defined) continue;
        has_one = true;
        begin(it, "<H");
        add(it, turnout->id);
        put_text(it, " DCC");
        add(it, turnout->board);
        add(it, turnout->pair);
        add(it, turnout->is_thrown);
        tell(it);
    }
    return has_one;
}

static bool run_turnout_numbers(dccex *it, const int16_t *numbers) {
    (void)numbers;
    begin(it, "<jT");
    for (uint8_t i = 0; i < DCCEX_TURNOUTS; i++) {
        if (it->turnouts[i].is_defined) add(it, it->turnouts[i].id);
    }
    tell(it);
    return true;
}

/* The state of a turnout and its name, which is empty. */
static bool run_turnout_state(dccex *it, const int16_t *numbers) {
    const dccex_turnout *turnout = turnout_of(it, numbers[1]);
    begin(it, "<jT");
    add(it, numbers[1]);
    put_text(it, !turnout ? " X" : turnout->is_thrown ? " T \"\"" : " C \"\"");
    tell(it);
    return true;
}

/* The station has no routes, no names of locomotives and no sensors, so the lists are empty. */
static bool run_routes(dccex *it, const int16_t *numbers) {
    (void)numbers;
    tell_text(it, "<jA");
    return true;
}

static bool run_roster(dccex *it, const int16_t *numbers) {
    (void)numbers;
    tell_text(it, "<jR");
    return true;
}

static bool run_sensors(dccex *it, const int16_t *numbers) {
    (void)it, (void)numbers;
    return true;
}

/* ---- CVs ---- */

static bool run_write_on_main(dccex *it, const int16_t *numbers) {
    dcc_packet packet = packet_to(DCC_CV_WRITE, (uint16_t)numbers[0]);
    packet.cv = (uint16_t)numbers[1];
    packet.value = (uint8_t)numbers[2];
    return send(it, &packet);
}

static bool run_bit_on_main(dccex *it, const int16_t *numbers) {
    dcc_packet packet = packet_to(DCC_CV_BIT_WRITE, (uint16_t)numbers[0]);
    packet.cv = (uint16_t)numbers[1];
    packet.place = (uint8_t)numbers[2];
    packet.one = numbers[3] == 1;
    return send(it, &packet);
}

/* Returns true if the packet is one to this locomotive. */
static bool is_to(const dcc_packet *packet, const dccex_cab *place) {
    if (packet->kind > DCC_CV_BIT_VERIFY || place->cab == 0) return false;
    return packet->address == place->cab && packet->to == kind_of(place->cab);
}

/* Sends a packet of bytes, with its error byte. A packet with a speed that came before <!> is not sent. */
static bool run_packet(dccex *it, const int16_t *numbers) {
    dcc_frame frame = {.len = 0};
    dcc_packet packet;
    uint8_t error = 0;
    bool has_speed, is_sent;
    for (uint8_t i = 1; i < NUMBERS && numbers[i] != ABSENT; i++) {
        frame.bytes[frame.len++] = (uint8_t)numbers[i];
        error ^= (uint8_t)numbers[i];
    }
    frame.bytes[frame.len++] = error;
    dcc_read(frame.bytes, frame.len, &packet);
    has_speed = packet.kind == DCC_SPEED28 || packet.kind == DCC_SPEED128;
    is_sent = !(has_speed && came_before(it, ALL_STOP)) && send_frame(it, &frame);
    for (uint8_t i = 0; i < DCCEX_CABS && is_sent; i++) {
        if (is_to(&packet, &it->cabs[i])) note_last(it, &it->cabs[i]);
    }
    return is_sent;
}

/* Begins a task. If two numbers follow, the answer repeats them. A task that came before <0> ends at once. Returns
 * false if another task is not finished. */
static bool begin_task(dccex *it, const dccex_task *task, const int16_t *numbers) {
    if (it->task.kind != NO_TASK) return false;
    it->task = *task;
    it->task.port = it->port;
    it->task.has_numbers = numbers && numbers[0] != ABSENT;
    for (uint8_t i = 0; i < 2 && it->task.has_numbers; i++) it->task.numbers[i] = numbers[i];
    if (came_before(it, POWER_OFF)) {
        finish(it, FAILED);
    } else {
        begin_operation(it, task->operation);
    }
    return true;
}

static bool run_read(dccex *it, const int16_t *numbers) {
    dccex_task task = {.kind = FOUND_CV, .operation = READ, .cv = (uint16_t)numbers[0]};
    return begin_task(it, &task, numbers + 1);
}

/* Asks if the CV has the value. If the decoder does not acknowledge the value, the station reads the CV. */
static bool run_verify(dccex *it, const int16_t *numbers) {
    dccex_task task = {.kind = FOUND_CV, .operation = VERIFY, .cv = (uint16_t)numbers[0]};
    task.value = (uint8_t)numbers[1];
    return begin_task(it, &task, 0);
}

static bool run_write(dccex *it, const int16_t *numbers) {
    dccex_task task = {.kind = CHANGED_CV, .operation = WRITE, .cv = (uint16_t)numbers[0]};
    task.value = (uint8_t)numbers[1];
    return begin_task(it, &task, numbers + 2);
}

/* Asks if the bit has the value, and then if it has the other value. */
static bool run_verify_bit(dccex *it, const int16_t *numbers) {
    dccex_task task = {.kind = FOUND_BIT, .operation = VERIFY_BIT, .cv = (uint16_t)numbers[0]};
    task.place = (uint8_t)numbers[1];
    task.value = (uint8_t)numbers[2];
    return begin_task(it, &task, 0);
}

/* Writes the bit, and then asks if it has the value. */
static bool run_write_bit(dccex *it, const int16_t *numbers) {
    dccex_task task = {.kind = CHANGED_BIT, .operation = WRITE_BIT, .cv = (uint16_t)numbers[0]};
    task.place = (uint8_t)numbers[1];
    task.value = (uint8_t)numbers[2];
    return begin_task(it, &task, numbers + 3);
}

static bool run_read_address(dccex *it, const int16_t *numbers) {
    dccex_task task = {.kind = FOUND_ADDRESS, .operation = READ, .cv = CV_MODE};
    (void)numbers;
    return begin_task(it, &task, 0);
}

static bool run_write_address(dccex *it, const int16_t *numbers) {
    uint16_t cab = (uint16_t)numbers[0];
    bool is_long = kind_of(cab) == DCC_LONG;
    dccex_task task = {.kind = CHANGED_ADDRESS, .operation = WRITE, .cab = cab};
    task.cv = is_long ? CV_HIGH : CV_SHORT;
    task.value = (uint8_t)(is_long ? FIRST_HIGH + cab / 256 : cab);
    return begin_task(it, &task, 0);
}

/* ---- locomotives that leave ---- */

/* Notes that the entries of a locomotive end after its last waiting command was sent. Returns false if there is no
 * room for this note. */
static bool leave(dccex *it, const dccex_cab *place) {
    if (place->ahead == 0) return true;
    for (uint8_t i = 0; i < DCCEX_QUEUE; i++) {
        if (it->leaving[i].ahead > 0) continue;
        it->leaving[i].cab = place->cab;
        it->leaving[i].ahead = place->ahead;
        return true;
    }
    return false;
}

static bool run_forget(dccex *it, const int16_t *numbers) {
    uint16_t cab = (uint16_t)numbers[0];
    dccex_cab *place = place_of(it, cab);
    static const dccex_cab none;
    if (place && place->cab == cab) {
        if (!leave(it, place)) return false;
        *place = none;
    }
    dcc_station_forget(&it->station, kind_of(cab), cab);
    return true;
}

static bool run_forget_all(dccex *it, const int16_t *numbers) {
    (void)numbers;
    for (uint8_t i = 0; i < DCCEX_CABS; i++) {
        int16_t cab = (int16_t)it->cabs[i].cab;
        if (cab > 0 && !run_forget(it, &cab)) return false;
    }
    return true;
}

/* ---- the table of commands ---- */

typedef struct {
    int16_t least, most;
} range;

/* The numbers that each kind may have. */
static const range ranges[] = {
    [CAB] = {1, 10239}, [ZERO] = {0, 0}, [REGISTER] = {0, 32767}, [SPEED] = {-1, 126}, [DIR] = {0, 1},
    [FUNC] = {0, 68}, [ON] = {0, 1}, [ADDR] = {0, 511}, [SUB] = {0, 3}, [LINEAR] = {1, 2040}, [ID] = {0, 32767},
    [CV] = {1, 1024}, [VALUE] = {0, 255}, [BIT] = {0, 7}, [BYTE] = {0, 255}, [N] = {0, 32767},
};

/* A command: its letter, what its numbers and words mean, and its function. */
typedef struct {
    char letter;
    uint8_t kinds[NUMBERS];
    bool (*run)(dccex *it, const int16_t *numbers);
} row;

/* (the table of README.md has these commands, with these names, and a test compares both) */
static const row rows[] = {
    {'s', {NOTHING}, run_status},
    {'#', {NOTHING}, run_places},
    {'c', {NOTHING}, run_meter},
    {'=', {NOTHING}, run_tracks},
    {'1', {NOTHING}, run_on},
    {'1', {MAIN}, run_on},
    {'1', {PROG}, run_on},
    {'1', {JOIN}, run_on},
    {'0', {NOTHING}, run_off},
    {'0', {MAIN}, run_off},
    {'0', {PROG}, run_off},
    {'t', {CAB, SPEED, DIR}, run_throttle},
    {'t', {ZERO, SPEED, DIR}, run_throttle},
    {'t', {REGISTER, CAB, SPEED, DIR}, run_old_throttle},
    {'t', {REGISTER, ZERO, SPEED, DIR}, run_old_throttle},
    {'t', {CAB}, run_state},
    {'F', {CAB, FUNC, ON}, run_function},
    {'!', {NOTHING}, run_emergency_stop},
    {'-', {CAB}, run_forget},
    {'-', {NOTHING}, run_forget_all},
    {'a', {ADDR, SUB, ON}, run_accessory},
    {'a', {LINEAR, ON}, run_linear},
    {'T', {ID, ADDR, SUB}, run_define},
    {'T', {ID, DCC, ADDR, SUB}, run_define_dcc},
    {'T', {ID, DCC, LINEAR}, run_define_linear},
    {'T', {ID, ON}, run_turnout},
    {'T', {ID, T}, run_turnout},
    {'T', {ID, C}, run_turnout},
    {'T', {NOTHING}, run_turnouts},
    {'T', {ID}, run_undefine},
    {'J', {T}, run_turnout_numbers},
    {'J', {T, ID}, run_turnout_state},
    {'J', {A}, run_routes},
    {'J', {R}, run_roster},
    {'Q', {NOTHING}, run_sensors},
    {'w', {CAB, CV, VALUE}, run_write_on_main},
    {'b', {CAB, CV, BIT, ON}, run_bit_on_main},
    {'M', {REGISTER, BYTE, BYTE}, run_packet},
    {'M', {REGISTER, BYTE, BYTE, BYTE}, run_packet},
    {'M', {REGISTER, BYTE, BYTE, BYTE, BYTE}, run_packet},
    {'M', {REGISTER, BYTE, BYTE, BYTE, BYTE, BYTE}, run_packet},
    {'R', {CV}, run_read},
    {'R', {CV, N, N}, run_read},
    {'V', {CV, VALUE}, run_verify},
    {'W', {CV, VALUE}, run_write},
    {'W', {CV, VALUE, N, N}, run_write},
    {'V', {CV, BIT, ON}, run_verify_bit},
    {'B', {CV, BIT, ON}, run_write_bit},
    {'B', {CV, BIT, ON, N, N}, run_write_bit},
    {'R', {NOTHING}, run_read_address},
    {'W', {CAB}, run_write_address},
};

/* ---- the parser ---- */

/* A command as it was typed: a letter, and numbers and words. */
typedef struct {
    char letter;
    int16_t values[NUMBERS];
} typed;

/* The bytes of a command that are not read. */
typedef struct {
    const char *at, *end;
} input;

static void skip_blanks(input *of) {
    while (of->at < of->end && *of->at == ' ') of->at++;
}

static bool is_at_end(const input *of) {
    return of->at == of->end || *of->at == ' ';
}

/* Returns a letter as a capital letter, and any other byte unchanged. */
static char capital(char c) {
    return c >= 'a' && c <= 'z' ? (char)(c - 'a' + 'A') : c;
}

/* Returns the value of a digit, or 16 if the byte is none. */
static uint8_t digit_of(char c) {
    c = capital(c);
    if (c >= '0' && c <= '9') return (uint8_t)(c - '0');
    return c >= 'A' && c <= 'F' ? (uint8_t)(c - 'A' + 10) : 16;
}

/* Reads a number of one to five digits, from -999 to 32767. A blank or the end comes next. Returns false if there is no
 * such number. */
static bool read_number(input *of, uint8_t base, int16_t *number) {
    bool is_negative = of->at < of->end && *of->at == '-';
    uint32_t value = 0;
    uint8_t digits = 0;
    if (is_negative) of->at++;
    while (of->at < of->end && digit_of(*of->at) < base && digits < 6) {
        value = value * base + digit_of(*of->at++);
        digits++;
    }
    if (digits == 0 || digits > 5 || value > (is_negative ? MOST_NEGATIVE : 32767)) return false;
    *number = (int16_t)(is_negative ? -(int32_t)value : (int32_t)value);
    return is_at_end(of);
}

/* Reads a word, in capital or small letters. */
static bool read_word(input *of, int16_t *number) {
    for (uint8_t i = 0; i < sizeof words / sizeof *words; i++) {
        input rest = *of;
        const char *word = words[i];
        for (; rest.at < rest.end && *word && capital(*rest.at) == *word; word++) rest.at++;
        if (*word || !is_at_end(&rest)) continue;
        *of = rest;
        *number = (int16_t)WORD(MAIN + i);
        return true;
    }
    return false;
}

/* Reads a number or a word. The numbers of <M ..> have the base 16. */
static bool read_value(input *of, char letter, int16_t *value) {
    if (letter == 'M') return read_number(of, 16, value);
    return read_word(of, value) || read_number(of, 10, value);
}

/* Reads a letter and up to six numbers and words. */
static bool read_command(input *of, typed *found) {
    uint8_t count = 0;
    skip_blanks(of);
    if (of->at == of->end) return false;
    found->letter = *of->at++;
    for (uint8_t i = 0; i < NUMBERS; i++) found->values[i] = ABSENT;
    for (skip_blanks(of); of->at < of->end; skip_blanks(of)) {
        if (count == NUMBERS || !read_value(of, found->letter, &found->values[count])) return false;
        count++;
    }
    return true;
}

/* Returns true if the value is a number or the word of this kind. */
static bool is_of_kind(uint8_t kind, int16_t value) {
    if (kind == NOTHING) return value == ABSENT;
    if (kind >= MAIN) return value == WORD(kind);
    return value >= ranges[kind].least && value <= ranges[kind].most;
}

static bool is_command(const row *of, const typed *found) {
    if (of->letter != found->letter) return false;
    for (uint8_t i = 0; i < NUMBERS; i++) {
        if (!is_of_kind(of->kinds[i], found->values[i])) return false;
    }
    return true;
}

static bool run(dccex *it, const typed *found) {
    for (uint8_t i = 0; i < sizeof rows / sizeof *rows; i++) {
        if (is_command(&rows[i], found)) return rows[i].run(it, found->values);
    }
    return false;
}

/* ---- the ports ---- */

/* Keeps a byte of the command that is not complete. It stands after the place of its length, which dccex_take writes
 * last. One place of the ring stays free. */
static void keep(dccex_line *line, char c) {
    if ((uint8_t)(line->written - line->read) + line->len + 2 > DCCEX_LINE - 1) {
        line->has_room = false;
    } else {
        line->ring[(uint8_t)(line->written + 1 + line->len)] = c;
    }
    line->len++;
    if (c == ' ') return;
    if (line->marks == 0) line->letter = c;
    if (line->marks < 2) line->marks++;
}

/* Notes that an urgent command comes after all commands of the ports. */
static void note_places(dccex *it, dccex_urgent *urgent) {
    for (uint8_t port = 0; port < DCCEX_PORTS; port++) urgent->places[port] = it->lines[port].written;
}

/* Takes an urgent command. Returns false if the command is another one. */
static bool take_urgent(dccex *it, const dccex_line *line) {
    for (uint8_t i = 0; i < DCCEX_URGENT; i++) {
        if (line->marks != 1 || line->letter != urgent_letters[i]) continue;
        note_places(it, &it->urgent[i]);
        it->urgent[i].has_come = true;
        return true;
    }
    return false;
}

/* Adds the command to those that wait. */
static void take_command(dccex_line *line) {
    if (!line->has_room || (uint8_t)(line->written - line->read) + line->len + 1 > DCCEX_LINE - 1) {
        line->has_dropped = true;
        return;
    }
    line->ring[line->written] = (char)line->len;
    __atomic_signal_fence(__ATOMIC_SEQ_CST); /* the main loop finds the command complete */
    line->written = (uint8_t)(line->written + 1 + line->len);
}

void dccex_take(dccex *it, uint8_t port, char c) {
    dccex_line *line = &it->lines[port];
    if (c == '<') {
        line->is_open = line->has_room = true;
        line->len = line->marks = 0;
    } else if (line->is_open && c == '>') {
        line->is_open = false;
        if (line->len <= DCCEX_COMMAND && !take_urgent(it, line)) take_command(line);
    } else if (line->is_open && line->len < DCCEX_COMMAND) {
        keep(line, c);
    } else if (line->is_open) {
        line->len = DCCEX_COMMAND + 1;
    }
}

/* Executes an urgent command, after the commands of the ports up to its places. */
static void act_at_once(dccex *it, uint8_t urgent) {
    typed found = {.letter = urgent_letters[urgent]};
    for (uint8_t i = 0; i < NUMBERS; i++) found.values[i] = ABSENT;
    for (uint8_t port = 0; port < DCCEX_PORTS; port++) {
        it->urgent[urgent].before[port] = (uint8_t)(it->urgent[urgent].places[port] - it->lines[port].read);
    }
    run(it, &found);
}

/* Executes the urgent commands that have come. */
static void execute_urgent(dccex *it) {
    for (uint8_t i = 0; i < DCCEX_URGENT; i++) {
        if (!it->urgent[i].has_come) continue;
        it->urgent[i].has_come = false; /* if it comes again from now on, it runs again */
        act_at_once(it, i);
    }
}

/* Executes the first command that waits at a port. */
static void execute_first(dccex *it, uint8_t port) {
    dccex_line *line = &it->lines[port];
    char command[DCCEX_COMMAND];
    uint8_t len = (uint8_t)line->ring[line->read];
    input of = {command, command + len};
    typed found;
    for (uint8_t i = 0; i < len; i++) command[i] = line->ring[(uint8_t)(line->read + 1 + i)];
    it->port = port;
    if (!read_command(&of, &found) || !run(it, &found)) tell_text(it, "<X");
    for (uint8_t i = 0; i < DCCEX_URGENT; i++) {
        if (it->urgent[i].before[port] > 0) it->urgent[i].before[port] -= len + 1;
    }
    line->read = (uint8_t)(line->read + 1 + len);
}

/* Executes the urgent commands and at most one other command. The ports take turns. A command that was complete before
 * the urgent commands were looked for came before each one that is not found. */
static void execute(dccex *it) {
    uint8_t ends[DCCEX_PORTS], port = it->port;
    for (uint8_t i = 0; i < DCCEX_PORTS; i++) ends[i] = it->lines[i].written;
    __atomic_signal_fence(__ATOMIC_SEQ_CST); /* the interrupt has written the commands up to these places */
    execute_urgent(it);
    for (uint8_t i = 0; i < DCCEX_PORTS; i++) {
        port = (uint8_t)((port + 1) % DCCEX_PORTS);
        if (it->lines[port].read == ends[port]) continue;
        execute_first(it, port);
        return;
    }
}

/* ---- both tracks ---- */

static const dcc_timing main_timing = DCC_MAIN_TIMING;

void dccex_begin(dccex *it) {
    static const uint8_t idle[3] = {0xff, 0x00, 0xff}, reset[3] = {0, 0, 0};
    dcc_station_new(&it->station, DCCEX_QUEUE, SLOTS, REPEATS);
    dcc_sender_start(&it->main.idle, idle, sizeof idle, &main_timing);
    dcc_sender_start(&it->programming.reset, reset, sizeof reset, &programming_timing);
}

/* The first command of the queue was sent. A locomotive that was forgotten has no entries after its last command. */
static void count_sent(dccex *it) {
    for (uint8_t i = 0; i < DCCEX_CABS; i++) {
        if (it->cabs[i].ahead > 0) it->cabs[i].ahead--;
    }
    for (uint8_t i = 0; i < DCCEX_QUEUE; i++) {
        dccex_leaving *leaving = &it->leaving[i];
        if (leaving->ahead == 0 || --leaving->ahead > 0) continue;
        dcc_station_forget(&it->station, kind_of(leaving->cab), leaving->cab);
    }
}

/* Prepares the next packet of the main track, and of the programming track if the tracks are joined. */
static void prepare_packet(dccex *it) {
    bool is_for_both = it->programming.is_joined && !it->programming.is_ready;
    uint8_t waiting = dcc_station_waiting(&it->station);
    dcc_frame frame;
    dcc_station_next(&it->station, &frame);
    if (dcc_station_waiting(&it->station) < waiting) count_sent(it);
    if (it->overload > 0 && it->overload < OVERLOAD) it->overload++;
    dcc_sender_start(&it->main.next, frame.bytes, frame.len, &main_timing);
    if (is_for_both) it->programming.next = it->main.next;
    __atomic_signal_fence(__ATOMIC_SEQ_CST); /* the interrupts find the packet complete */
    it->main.is_ready = true;
    if (is_for_both) it->programming.is_ready = true;
}

/* Returns true if the main track, or both of joined tracks, have begun the last packet. The main track does not wait
 * long for a programming track without interrupts. */
static bool has_begun(const dccex *it) {
    bool waits = it->programming.is_joined && it->programming.is_ready && it->main.late < MOST_LATE;
    return !it->main.is_ready && !waits;
}

void dccex_process(dccex *it) {
    execute(it);
    if (has_begun(it)) prepare_packet(it);
    if (it->task.kind == NO_TASK || it->programming.is_asking) return;
    __atomic_signal_fence(__ATOMIC_SEQ_CST); /* the interrupt has written the answer */
    end_question(it, it->programming.has_answer);
}

bool dccex_measure(dccex *it, uint16_t milliamperes) {
    it->current = milliamperes;
    if (it->most_current == 0 || milliamperes <= it->most_current || !it->is_on) {
        it->overload = 0;
    } else if (it->overload == 0) {
        it->overload = 1;
    }
    if (it->overload < OVERLOAD) return false;
    it->overload = 0;
    note_places(it, &it->urgent[POWER_OFF]);
    act_at_once(it, POWER_OFF);
    return true;
}

uint16_t dccex_half(dccex *it) {
    dccex_main *track = &it->main;
    uint16_t us = dcc_sender_half(&track->sender);
    if (us > 0) return us;
    track->sender = track->is_ready ? track->next : track->idle;
    track->late = track->is_ready ? 0 : track->late < MOST_LATE ? track->late + 1 : MOST_LATE;
    __atomic_signal_fence(__ATOMIC_SEQ_CST); /* the main loop may write the next packet now */
    track->is_ready = false;
    return dcc_sender_half(&track->sender);
}

/* Begins the next packet of joined tracks, or an idle packet if the main loop is late. */
static void begin_joined(dccex *it) {
    dccex_programming *track = &it->programming;
    track->sender = track->is_ready ? track->next : it->main.idle;
    __atomic_signal_fence(__ATOMIC_SEQ_CST); /* the main loop may write the next packet now */
    track->is_ready = false;
}

/* A question is three resets, five copies, and two resets in which the decoder can acknowledge the last copy. If the
 * main loop is late, further resets are sent. */
static void begin_packet(dccex_programming *track) {
    bool is_copy = track->is_asking && track->packets > RECOVERY && track->packets <= RECOVERY + COPIES;
    track->sender = is_copy ? track->question : track->reset;
    if (!track->is_asking) return;
    if (track->packets == 0) {
        track->is_asking = false;
    } else {
        track->packets--;
    }
}

/* The current of an acknowledgement ends. A shorter or longer current is no acknowledgement. */
static void take_current(dccex_programming *track, bool draws_current) {
    if (draws_current) {
        track->drawn = track->drawn > MOST_CURRENT ? track->drawn : (uint16_t)(track->drawn + track->last);
        return;
    }
    if (track->drawn >= LEAST_CURRENT && track->drawn <= MOST_CURRENT) track->has_answer = true;
    track->drawn = 0;
}

uint16_t dccex_programming_half(dccex *it, bool draws_current) {
    dccex_programming *track = &it->programming;
    static const dcc_sender nothing;
    if (!track->has_power) {
        track->sender = nothing;
        track->drawn = 0;
        return 0;
    }
    take_current(track, draws_current);
    track->last = dcc_sender_half(&track->sender);
    if (track->last == 0) {
        if (track->is_joined) begin_joined(it);
        else begin_packet(track);
        track->last = dcc_sender_half(&track->sender);
    }
    return track->last;
}
