/*
 * The label bench, written a second time and on its own from document 01 and
 * request L6, so that two programs can be compared on many streams.
 *
 * Standard input is a stream of lines, all of tablet 0; replies and print sets
 * go to standard output, and one line for each refusal goes to standard error.
 * With the argument `class` each line names its tablet or is the printer's take,
 * and one record for each goes to standard output.
 *
 * The file follows 01: limits, lines and strings, commands and their ranges,
 * the normal form, the form store, soundness, answers, sets, states, the turn
 * of L6, and the program with its two kinds of lines.
 */
#define _POSIX_C_SOURCE 200809L

#include <errno.h>
#include <stdbool.h>
#include <stddef.h>
#include <stdint.h>
#include <stdlib.h>
#include <string.h>
#include <unistd.h>

typedef unsigned char byte;

enum {
    TABLETS = 30,
    LINE_BYTES = 256,   /* a line, its LF not counted */
    STORE_BYTES = 4096, /* form text in the whole store */
    STORE_FORMS = 8,
    FORM_BYTES = 1024, /* one form's text, every LF counted */
    FORM_LINES = 40,
    NAME_BYTES = 16,
    PROMPT_BYTES = 32,
    TEXT_BYTES = 100, /* a string in A, alone or with its value's len */
    COUNTERS = 10,
    VARIABLES = 16,
    VARIABLE_BYTES = 99,
    LAST_X = 811,
    LAST_Y = 8728,
    ROOM_BYTES = 10291, /* what a take has for its set where it says nothing */
    BUFFER_BYTES = 1 << 16
};

enum refusal {
    ACCEPTED = 0,
    LINE_TOO_LONG = 1,
    CONTROL_BYTE = 2,
    NOT_TAKEN_HERE = 3,
    UNKNOWN_LETTERS = 4,
    MALFORMED = 5,
    OUT_OF_RANGE = 6,
    FORM_TOO_LARGE = 7,
    FORM_SPOILED = 8,
    FORM_UNSOUND = 9,
    NAME_STORED = 10,
    STORE_FULL = 11,
    NAME_ABSENT = 12,
    ANSWER_UNFIT = 13,
    COUNTER_LEAVES = 14,
    SET_TOO_LONG = 15,
    NONE_PRINTING = 16,
    OTHER_COLLECTS = 17,
    NO_TABLET = 18,
    FORM_HELD = 19
};

/* ---- Output: two buffered streams ------------------------------------- */

struct output {
    int descriptor;
    size_t length;
    byte bytes[BUFFER_BYTES];
};

static void flush(struct output *out)
{
    size_t done = 0;
    while (done < out->length) {
        ssize_t n = write(out->descriptor, out->bytes + done, out->length - done);
        if (n >= 0)
            done += (size_t)n;
        else if (errno != EINTR)
            exit(EXIT_FAILURE);
    }
    out->length = 0;
}

/* No piece handed over here comes near the size of the buffer. */
static void put(struct output *out, const void *bytes, size_t length)
{
    if (length > BUFFER_BYTES - out->length)
        flush(out);
    memcpy(out->bytes + out->length, bytes, length);
    out->length += length;
}

static void put_text(struct output *out, const char *text)
{
    put(out, text, strlen(text));
}

/* In decimal, with leading zeros up to the given count of digits. */
static void put_number(struct output *out, uint64_t value, int least_digits)
{
    byte digits[20];
    size_t first = sizeof digits;
    do {
        digits[--first] = (byte)('0' + value % 10);
        value /= 10;
        least_digits--;
    } while (value > 0 || least_digits > 0);
    put(out, digits + first, sizeof digits - first);
}

/* ---- Lines and strings ------------------------------------------------ */

/* One line as it came in, CR and 1AH already dropped. */
struct line {
    const byte *bytes;
    size_t length;
};

/* The two refusals that apply to a line in every state. */
static enum refusal judge_bytes(const struct line *line)
{
    if (line->length > LINE_BYTES)
        return LINE_TOO_LONG;
    for (size_t i = 0; i < line->length; i++)
        if (line->bytes[i] < 0x20)
            return CONTROL_BYTE;
    return ACCEPTED;
}

enum kind {
    EMPTY_LINE = 0,
    COMMAND_N,
    COMMAND_ASK, /* the question mark */
    COMMAND_FE,
    COMMAND_FI,
    COMMAND_FS,
    COMMAND_FR,
    COMMAND_FK,
    COMMAND_Q,
    COMMAND_Z,
    COMMAND_A,
    COMMAND_LO,
    COMMAND_LE,
    COMMAND_LW,
    COMMAND_X,
    COMMAND_C,
    COMMAND_V,
    COMMAND_P
};

enum value { NO_VALUE = 0, COUNTER, VARIABLE };

/* One command record. Which fields count depends on the kind. */
struct command {
    enum kind kind;
    int number[6]; /* in the order in which the line has them */
    int step;
    byte letter;
    bool has_string;
    enum value value; /* what an A names: nothing, Cn or Vnn */
    int value_number;
    size_t string_length;
    byte string[LINE_BYTES]; /* unescaped */
};

/* The place a reading of a line has reached. */
struct place {
    const byte *at;
    const byte *end;
};

static bool at_end(const struct place *place)
{
    return place->at == place->end;
}

static bool next_is(const struct place *place, byte b)
{
    return !at_end(place) && *place->at == b;
}

static bool next_is_digit(const struct place *place)
{
    return !at_end(place) && *place->at >= '0' && *place->at <= '9';
}

static bool next_is_letter(const struct place *place)
{
    return !at_end(place) && *place->at >= 'A' && *place->at <= 'Z';
}

static bool pass(struct place *place, byte b)
{
    if (!next_is(place, b))
        return false;
    place->at++;
    return true;
}

/* The shapes below return false where the line is malformed; a value that is
   merely out of range is read and left to in_range. */

static bool read_number(struct place *place, int *value)
{
    int digits = 0;
    *value = 0;
    for (; digits < 6 && next_is_digit(place); digits++)
        *value = *value * 10 + (*place->at++ - '0');
    return digits >= 1 && digits <= 5;
}

static bool read_numbers(struct place *place, int *values, int count)
{
    for (int i = 0; i < count; i++)
        if ((i > 0 && !pass(place, ',')) || !read_number(place, &values[i]))
            return false;
    return true;
}

/* A digit too many is left standing, where no digit can follow. */
static bool read_digits(struct place *place, int count, int *value)
{
    *value = 0;
    for (; count > 0; count--) {
        if (!next_is_digit(place))
            return false;
        *value = *value * 10 + (*place->at++ - '0');
    }
    return true;
}

static bool read_letter(struct place *place, byte *letter)
{
    if (!next_is_letter(place))
        return false;
    *letter = *place->at++;
    return true;
}

static bool read_step(struct place *place, int *step)
{
    bool down = next_is(place, '-');
    if (!pass(place, '-') && !pass(place, '+'))
        return false;
    if (!read_number(place, step))
        return false;
    if (down)
        *step = -*step;
    return true;
}

/* Two moods, plain and after a backslash (Lines and strings). */
static bool read_string(struct place *place, struct command *command)
{
    if (!pass(place, '"'))
        return false;
    bool after_backslash = false;
    command->has_string = true;
    while (!at_end(place)) {
        byte b = *place->at++;
        if (!after_backslash && b == '"')
            return true;
        if (!after_backslash && b == '\\') {
            after_backslash = true;
        } else {
            command->string[command->string_length++] = b;
            after_backslash = false;
        }
    }
    return false;
}

/* ---- The commands of the profile -------------------------------------- */

static enum kind second_letter_of_L(byte b, bool *known)
{
    switch (b) {
    case 'O': return COMMAND_LO;
    case 'E': return COMMAND_LE;
    case 'W': return COMMAND_LW;
    default: *known = false; return EMPTY_LINE;
    }
}

static enum kind second_letter_of_F(byte b, bool *known)
{
    switch (b) {
    case 'E': return COMMAND_FE;
    case 'I': return COMMAND_FI;
    case 'S': return COMMAND_FS;
    case 'R': return COMMAND_FR;
    case 'K': return COMMAND_FK;
    default: *known = false; return EMPTY_LINE;
    }
}

/* Moves past the leading letters; a missing second one is unknown too. */
static bool read_leading_letters(struct place *place, enum kind *kind)
{
    byte first = *place->at++;
    bool known = true;
    switch (first) {
    case 'N': *kind = COMMAND_N; return true;
    case '?': *kind = COMMAND_ASK; return true;
    case 'Q': *kind = COMMAND_Q; return true;
    case 'Z': *kind = COMMAND_Z; return true;
    case 'A': *kind = COMMAND_A; return true;
    case 'X': *kind = COMMAND_X; return true;
    case 'C': *kind = COMMAND_C; return true;
    case 'V': *kind = COMMAND_V; return true;
    case 'P': *kind = COMMAND_P; return true;
    case 'L':
    case 'F':
        if (at_end(place))
            return false;
        *kind = first == 'L' ? second_letter_of_L(*place->at++, &known)
                             : second_letter_of_F(*place->at++, &known);
        return known;
    default: return false;
    }
}

/* The font may be a letter. It then reads as 0, which is out of range. */
static bool read_font(struct place *place, int *font)
{
    byte letter;
    *font = 0;
    return read_letter(place, &letter) || read_number(place, font);
}

static bool read_value(struct place *place, struct command *command)
{
    if (pass(place, 'C')) {
        command->value = COUNTER;
        return read_digits(place, 1, &command->value_number);
    }
    if (pass(place, 'V')) {
        command->value = VARIABLE;
        return read_digits(place, 2, &command->value_number);
    }
    return false;
}

/* Five kinds: a string, a value, or a string and then a value. */
static bool read_content(struct place *place, struct command *command)
{
    if (!next_is(place, '"'))
        return read_value(place, command);
    return read_string(place, command) && (at_end(place) || read_value(place, command));
}

static bool shape_of_A(struct place *place, struct command *command)
{
    int *number = command->number;
    return read_numbers(place, number, 3) && pass(place, ',') &&
           read_font(place, &number[3]) && pass(place, ',') &&
           read_numbers(place, number + 4, 2) && pass(place, ',') &&
           read_letter(place, &command->letter) && pass(place, ',') &&
           read_content(place, command);
}

/* What C and V have in common after their number: len, N. */
static bool shape_of_len_and_N(struct place *place, struct command *command)
{
    return pass(place, ',') && read_number(place, &command->number[1]) &&
           pass(place, ',') && read_letter(place, &command->letter) && pass(place, ',');
}

static bool shape_of_C(struct place *place, struct command *command)
{
    return read_digits(place, 1, &command->number[0]) && shape_of_len_and_N(place, command) &&
           read_step(place, &command->step) && pass(place, ',') && read_string(place, command);
}

static bool shape_of_V(struct place *place, struct command *command)
{
    return read_digits(place, 2, &command->number[0]) && shape_of_len_and_N(place, command) &&
           read_string(place, command);
}

static bool shape_of_P(struct place *place, struct command *command)
{
    command->number[1] = 1;
    if (!read_number(place, &command->number[0]))
        return false;
    return at_end(place) || (pass(place, ',') && read_number(place, &command->number[1]));
}

static bool read_shape(struct place *place, struct command *command)
{
    switch (command->kind) {
    case EMPTY_LINE:
    case COMMAND_N:
    case COMMAND_ASK:
    case COMMAND_FE:
    case COMMAND_FI: return true;
    case COMMAND_FS:
    case COMMAND_FR:
    case COMMAND_FK: return read_string(place, command);
    case COMMAND_Q: return read_numbers(place, command->number, 2);
    case COMMAND_Z: return read_letter(place, &command->letter);
    case COMMAND_A: return shape_of_A(place, command);
    case COMMAND_LO:
    case COMMAND_LE:
    case COMMAND_LW: return read_numbers(place, command->number, 4);
    case COMMAND_X: return read_numbers(place, command->number, 5);
    case COMMAND_C: return shape_of_C(place, command);
    case COMMAND_V: return shape_of_V(place, command);
    case COMMAND_P: return shape_of_P(place, command);
    }
    return false; /* unreached: every kind has its case */
}

static bool within(int value, int least, int most)
{
    return least <= value && value <= most;
}

static bool is_name_byte(byte b)
{
    return within(b, 'A', 'Z') || within(b, 'a', 'z') || within(b, '0', '9') || b == '-' || b == '_';
}

static bool is_name(const struct command *command)
{
    if (command->string_length < 1 || command->string_length > NAME_BYTES)
        return false;
    for (size_t i = 0; i < command->string_length; i++)
        if (!is_name_byte(command->string[i]))
            return false;
    return true;
}

static bool is_star(const struct command *command)
{
    return command->string_length == 1 && command->string[0] == '*';
}

static bool A_in_range(const struct command *command)
{
    const int *n = command->number;
    return within(n[0], 0, LAST_X) && within(n[1], 0, LAST_Y) && within(n[2], 0, 3) &&
           within(n[3], 1, 5) && within(n[4], 1, 24) && within(n[5], 1, 24) &&
           (command->letter == 'N' || command->letter == 'R') &&
           command->string_length <= TEXT_BYTES &&
           (command->value != VARIABLE || command->value_number < VARIABLES);
}

static bool L_in_range(const struct command *command)
{
    const int *n = command->number;
    return n[2] >= 1 && n[3] >= 1 && n[0] + n[2] <= LAST_X + 1 && n[1] + n[3] <= LAST_Y + 1;
}

static bool X_in_range(const struct command *command)
{
    int x1 = command->number[0], y1 = command->number[1], t = command->number[2];
    int x2 = command->number[3], y2 = command->number[4];
    return x1 < x2 && x2 <= LAST_X && y1 < y2 && y2 <= LAST_Y &&
           t >= 1 && t <= x2 - x1 && t <= y2 - y1;
}

static bool C_in_range(const struct command *command)
{
    return within(command->number[1], 1, 9) && command->letter == 'N' &&
           within(command->step, -9999, 9999) && command->string_length <= PROMPT_BYTES;
}

static bool V_in_range(const struct command *command)
{
    return command->number[0] < VARIABLES && within(command->number[1], 1, VARIABLE_BYTES) &&
           command->letter == 'N' && command->string_length <= PROMPT_BYTES;
}

static bool in_range(const struct command *command)
{
    const int *n = command->number;
    switch (command->kind) {
    case EMPTY_LINE:
    case COMMAND_N:
    case COMMAND_ASK:
    case COMMAND_FE:
    case COMMAND_FI: return true;
    case COMMAND_FS:
    case COMMAND_FR: return is_name(command);
    case COMMAND_FK: return is_name(command) || is_star(command);
    case COMMAND_Q: return n[0] <= LAST_Y && n[1] <= LAST_Y;
    case COMMAND_Z: return command->letter == 'T' || command->letter == 'B';
    case COMMAND_A: return A_in_range(command);
    case COMMAND_LO:
    case COMMAND_LE:
    case COMMAND_LW: return L_in_range(command);
    case COMMAND_X: return X_in_range(command);
    case COMMAND_C: return C_in_range(command);
    case COMMAND_V: return V_in_range(command);
    case COMMAND_P: return within(n[0], 1, 65535) && within(n[1], 1, 65535);
    }
    return false; /* unreached: every kind has its case */
}

/* Letters first, then the shape of the whole line, then the ranges: the order
   of 4, 5 and 6 holds for the line and not for its parts. */
static enum refusal read_command(const struct line *line, struct command *command)
{
    struct place place = {line->bytes, line->bytes + line->length};
    memset(command, 0, offsetof(struct command, string)); /* an EMPTY_LINE so far */
    if (at_end(&place))
        return ACCEPTED;
    if (!read_leading_letters(&place, &command->kind))
        return UNKNOWN_LETTERS;
    if (!read_shape(&place, command) || !at_end(&place))
        return MALFORMED;
    return in_range(command) ? ACCEPTED : OUT_OF_RANGE;
}

/* ---- The normal form -------------------------------------------------- */

/* Longer than any line of a form in normal form. */
struct written {
    size_t length;
    byte bytes[2 * LINE_BYTES];
};

static void write_byte(struct written *to, byte b)
{
    to->bytes[to->length++] = b;
}

static void write_number(struct written *to, int value)
{
    byte digits[10];
    size_t first = sizeof digits;
    do {
        digits[--first] = (byte)('0' + value % 10);
        value /= 10;
    } while (value > 0);
    memcpy(to->bytes + to->length, digits + first, sizeof digits - first);
    to->length += sizeof digits - first;
}

static void write_numbers(struct written *to, const int *values, int count)
{
    for (int i = 0; i < count; i++) {
        if (i > 0)
            write_byte(to, ',');
        write_number(to, values[i]);
    }
}

static void write_two_digits(struct written *to, int value)
{
    write_byte(to, (byte)('0' + value / 10));
    write_byte(to, (byte)('0' + value % 10));
}

static size_t escape(byte *to, const byte *from, size_t length)
{
    size_t written = 0;
    for (size_t i = 0; i < length; i++) {
        if (from[i] == '"' || from[i] == '\\')
            to[written++] = '\\';
        to[written++] = from[i];
    }
    return written;
}

static void write_string(struct written *to, const struct command *command)
{
    write_byte(to, '"');
    to->length += escape(to->bytes + to->length, command->string, command->string_length);
    write_byte(to, '"');
}

static void write_value_name(struct written *to, enum value value, int number)
{
    if (value == COUNTER) {
        write_byte(to, 'C');
        write_number(to, number);
    } else if (value == VARIABLE) {
        write_byte(to, 'V');
        write_two_digits(to, number);
    }
}

static void write_letter(struct written *to, byte letter)
{
    write_byte(to, ',');
    write_byte(to, letter);
    write_byte(to, ',');
}

static void write_A(struct written *to, const struct command *command)
{
    write_byte(to, 'A');
    write_numbers(to, command->number, 6);
    write_letter(to, command->letter);
    if (command->has_string)
        write_string(to, command);
    write_value_name(to, command->value, command->value_number);
}

static void write_C(struct written *to, const struct command *command)
{
    write_value_name(to, COUNTER, command->number[0]);
    write_byte(to, ',');
    write_number(to, command->number[1]);
    write_letter(to, command->letter);
    write_byte(to, command->step < 0 ? '-' : '+');
    write_number(to, abs(command->step));
    write_byte(to, ',');
    write_string(to, command);
}

static void write_V(struct written *to, const struct command *command)
{
    write_value_name(to, VARIABLE, command->number[0]);
    write_byte(to, ',');
    write_number(to, command->number[1]);
    write_letter(to, command->letter);
    write_string(to, command);
}

static void write_L(struct written *to, byte second, const struct command *command)
{
    write_byte(to, 'L');
    write_byte(to, second);
    write_numbers(to, command->number, 4);
}

/* Only the nine kinds that a form keeps are ever written from a record. */
static void write_form_line(struct written *to, const struct command *command)
{
    to->length = 0;
    switch (command->kind) {
    case COMMAND_Q:
        write_byte(to, 'Q');
        write_numbers(to, command->number, 2);
        break;
    case COMMAND_Z:
        write_byte(to, 'Z');
        write_byte(to, command->letter);
        break;
    case COMMAND_A: write_A(to, command); break;
    case COMMAND_LO: write_L(to, 'O', command); break;
    case COMMAND_LE: write_L(to, 'E', command); break;
    case COMMAND_LW: write_L(to, 'W', command); break;
    case COMMAND_X:
        write_byte(to, 'X');
        write_numbers(to, command->number, 5);
        break;
    case COMMAND_C: write_C(to, command); break;
    case COMMAND_V: write_V(to, command); break;
    default: break; /* unreached: no other kind is kept */
    }
}

/* ---- The form store --------------------------------------------------- */

/* What is remembered of a form's line beside its text. */
struct form_line {
    enum kind kind;
    enum value value; /* of an A: what it names */
    int number;       /* of a C or V: its own; of an A: the one it names */
    int len;          /* of a C or V */
    int step;         /* of a C */
    bool has_string;
    size_t string_length; /* of an A, unescaped */
    size_t start;         /* place of the line in the form's text */
    size_t fixed;         /* bytes of it that stand in every set as they are */
};

struct form {
    size_t name_length;
    byte name[NAME_BYTES];
    int line_count;
    struct form_line lines[FORM_LINES];
    size_t text_length;
    byte text[FORM_BYTES];
};

struct counter {
    int64_t start;
    int digits; /* of the answer */
    int step;   /* from the definition, so that a set need not look it up */
};

struct variable {
    size_t length;
    byte shown[2 * VARIABLE_BYTES]; /* the answer, escaped once for all sets */
};

enum state { IDLE, COLLECTING, OPEN, ANSWERING, READY, PRINTING };

struct store {
    struct form room[STORE_FORMS + 1];
    /* The stored forms in the order stored, then the free rooms. The one right
       after the stored ones is where a form is collected. */
    struct form *forms[STORE_FORMS + 1];
    int stored;
    size_t bytes_left;
};

/* What a tablet has of its own. */
struct session {
    enum state state;
    bool spoiled;
    const struct form *open;
    int next_line; /* of the open form: the definition that waits for an answer */
    struct counter counters[COUNTERS];
    struct variable variables[VARIABLES];
    int set;
    int sets;
    int copies;
};

struct bench {
    struct store store;
    struct session sessions[TABLETS];
    int last_served;
};

static void start_bench(struct bench *bench)
{
    for (int i = 0; i < TABLETS; i++)
        bench->sessions[i].state = IDLE;
    bench->store.stored = 0;
    bench->store.bytes_left = STORE_BYTES;
    for (int i = 0; i <= STORE_FORMS; i++)
        bench->store.forms[i] = &bench->store.room[i];
    bench->last_served = TABLETS - 1; /* the first turn starts from 0 */
}

static struct form *collected(struct store *store)
{
    return store->forms[store->stored];
}

static bool has_name(const struct form *form, const struct command *command)
{
    return form->name_length == command->string_length &&
           memcmp(form->name, command->string, form->name_length) == 0;
}

/* The place of the named form among the stored ones, or their count. */
static int find_form(const struct store *store, const struct command *command)
{
    int i = 0;
    while (i < store->stored && !has_name(store->forms[i], command))
        i++;
    return i;
}

/* The others keep their order. All that follows moves down, the room of a form
   that is being collected too, and the room freed becomes the last one. */
static void delete_form(struct store *store, int which)
{
    struct form *form = store->forms[which];
    store->bytes_left += form->text_length;
    store->stored--;
    for (int i = which; i < STORE_FORMS; i++)
        store->forms[i] = store->forms[i + 1];
    store->forms[STORE_FORMS] = form;
}

static bool holds_open(const struct session *session)
{
    return session->state != IDLE && session->state != COLLECTING;
}

/* The tablet that asks the next two is Idle, so what they find is another. */

static bool is_collecting(const struct bench *bench)
{
    for (int i = 0; i < TABLETS; i++)
        if (bench->sessions[i].state == COLLECTING)
            return true;
    return false;
}

/* Whether a tablet holds this form open, or any form where none is given. */
static bool is_held(const struct bench *bench, const struct form *form)
{
    for (int i = 0; i < TABLETS; i++)
        if (holds_open(&bench->sessions[i]) && (form == NULL || bench->sessions[i].open == form))
            return true;
    return false;
}

static enum refusal delete_all(struct bench *bench)
{
    if (is_held(bench, NULL))
        return FORM_HELD;
    while (bench->store.stored > 0)
        delete_form(&bench->store, 0);
    return ACCEPTED;
}

static enum refusal delete_named(struct bench *bench, const struct command *command)
{
    int which = find_form(&bench->store, command);
    if (which == bench->store.stored)
        return ACCEPTED;
    if (is_held(bench, bench->store.forms[which]))
        return FORM_HELD;
    delete_form(&bench->store, which);
    return ACCEPTED;
}

static void put_form_information(struct output *out, const struct store *store)
{
    put_text(out, "Form Information:\n");
    if (store->stored == 0)
        put_text(out, "No Form Stored\n");
    for (int i = 0; i < store->stored; i++) {
        put(out, store->forms[i]->name, store->forms[i]->name_length);
        put_text(out, "\n");
    }
}

static enum refusal start_form(struct bench *bench, struct session *session,
                               const struct command *command)
{
    if (find_form(&bench->store, command) < bench->store.stored)
        return NAME_STORED;
    if (is_collecting(bench))
        return OTHER_COLLECTS;
    struct form *form = collected(&bench->store);
    form->name_length = command->string_length;
    memcpy(form->name, command->string, command->string_length);
    form->line_count = 0;
    form->text_length = 0;
    session->spoiled = false;
    session->state = COLLECTING;
    return ACCEPTED;
}

static bool is_definition(enum kind kind)
{
    return kind == COMMAND_C || kind == COMMAND_V;
}

/* An A that names a value stands in a set up to the value's place: its text
   less the value's name, and less the closing quote if a string comes first. */
static size_t fixed_length(const struct command *command, size_t line_length)
{
    size_t name_length = command->value == COUNTER ? 2 : command->value == VARIABLE ? 3 : 0;
    if (command->kind != COMMAND_A || command->value == NO_VALUE)
        return line_length;
    return line_length - name_length - (command->has_string ? 1 : 0);
}

static enum refusal keep_line(struct form *form, const struct command *command)
{
    struct written written;
    write_form_line(&written, command);
    write_byte(&written, '\n');
    if (form->line_count == FORM_LINES || written.length > FORM_BYTES - form->text_length)
        return FORM_TOO_LARGE;
    form->lines[form->line_count++] = (struct form_line){
        .kind = command->kind,
        .value = command->value,
        .number = is_definition(command->kind) ? command->number[0] : command->value_number,
        .len = command->number[1],
        .step = command->step,
        .has_string = command->has_string,
        .string_length = command->string_length,
        .start = form->text_length,
        .fixed = fixed_length(command, written.length - 1),
    };
    memcpy(form->text + form->text_length, written.bytes, written.length);
    form->text_length += written.length;
    return ACCEPTED;
}

/* ---- Soundness -------------------------------------------------------- */

/* The len of each number defined so far; 0 is none, as every len is positive. */
struct defined {
    int counter[COUNTERS];
    int variable[VARIABLES];
};

static bool define(int *len, int given)
{
    if (*len != 0)
        return false;
    *len = given;
    return true;
}

static bool content_sound(const struct form_line *line, const struct defined *defined)
{
    if (line->value == NO_VALUE)
        return true;
    int len = line->value == COUNTER ? defined->counter[line->number]
                                     : defined->variable[line->number];
    return len != 0 && (!line->has_string || line->string_length + (size_t)len <= TEXT_BYTES);
}

static bool line_sound(const struct form_line *line, int number, struct defined *defined)
{
    if ((line->kind == COMMAND_Q) != (number == 1) || (line->kind == COMMAND_Z) != (number == 2))
        return false;
    switch (line->kind) {
    case COMMAND_C: return define(&defined->counter[line->number], line->len);
    case COMMAND_V: return define(&defined->variable[line->number], line->len);
    case COMMAND_A: return content_sound(line, defined);
    default: return true;
    }
}

/* The first line that breaks a rule, counted from 1; 0 if the form is sound. */
static int unsound_line(const struct form *form)
{
    struct defined defined = {{0}, {0}};
    for (int i = 0; i < form->line_count; i++)
        if (!line_sound(&form->lines[i], i + 1, &defined))
            return i + 1;
    return form->line_count < 2 ? form->line_count + 1 : 0;
}

/* FE. Whatever comes of it, collecting is over (Refusals by number). */
static enum refusal end_form(struct store *store, struct session *session, int *breaking_line)
{
    struct form *form = collected(store);
    session->state = IDLE;
    if (session->spoiled)
        return FORM_SPOILED;
    *breaking_line = unsound_line(form);
    if (*breaking_line != 0)
        return FORM_UNSOUND;
    if (store->stored == STORE_FORMS || form->text_length > store->bytes_left)
        return STORE_FULL;
    store->bytes_left -= form->text_length;
    store->stored++;
    return ACCEPTED;
}

/* ---- Answers ---------------------------------------------------------- */

/* Passes over every line that is no definition; true if one is left. */
static bool find_definition(struct session *session)
{
    const struct form *form = session->open;
    while (session->next_line < form->line_count && !is_definition(form->lines[session->next_line].kind))
        session->next_line++;
    return session->next_line < form->line_count;
}

static enum refusal open_form(const struct store *store, struct session *session,
                              const struct command *command)
{
    int which = find_form(store, command);
    if (which == store->stored)
        return NAME_ABSENT;
    session->open = store->forms[which];
    session->next_line = 0;
    session->state = find_definition(session) ? OPEN : READY;
    return ACCEPTED;
}

static enum refusal answer_variable(struct variable *variable, const struct form_line *asked,
                                    const struct line *line)
{
    if (line->length > (size_t)asked->len)
        return ANSWER_UNFIT;
    variable->length = escape(variable->shown, line->bytes, line->length);
    return ACCEPTED;
}

static enum refusal answer_counter(struct counter *counter, const struct form_line *asked,
                                   const struct line *line)
{
    if (line->length < 1 || line->length > (size_t)asked->len)
        return ANSWER_UNFIT;
    counter->step = asked->step;
    counter->start = 0;
    counter->digits = (int)line->length;
    for (size_t i = 0; i < line->length; i++) {
        if (!within(line->bytes[i], '0', '9'))
            return ANSWER_UNFIT;
        counter->start = counter->start * 10 + (line->bytes[i] - '0');
    }
    return ACCEPTED;
}

static enum refusal answer(struct session *session, const struct line *line)
{
    const struct form_line *asked = &session->open->lines[session->next_line];
    enum refusal refusal =
        asked->kind == COMMAND_C
            ? answer_counter(&session->counters[asked->number], asked, line)
            : answer_variable(&session->variables[asked->number], asked, line);
    if (refusal != ACCEPTED)
        return refusal;
    session->next_line++;
    if (!find_definition(session))
        session->state = READY;
    return ACCEPTED;
}

/* ---- Sets ------------------------------------------------------------- */

static int64_t counter_value(const struct counter *counter, int set)
{
    return counter->start + (int64_t)set * counter->step;
}

static int64_t power_of_ten(int exponent)
{
    int64_t power = 1;
    while (exponent-- > 0)
        power *= 10;
    return power;
}

/* The start fits its len and the values move one way, so the last set tells. */
static bool counters_stay(const struct session *session, int sets)
{
    for (int i = 0; i < session->open->line_count; i++) {
        const struct form_line *line = &session->open->lines[i];
        if (line->kind != COMMAND_C)
            continue;
        int64_t last = counter_value(&session->counters[line->number], sets - 1);
        if (last < 0 || last >= power_of_ten(line->len))
            return false;
    }
    return true;
}

static enum refusal print(struct session *session, const struct command *command)
{
    if (!counters_stay(session, command->number[0]))
        return COUNTER_LEAVES;
    session->set = 0;
    session->sets = command->number[0];
    session->copies = command->number[1];
    session->state = PRINTING;
    return ACCEPTED;
}

static void put_value(struct output *out, const struct session *session, const struct form_line *line)
{
    if (line->value == VARIABLE) {
        const struct variable *variable = &session->variables[line->number];
        put(out, variable->shown, variable->length);
    } else {
        const struct counter *counter = &session->counters[line->number];
        put_number(out, (uint64_t)counter_value(counter, session->set), counter->digits);
    }
}

static void put_set_line(struct output *out, const struct session *session, const struct form_line *line)
{
    put(out, session->open->text + line->start, line->fixed);
    if (line->value != NO_VALUE) {
        if (!line->has_string)
            put_text(out, "\"");
        put_value(out, session, line);
        put_text(out, "\"");
    }
    put_text(out, "\n");
}

static void put_set(struct output *out, const struct session *session)
{
    put_text(out, "N\n");
    for (int i = 0; i < session->open->line_count; i++)
        if (!is_definition(session->open->lines[i].kind))
            put_set_line(out, session, &session->open->lines[i]);
    put_text(out, "P1,");
    put_number(out, (uint64_t)session->copies, 1);
    put_text(out, "\n");
}

/* After the last set of a P comes Idle. */
static void end_set(struct session *session)
{
    session->set++;
    if (session->set == session->sets)
        session->state = IDLE;
}

/* ---- The states ------------------------------------------------------- */

static enum refusal idle(struct bench *bench, struct session *session,
                         const struct command *command, struct output *out)
{
    switch (command->kind) {
    case COMMAND_FS: return start_form(bench, session, command);
    case COMMAND_FK: return is_star(command) ? delete_all(bench) : delete_named(bench, command);
    case COMMAND_FI: put_form_information(out, &bench->store); return ACCEPTED;
    case COMMAND_FR: return open_form(&bench->store, session, command);
    case COMMAND_N: return ACCEPTED;
    default: return NOT_TAKEN_HERE;
    }
}

static enum refusal collecting(struct store *store, struct session *session,
                               const struct command *command, int *breaking_line)
{
    switch (command->kind) {
    case COMMAND_FE: return end_form(store, session, breaking_line);
    case COMMAND_Q:
    case COMMAND_Z:
    case COMMAND_A:
    case COMMAND_LO:
    case COMMAND_LE:
    case COMMAND_LW:
    case COMMAND_X:
    case COMMAND_C:
    case COMMAND_V: return session->spoiled ? ACCEPTED : keep_line(collected(store), command);
    default: return NOT_TAKEN_HERE;
    }
}

/* Open, Ready and Printing; in Answering no line is a command. */
static enum refusal holding(struct session *session, const struct command *command)
{
    if (command->kind == COMMAND_N) {
        session->state = IDLE;
        return ACCEPTED;
    }
    if (session->state == OPEN && command->kind == COMMAND_ASK) {
        session->state = ANSWERING;
        return ACCEPTED;
    }
    if (session->state == READY && command->kind == COMMAND_P)
        return print(session, command);
    return NOT_TAKEN_HERE;
}

static enum refusal run_command(struct bench *bench, struct session *session,
                                const struct line *line, struct output *out, int *breaking_line)
{
    struct command command;
    enum refusal refusal = read_command(line, &command);
    if (refusal != ACCEPTED || command.kind == EMPTY_LINE)
        return refusal;
    switch (session->state) {
    case IDLE: return idle(bench, session, &command, out);
    case COLLECTING: return collecting(&bench->store, session, &command, breaking_line);
    default: return holding(session, &command);
    }
}

/* A refused line spoils the form its tablet collects and ends its answering. FE
   has left Collecting by the time it is refused, so it spoils nothing. */
static void after_refusal(struct session *session)
{
    if (session->state == COLLECTING)
        session->spoiled = true;
    else if (session->state == ANSWERING)
        session->state = IDLE;
}

/* One line of a tablet, in any state. */
static enum refusal run_line(struct bench *bench, int tablet, const struct line *line,
                             struct output *out, int *breaking_line)
{
    if (tablet >= TABLETS)
        return NO_TABLET;
    struct session *session = &bench->sessions[tablet];
    enum refusal refusal = judge_bytes(line);
    if (refusal == ACCEPTED)
        refusal = session->state == ANSWERING
                      ? answer(session, line)
                      : run_command(bench, session, line, out, breaking_line);
    if (refusal != ACCEPTED)
        after_refusal(session);
    return refusal;
}

/* ---- The turn (L6) ---------------------------------------------------- */

/* The first tablet in Printing after the one last served, which comes last
   itself; TABLETS if there is none. */
static int tablet_in_turn(const struct bench *bench)
{
    for (int i = 1; i <= TABLETS; i++) {
        int tablet = (bench->last_served + i) % TABLETS;
        if (bench->sessions[tablet].state == PRINTING)
            return tablet;
    }
    return TABLETS;
}

/* The printer's take, into an empty output. What a refused one leaves there
   does not count. */
static enum refusal take(struct bench *bench, size_t room, struct output *out, int *tablet)
{
    *tablet = tablet_in_turn(bench);
    if (*tablet == TABLETS)
        return NONE_PRINTING;
    put_set(out, &bench->sessions[*tablet]);
    if (out->length > room)
        return SET_TOO_LONG;
    end_set(&bench->sessions[*tablet]);
    bench->last_served = *tablet;
    return ACCEPTED;
}

/* ---- The program ------------------------------------------------------ */

/* A line is kept up to a byte more than it may have, behind the longest name of
   a tablet and its space: what follows only makes it too long once more. */
enum { KEPT_BYTES = 6 + LINE_BYTES + 1 };

struct program {
    struct bench bench;
    bool is_class;
    size_t kept;
    byte bytes[KEPT_BYTES]; /* of the line that is coming in */
    uint64_t line_number;
    struct output out;
    struct output refusals;
    struct output reply; /* never written to a descriptor */
};

static void put_refusal(struct output *out, enum refusal refusal, int breaking_line)
{
    put_number(out, (uint64_t)refusal, 1);
    if (refusal == FORM_UNSOUND) {
        put_text(out, " ");
        put_number(out, (uint64_t)breaking_line, 1);
    }
    put_text(out, "\n");
}

/* The program of 01: every line is tablet 0's, and all sets are taken. */
static void end_line_of_one(struct program *program)
{
    struct line line = {program->bytes, program->kept};
    int breaking_line = 0;
    program->line_number++;
    enum refusal refusal = run_line(&program->bench, 0, &line, &program->out, &breaking_line);
    if (refusal != ACCEPTED) {
        put_number(&program->refusals, program->line_number, 1);
        put_text(&program->refusals, " ");
        put_refusal(&program->refusals, refusal, breaking_line);
    }
    struct session *session = &program->bench.sessions[0];
    while (session->state == PRINTING) {
        put_set(&program->out, session);
        end_set(session);
    }
}

/* `take`, or `take` and its room. */
static bool read_take(struct place place, int *room)
{
    *room = ROOM_BYTES;
    if (!pass(&place, 't') || !pass(&place, 'a') || !pass(&place, 'k') || !pass(&place, 'e'))
        return false;
    return at_end(&place) || (pass(&place, ' ') && read_number(&place, room) && at_end(&place));
}

/* A line that is neither a take nor a tablet's names no tablet. */
static enum refusal run_call(struct program *program, int *tablet, int *breaking_line)
{
    struct place place = {program->bytes, program->bytes + program->kept};
    int room;
    if (read_take(place, &room))
        return take(&program->bench, (size_t)room, &program->reply, tablet);
    if (!read_number(&place, tablet) || !pass(&place, ' '))
        return NO_TABLET;
    struct line line = {place.at, (size_t)(place.end - place.at)};
    return run_line(&program->bench, *tablet, &line, &program->reply, breaking_line);
}

static void put_reply(struct program *program, int tablet)
{
    const struct session *session = &program->bench.sessions[tablet];
    int left = session->state == PRINTING ? session->sets - session->set : 0;
    put_text(&program->out, "ok ");
    put_number(&program->out, (uint64_t)tablet, 1);
    put_text(&program->out, " ");
    put_number(&program->out, (uint64_t)left, 1);
    put_text(&program->out, " ");
    put_number(&program->out, program->reply.length, 1);
    put_text(&program->out, "\n");
    put(&program->out, program->reply.bytes, program->reply.length);
}

/* The program of a class: one record for each line. */
static void end_line_of_class(struct program *program)
{
    int tablet = 0, breaking_line = 0;
    program->reply.length = 0;
    enum refusal refusal = run_call(program, &tablet, &breaking_line);
    if (refusal == ACCEPTED) {
        put_reply(program, tablet);
    } else {
        put_text(&program->out, "no ");
        put_refusal(&program->out, refusal, breaking_line);
    }
}

static void end_line(struct program *program)
{
    if (program->is_class)
        end_line_of_class(program);
    else
        end_line_of_one(program);
    program->kept = 0;
}

static void feed(struct program *program, const byte *bytes, size_t length)
{
    for (size_t i = 0; i < length; i++) {
        if (bytes[i] == '\n')
            end_line(program);
        else if (bytes[i] != '\r' && bytes[i] != 0x1A && program->kept < KEPT_BYTES)
            program->bytes[program->kept++] = bytes[i];
    }
}

/* Flushes first: the reader of a reply may be the one who sends the next line. */
static size_t read_input(struct program *program, byte *bytes)
{
    flush(&program->out);
    flush(&program->refusals);
    for (;;) {
        ssize_t n = read(STDIN_FILENO, bytes, BUFFER_BYTES);
        if (n >= 0)
            return (size_t)n;
        if (errno != EINTR)
            exit(EXIT_FAILURE);
    }
}

int main(int count, char **arguments)
{
    static struct program program;
    static byte input[BUFFER_BYTES];
    size_t length;
    program.out.descriptor = STDOUT_FILENO;
    program.refusals.descriptor = STDERR_FILENO;
    program.is_class = count > 1 && strcmp(arguments[1], "class") == 0;
    start_bench(&program.bench);
    while ((length = read_input(&program, input)) > 0)
        feed(&program, input, length);
    return EXIT_SUCCESS;
}
