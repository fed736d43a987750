/* A plain C reader of bench texts, to compare the proved one with: a lexer into columns and a recursive-descent parser. */
#include "readers.h"
#include <string.h>

enum {
    NAME, WHOLE_NUMBER, REAL_NUMBER, INTERFACE, ATTRIBUTE, EVENT, ACTION, ENTITY, RULES, WHEN, FROM, WITH, VALUE, CHANGED, TRIGGER, ON,
    END, AND, OR, TRUE, FALSE, WHOLE, BOOL, REAL, BRACE_OPEN, BRACE_CLOSE, ROUND_OPEN, ROUND_CLOSE, COLON, EQUALS, COMMA, DOT, PLUS,
    MINUS, TIMES, DIVIDE, RANK, NONE = 255
};

/* What a byte begins, or may go on with: a blank, a letter, a digit, `_`, `#`, or a mark with its class. */
enum { BLANK = 1, LETTER = 2, DIGIT = 4, UNDERSCORE = 8, HASH = 16, MARK = 32, IN_NAME = LETTER | DIGIT | UNDERSCORE };
static const uint8_t kind[256] = {
    ['\t'] = BLANK, ['\n'] = BLANK, [' '] = BLANK, ['#'] = HASH, ['_'] = UNDERSCORE,
    ['a' ... 'z'] = LETTER, ['A' ... 'Z'] = LETTER, ['0' ... '9'] = DIGIT,
    ['{'] = MARK, ['}'] = MARK, ['('] = MARK, [')'] = MARK, [':'] = MARK, ['='] = MARK,
    [','] = MARK, ['.'] = MARK, ['+'] = MARK, ['-'] = MARK, ['*'] = MARK, ['/'] = MARK,
};
static const uint8_t mark[256] = {
    ['{'] = BRACE_OPEN, ['}'] = BRACE_CLOSE, ['('] = ROUND_OPEN, [')'] = ROUND_CLOSE, [':'] = COLON, ['='] = EQUALS,
    [','] = COMMA, ['.'] = DOT, ['+'] = PLUS, ['-'] = MINUS, ['*'] = TIMES, ['/'] = DIVIDE,
};

#define IS(word, class) if (!memcmp(s, word, sizeof word - 1)) return class
static uint8_t name_class(const uint8_t *s, size_t n) {
    switch (n) {
    case 2: IS("on", ON); IS("or", OR); break;
    case 3: IS("end", END); IS("and", AND); break;
    case 4: IS("when", WHEN); IS("from", FROM); IS("with", WITH); IS("true", TRUE); IS("bool", BOOL); IS("real", REAL); IS("rank", RANK); break;
    case 5: IS("event", EVENT); IS("rules", RULES); IS("value", VALUE); IS("false", FALSE); IS("whole", WHOLE); break;
    case 6: IS("action", ACTION); IS("entity", ENTITY); break;
    case 7: IS("changed", CHANGED); IS("trigger", TRIGGER); break;
    case 9: IS("interface", INTERFACE); IS("attribute", ATTRIBUTE); break;
    }
    return NAME;
}

/* The count of tokens, or -1 with the offset of what is no token. */
static long lex(const uint8_t *s, size_t n, uint8_t *classes, uint16_t *offsets, uint8_t *lengths, uint32_t *values, size_t *bad) {
    size_t at = 0, count = 0;
    while (at < n) {
        size_t end = at + 1;
        uint8_t b = s[at], class;
        uint32_t value = 0;
        switch (kind[b]) {
        case BLANK:
            at = end;
            continue;
        case HASH:
            while (end < n && ((s[end] >= 32 && s[end] <= 126) || s[end] == '\t')) end++;
            at = end;
            continue;
        case LETTER:
            while (end < n && kind[s[end]] & IN_NAME) end++;
            if (end - at > 24) { *bad = at; return -1; }
            class = name_class(s + at, end - at);
            break;
        case DIGIT: {
            uint64_t v = b - '0';
            while (end < n && kind[s[end]] == DIGIT) {
                if (end - at == 10) { *bad = at; return -1; }
                v = v * 10 + (s[end++] - '0');
            }
            if (v > 2147483647) { *bad = at; return -1; }
            value = (uint32_t)v;
            class = WHOLE_NUMBER;
            if (end < n && s[end] == 'r') { class = REAL_NUMBER; end++; }
            break;
        }
        case MARK:
            class = mark[b];
            break;
        default:
            *bad = at;
            return -1;
        }
        classes[count] = class;
        offsets[count] = (uint16_t)at;
        lengths[count] = (uint8_t)(end - at);
        values[count] = value;
        count++;
        at = end;
    }
    return (long)count;
}

/* Each reader says whether it fits; `at` is then the next token, else the first unfit one. */
typedef struct {
    const uint8_t *class;
    size_t count, at;
} parser;

static inline uint8_t next(const parser *p) { return p->at < p->count ? p->class[p->at] : NONE; }

static inline int take(parser *p, uint8_t class) {
    if (next(p) != class) return 0;
    p->at++;
    return 1;
}

static int kind_of(parser *p) {
    uint8_t c = next(p);
    if (c != WHOLE && c != BOOL && c != REAL) return 0;
    p->at++;
    return 1;
}

static int members(parser *p, uint8_t sort) {
    while (take(p, sort)) {
        if (!(take(p, NAME) && take(p, COLON) && kind_of(p))) return 0;
    }
    return 1;
}

static int interface(parser *p) {
    if (!(take(p, NAME) && take(p, BRACE_OPEN) && members(p, ATTRIBUTE) && members(p, EVENT))) return 0;
    while (take(p, ACTION)) {
        if (!(take(p, NAME) && take(p, ROUND_OPEN) && kind_of(p) && take(p, ROUND_CLOSE))) return 0;
    }
    return take(p, BRACE_CLOSE);
}

static int literal(parser *p) {
    uint8_t c = next(p);
    if (c == TRUE || c == FALSE || c == WHOLE_NUMBER || c == REAL_NUMBER) {
        p->at++;
        return 1;
    }
    return take(p, MINUS) && (take(p, WHOLE_NUMBER) || take(p, REAL_NUMBER));
}

static int entity(parser *p) {
    if (!(take(p, NAME) && take(p, COLON) && take(p, NAME) && take(p, BRACE_OPEN))) return 0;
    while (take(p, NAME)) {
        if (!(take(p, EQUALS) && literal(p))) return 0;
    }
    return take(p, BRACE_CLOSE);
}

static int expression(parser *p, int openers);

static int factor(parser *p, int openers) {
    switch (next(p)) {
    case NAME:
        p->at++;
        return take(p, DOT) && take(p, NAME);
    case TRUE: case FALSE: case WHOLE_NUMBER: case REAL_NUMBER:
        p->at++;
        return 1;
    case REAL:
        if (!openers) return 0;
        p->at++;
        return take(p, ROUND_OPEN) && expression(p, openers - 1) && take(p, ROUND_CLOSE);
    case ROUND_OPEN:
        if (!openers) return 0;
        p->at++;
        return expression(p, openers - 1) && take(p, ROUND_CLOSE);
    case MINUS:
        if (!openers) return 0;
        p->at++;
        return factor(p, openers - 1);
    default:
        return 0;
    }
}

static int term(parser *p, int openers) {
    if (!factor(p, openers)) return 0;
    while (next(p) == TIMES || next(p) == DIVIDE) {
        p->at++;
        if (!factor(p, openers)) return 0;
    }
    return 1;
}

static int expression(parser *p, int openers) {
    if (!term(p, openers)) return 0;
    while (next(p) == PLUS || next(p) == MINUS) {
        p->at++;
        if (!term(p, openers)) return 0;
    }
    return 1;
}

static int target(parser *p) {
    if (!take(p, NAME)) return 0;
    return !take(p, COLON) || take(p, NAME);
}

static int filter(parser *p, int openers) {
    return !take(p, WITH) || (take(p, NAME) && take(p, EQUALS) && expression(p, openers));
}

static int clause(parser *p, int openers) {
    if (!(take(p, EVENT) && take(p, NAME) && take(p, FROM) && target(p) && filter(p, openers) && take(p, VALUE))) return 0;
    return take(p, CHANGED) || (take(p, EQUALS) && expression(p, openers));
}

static int condition(parser *p, int openers);

static int atom(parser *p, int openers) {
    if (openers && take(p, ROUND_OPEN)) return condition(p, openers - 1) && take(p, ROUND_CLOSE);
    return clause(p, openers);
}

static int conjunction(parser *p, int openers) {
    if (!atom(p, openers)) return 0;
    while (take(p, AND)) {
        if (!atom(p, openers)) return 0;
    }
    return 1;
}

static int condition(parser *p, int openers) {
    if (!conjunction(p, openers)) return 0;
    while (take(p, OR)) {
        if (!conjunction(p, openers)) return 0;
    }
    return 1;
}

static int call(parser *p) {
    return take(p, ACTION) && take(p, NAME) && take(p, ROUND_OPEN) && expression(p, 16) && take(p, ROUND_CLOSE) && take(p, ON) && target(p) && filter(p, 16);
}

static int rank(parser *p) {
    return !take(p, RANK) || take(p, WHOLE_NUMBER);
}

static int rule(parser *p) {
    if (!(rank(p) && condition(p, 16) && take(p, TRIGGER) && call(p))) return 0;
    while (take(p, COMMA)) {
        if (!call(p)) return 0;
    }
    return take(p, END);
}

static int file(parser *p) {
    while (take(p, INTERFACE)) {
        if (!interface(p)) return 0;
    }
    while (take(p, ENTITY)) {
        if (!entity(p)) return 0;
    }
    if (!take(p, RULES)) return 0;
    while (take(p, WHEN)) {
        if (!rule(p)) return 0;
    }
    return take(p, END) && p->at == p->count;
}

uint64_t plain_read(const uint8_t *text, size_t text_len, uint8_t *classes, size_t classes_len, uint16_t *offsets, size_t offsets_len,
                    uint8_t *lengths, size_t lengths_len, uint32_t *values, size_t values_len) {
    if (text_len > 32768) return 11 + 256 * 32768ull;
    if (classes_len < text_len || offsets_len < text_len || lengths_len < text_len || values_len < text_len) return 31;
    size_t bad = 0;
    long count = lex(text, text_len, classes, offsets, lengths, values, &bad);
    if (count < 0) return 12 + 256 * (uint64_t)bad;
    parser p = {classes, (size_t)count, 0};
    if (file(&p)) return 256 * (uint64_t)count;
    return 13 + 256 * (uint64_t)(p.at < p.count ? offsets[p.at] : text_len);
}
