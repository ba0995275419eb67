/* The boot report (document 02, wish 1), record by record beside the judge. */
#include <stdio.h>
#include "marks.h"

/* "Refusals: 9, no or too many marks, first of all"; a slot or a number over 15 is 2 (document 01),
   a hold limit that is none 3. */
int report_fresh(struct report *p, unsigned limit, const struct mark *marks, size_t count)
{
    *p = (struct report){0};
    if (count < 1 || count > MOST_MARKS)
        return 9;
    for (size_t i = 0; i < count; i++) {
        if (marks[i].slot > 15 || marks[i].number > 15)
            return 2;
        p->marks[i] = marks[i];
    }
    p->count = count;
    return judge_fresh(&p->j, limit);
}

int report_complete(const struct report *p)
{
    return p->reached == p->count;
}

/* "A word write to the low 1 MB of that slot's space (address F, slot, 0), its number in AD5 to
   AD2"; AD19 to AD6 are free, since the space "folds around" (001, 3.3). In a RESET there is no
   START, and an attention cycle is no transfer. */
static int is_write_of(const struct mark *mark, const struct record *r)
{
    struct decoded start;
    if (r->reset || !r->start || r->ack || code_decode(&start, r->tm1, r->tm0, r->ad) != 0)
        return 0;
    struct operation op = start.op;
    if (!op.write || op.unit != WORD)
        return 0;
    return op.address >> 20 == (0xF00 | mark->slot << 4) && (op.address >> 2 & 15) == mark->number;
}

/* "It counts from its START, once its ACK is seen"; a RESET aborts the write. */
struct verdict report_one(struct report *p, const uint8_t *bytes)
{
    struct record r;
    struct verdict v = judge_one(&p->j, &p->t, bytes);
    if (v.rule != 0)
        return v;
    record_read(&r, bytes);
    if (r.reset) {
        p->pending = 0;
    } else if (r.start) {
        p->pending = is_write_of(&p->marks[p->reached], &r);
        p->begun = p->t.span;
    } else if (r.ack) {
        if (p->pending && code_status(r.tm1, r.tm0) == SUCCESS) {
            p->spans[p->reached] = p->begun;
            p->ends[p->reached] = p->t.records;
            p->reached++;
        }
        p->pending = 0;
    }
    return v;
}

/* "The span at each mark and, from the second on, the difference to the one before", the records
   read, and what ended it; 10, "a mark absent at a conforming end, with its place, last". */
void report_text(const struct report *p, struct verdict v, int refusal, char *text)
{
    int n = 0;
    for (size_t i = 0; i < p->reached; i++) {
        n += snprintf(text + n, REPORT_TEXT - (size_t)n, "mark %lu span %llu", (unsigned long)i,
                      (unsigned long long)p->spans[i]);
        if (i > 0)
            n += snprintf(text + n, REPORT_TEXT - (size_t)n, " diff %llu",
                          (unsigned long long)(p->spans[i] - p->spans[i - 1]));
        n += snprintf(text + n, REPORT_TEXT - (size_t)n, "\n");
    }
    n += snprintf(text + n, REPORT_TEXT - (size_t)n, "records %lu\n", (unsigned long)p->t.records);
    if (report_complete(p))
        snprintf(text + n, REPORT_TEXT - (size_t)n, "complete\n");
    else if (v.rule != 0)
        judge_breach_line(v, text + n, REPORT_TEXT - (size_t)n);
    else if (refusal != 0)
        snprintf(text + n, REPORT_TEXT - (size_t)n, "refused %d\n", refusal);
    else
        snprintf(text + n, REPORT_TEXT - (size_t)n, "refused 10 place %lu\n",
                 (unsigned long)p->reached);
}

void report_program(unsigned limit, const struct mark *marks, size_t count, const uint8_t *bytes,
                    size_t len, char *text)
{
    struct report p;
    struct verdict v = NO_BREACH;
    int refusal = report_fresh(&p, limit, marks, count);
    size_t at = 0;
    if (refusal != 0) {
        snprintf(text, REPORT_TEXT, "refused %d\n", refusal);
        return;
    }
    for (; v.rule == 0 && !report_complete(&p) && len - at >= RECORD; at += RECORD) {
        if (p.t.records == MOST_RECORDS) {
            report_text(&p, NO_BREACH, 8, text);
            return;
        }
        v = report_one(&p, bytes + at);
    }
    report_text(&p, v, len % RECORD != 0 ? 1 : 0, text);
}
