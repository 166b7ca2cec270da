#include "peers.h"

#include "measure.h"

#include <string.h>

offers_judgement agreed(const struct bundle *b) {
    offers_judgement engine = offers_verdict(b->bytes, b->length), plain = plain_verdict(b->bytes, b->length);
    offers_judgement hashed = hashed_verdict(b->bytes, b->length);
    demand(memcmp(&engine, &plain, sizeof engine) == 0, "the verdicts of the engine and of plain C differ");
    demand(memcmp(&engine, &hashed, sizeof engine) == 0, "the verdicts of the engine and of C with a hash table differ");
    return engine;
}

struct judged {
    verdict *by;
    const struct bundle *bundle;
    offers_judgement judgement;
};

static void judge(void *with) {
    struct judged *j = with;
    j->judgement = j->by(j->bundle->bytes, j->bundle->length);
}

double time_of_verdict(int runs, verdict *by, const struct bundle *b, uint64_t number) {
    struct judged j = {by, b, {0}};
    double took = best_time(runs, judge, &j);
    demand(j.judgement.number == number && j.judgement.records == (number == 0 ? b->records : 0), "an unexpected verdict");
    return took;
}

double tell_verdict(int runs, const char *what, const struct bundle *b) {
    double took = time_of_verdict(runs, offers_verdict, b, 0);
    tell(what, took, "plain C", time_of_verdict(runs, plain_verdict, b, 0));
    tell(what, took, "C with hash", time_of_verdict(runs, hashed_verdict, b, 0));
    return took;
}
