/* Source 004, section 4: the elevator's plans for five floors, and those that keep its rule (13).
 *
 * The elevator stands at the middle floor and is called to the lowest and the highest; a plan must have served both at
 * the end. The paper's Table 3 has the number of plans, and says that two keep the rule at each horizon: all the way up
 * and then straight down, or the other way round, and then waiting. A trace has one instant more than actions. */
#include "elevator.h"
#include "worked.h"

enum { FLOORS = 5, MOST_ACTIONS = 12, MOST_KEPT = 2 };

/* Table 3, five floors: the horizon and the number of plans. */
static const struct row {
    size_t horizon, plans;
} table_3[] = {{8, 2}, {9, 34}, {10, 340}, {11, 2618}, {12, 17204}};

/* What the two plans begin with; they wait after it. */
static const char *const beginnings[MOST_KEPT] = {"uusdddds", "ddsuuuus"};

static struct trace trace_of_plan(const char *plan)
{
    struct trace t = {.atoms = ELEVATOR_ATOMS, .instants = strlen(plan) + 1};
    struct elevator e = elevator_at_first(FLOORS);
    for (size_t k = 0; k < t.instants; k++) {
        put_instant(&e, plan[k], t.cells + t.atoms * k);
        e = after(e, plan[k]);
    }
    return t;
}

/* ---- all plans */
struct search {
    const struct formula *rule;
    size_t horizon, plans, kept;
    char plan[MOST_ACTIONS + 1];
    char kept_plan[MOST_KEPT][MOST_ACTIONS + 1];
};

/* Counts a plan that is whole, and keeps the first ones that keep the rule. */
static void count_plan(struct search *s)
{
    struct trace t = trace_of_plan(s->plan);
    s->plans++;
    if (value_at_first(s->rule, &t) != 2)
        return;
    if (s->kept < MOST_KEPT)
        strcpy(s->kept_plan[s->kept], s->plan);
    s->kept++;
}

/* Goes on with each action that can be done, up to the horizon. */
static void go_on(struct search *s, struct elevator e, size_t k)
{
    if (k == s->horizon) {
        if (e.called == 0)
            count_plan(s);
        return;
    }
    for (const char *action = actions; *action; action++)
        if (can(&e, *action)) {
            s->plan[k] = *action;
            go_on(s, after(e, *action), k + 1);
        }
}

/* Whether a plan is the beginning and then waiting. */
static int is_due(const char *plan, const char *beginning)
{
    size_t n = strlen(beginning);
    return strncmp(plan, beginning, n) == 0 && strspn(plan + n, "w") == strlen(plan + n);
}

static void show_plans(const struct formula *rule, const struct row *row)
{
    struct search s = {.rule = rule, .horizon = row->horizon};
    go_on(&s, elevator_at_first(FLOORS), 0);
    int same = s.plans == row->plans && s.kept == MOST_KEPT;
    for (size_t i = 0; i < MOST_KEPT; i++)
        same = same && is_due(s.kept_plan[i], beginnings[i]);
    printf("  %7zu  %5zu  %4zu  %-12s  %-12s   %s\n", s.horizon, s.plans, s.kept, s.kept_plan[0], s.kept_plan[1],
           word(same));
}

/* ---- values at each instant */
/* Plans, and what (13) without its negations is worth: 2 where the rest of the plan is rides to calls, then waiting. */
static const struct {
    const char *says, *plan, *values;
} shown[] = {
    {"up, serve, straight down, serve", "uusdddds", "222222222"},
    {"down, serve, straight up, serve, and wait", "ddsuuuusww", "22222222222"},
    {"waiting before the end", "uuswdddds", "0000222222"},
    {"serving where nobody calls", "uussdddds", "0000222222"},
    {"turning round on the way", "uduusdddds", "00222222222"},
};

static void show_plan_values(void)
{
    struct formula f = {.n = 0};
    kept(&f, test(&f, atom(&f, READY)));
    for (size_t i = 0; i < sizeof shown / sizeof *shown; i++) {
        struct trace t = trace_of_plan(shown[i].plan);
        printf("\n  %s\n    plan  ", shown[i].says);
        for (const char *action = shown[i].plan; *action; action++)
            printf(" %c", *action);
        printf("\n");
        show_values("value", &f, &t, shown[i].values);
    }
}

int main(void)
{
    struct formula rule = {.n = 0};
    rule_13(&rule, test(&rule, atom(&rule, READY)));
    printf("(13)  not not <((up* + down*) ; ready? ; serve)* ; wait*>final\n");
    show_rules(&rule, ELEVATOR_ATOMS, 92);
    show_plan_values();
    printf("\n  all plans for five floors\n  horizon  plans  keep\n");
    for (size_t i = 0; i < sizeof table_3 / sizeof *table_3; i++)
        show_plans(&rule, &table_3[i]);
    printf("\n");
    return status();
}
