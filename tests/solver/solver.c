/* Tour lengths, and the aisles entered, by two searches that share nothing with the router's table: see README.md.
   Standard input: jobs one after another, each without a reason to refuse it.
   Standard output: for each job its T line and the number of aisles that its plan enters, or '- POLICY' where the search would take
   too long. */
#include <stdio.h>
#include <stdlib.h>
#include <string.h>

enum { AISLES = 16, CELLS = 24, LINES = 8, RECORDS = 384, FAR = 1 << 28 };
enum { MOST_CELLS = 18, MOST_STEPS = 3000000 }; /* what the search over walks and the search over plans take on */

/* The job. */
static int m, C, f, p, b, w, d, lines, quantity[LINES];
static int bay, post; /* posts (request #102): the cells between two, and the width of one */
static int rear; /* the depot is at the back crossing (request #109) */
static int shut[AISLES + 1]; /* aisles that are shut at the minute (request #106) */
static char policy[16];
static int cells; /* cells that hold an article of the list and are open */
static struct { int aisle, height, line, stock; } listed[RECORDS];

/* The distance of a height from the front: 0 the front crossing, 1 to C the cells, C + 1 the back crossing.
   It goes from cell to cell, past the post that stands after every bay. */
static int position(int height) {
    int distance = height == 0 ? 0 : f;
    for (int i = 1; i < height && i < C; i++) distance += i % bay == 0 ? p + post : p;
    return height > C ? distance + b : distance;
}

static int is(const char *word) { return strcmp(policy, word) == 0; }

/* The best walk or plan found: its length, and how many aisles it enters. */
static int shortest, fewest;

/* So long and with so many aisles entered, it comes before the best found (request #108). */
static int better(int length, int entered) { return length < shortest || (length == shortest && entered < fewest); }

static void keep(int length, int entered) {
    shortest = length;
    fewest = entered;
}

static void fail(const char *why) {
    fprintf(stderr, "solver: %s\n", why);
    exit(2);
}

/* The sections M and H, where they stand: an aisle with windows is shut unless the minute lies in one of them. */
static void read_hours(void) {
    int minute, windows, aisle, from, to, open[AISLES + 1] = {0};
    memset(shut, 0, sizeof shut);
    if (scanf(" M 1 %d", &minute) != 1) return;
    if (scanf(" H %d", &windows) != 1) fail("no H section");
    while (windows-- > 0) {
        if (scanf("%d %d %d", &aisle, &from, &to) != 3 || aisle < 1 || aisle > m) fail("no window");
        if (from <= minute && minute < to) open[aisle] = 1;
        shut[aisle] = !open[aisle];
    }
}

static int read_job(void) {
    static int record[RECORDS][4];
    int count, records, article[LINES];
    char side[8] = "FRONT";
    if (scanf(" L %d %d %d %d %d %d %d %d %15s", &count, &m, &C, &f, &p, &b, &w, &d, policy) != 9) return 0;
    bay = 1, post = 0;
    if (count > 1 && scanf("%d %d", &bay, &post) != 2) fail("no posts");
    if (count > 2 && scanf("%7s", side) != 1) fail("no side");
    rear = strcmp(side, "BACK") == 0;
    if (scanf(" S %d", &records) != 1 || records > RECORDS) fail("no S section");
    for (int r = 0; r < records; r++)
        for (int k = 0; k < 4; k++)
            if (scanf("%d", &record[r][k]) != 1) fail("no stock record");
    read_hours();
    if (scanf(" D %d", &lines) != 1 || lines > LINES) fail("no D section");
    for (int n = 0; n < lines; n++)
        if (scanf("%d %d", &article[n], &quantity[n]) != 2) fail("no list line");
    cells = 0;
    for (int r = 0; r < records; r++)
        for (int n = 0; n < lines; n++)
            if (record[r][2] == article[n] && !shut[record[r][0]]) {
                listed[cells].aisle = record[r][0];
                listed[cells].height = record[r][1];
                listed[cells].line = n;
                listed[cells++].stock = record[r][3];
            }
    return 1;
}

/* The search over walks, for EXACT: the shortest closed walk from the depot that passes listed cells enough.
   Distances are shortest paths from point to point; the best order of the cells is found set by set. */

static int point(int aisle, int height) { return (aisle - 1) * (C + 2) + height; }
static int depot(void) { return point(d, rear ? C + 1 : 0); }

/* The distance of the stretch between two points, or FAR; inside a shut aisle there is none to tread. */
static int stretch(int x, int y) {
    int j = x / (C + 2), h = x % (C + 2), k = y / (C + 2), i = y % (C + 2);
    if (j == k && abs(h - i) == 1 && !shut[j + 1]) return abs(position(h) - position(i));
    if (abs(j - k) == 1 && h == i && (h == 0 || h == C + 1)) return w;
    return FAR;
}

static void shortest_paths(int from, int *distance) {
    int points = m * (C + 2), done[AISLES * (CELLS + 2)] = {0};
    for (int x = 0; x < points; x++) distance[x] = x == from ? 0 : FAR;
    for (int round = 0; round < points; round++) {
        int near = -1;
        for (int x = 0; x < points; x++)
            if (!done[x] && (near < 0 || distance[x] < distance[near])) near = x;
        done[near] = 1;
        for (int x = 0; x < points; x++)
            if (distance[near] + stretch(near, x) < distance[x]) distance[x] = distance[near] + stretch(near, x);
    }
}

/* The lines are served by the cells that are marked. */
static int served(const char *marked) {
    int open[LINES];
    memcpy(open, quantity, sizeof open);
    for (int x = 0; x < cells; x++)
        if (marked[x]) open[listed[x].line] -= listed[x].stock;
    for (int n = 0; n < lines; n++)
        if (open[n] > 0) return 0;
    return 1;
}

/* The aisles of the cells that are marked. A shortest walk through these cells enters no other: a path from a cell or the depot to a
   cell that goes through a whole aisle from crossing to crossing is longer than the one that stays on the cross-aisle it comes to
   first and goes into the cell's own aisle from there. */
static int aisles_of(const char *marked) {
    int count = 0, seen[AISLES + 1] = {0};
    for (int x = 0; x < cells; x++)
        if (marked[x] && !seen[listed[x].aisle]++) count++;
    return count;
}

/* Of the walks that pass no listed cell the shortest has no steps; it serves an empty list. */
static void search_walks(void) {
    static int reach[1 << MOST_CELLS][MOST_CELLS];   /* from the depot through the set, ending at its cell */
    static int between[MOST_CELLS][AISLES * (CELLS + 2)];
    char none[MOST_CELLS] = {0};
    int at[MOST_CELLS];
    if (served(none)) keep(0, 0);
    for (int x = 0; x < cells; x++) {
        at[x] = point(listed[x].aisle, listed[x].height);
        shortest_paths(at[x], between[x]);
    }
    for (int set = 1; set < 1 << cells; set++) {
        char marked[MOST_CELLS];
        for (int x = 0; x < cells; x++) marked[x] = set >> x & 1;
        int enough = served(marked), aisles = aisles_of(marked);
        for (int x = 0; x < cells; x++) {
            int rest = set & ~(1 << x);
            reach[set][x] = FAR;
            if (rest == set) continue;
            if (rest == 0) reach[set][x] = between[x][depot()];
            for (int y = 0; y < cells; y++)
                if (rest >> y & 1 && reach[rest][y] + between[y][at[x]] < reach[set][x])
                    reach[set][x] = reach[rest][y] + between[y][at[x]];
            int length = reach[set][x] + between[x][depot()];
            if (enough && better(length, aisles)) keep(length, aisles);
        }
    }
}

/* The search over plans: every choice of actions and passages, aisle by aisle, by the words of document 01. */

enum kind { VOID = 1, BOTTOM = 2, TOP = 4, GAP = 8, ONCE = 16, TWICE = 32 };
static struct { enum kind kind; int low, high; } plan[AISLES + 1]; /* BOTTOM low, TOP high, GAP low high */
static int back[AISLES + 1], front[AISLES + 1];                    /* treads between the aisles j and j + 1 */
static long steps;

static int has(int j, int kinds) { return (plan[j].kind & kinds) != 0; }

/* How many of the first aisles are entered. */
static int entered(int aisles) {
    int count = 0;
    for (int j = 1; j <= aisles; j++) count += !has(j, VOID);
    return count;
}

static int passed(int j, int i) {
    return has(j, ONCE | TWICE) || (has(j, BOTTOM | GAP) && i <= plan[j].low)
        || (has(j, TOP | GAP) && i >= plan[j].high);
}

static int aisle_length(int j) {
    int length = 0;
    if (has(j, BOTTOM | GAP)) length += 2 * position(plan[j].low);
    if (has(j, TOP | GAP)) length += 2 * (position(C + 1) - position(plan[j].high));
    if (has(j, ONCE)) length = position(C + 1);
    if (has(j, TWICE)) length = 2 * position(C + 1);
    return length;
}

/* Treads at a crossing. */
static int front_treads(int j) {
    return (has(j, BOTTOM | GAP | TWICE) ? 2 : has(j, ONCE)) + (j > 1 ? front[j - 1] : 0) + (j < m ? front[j] : 0);
}
static int back_treads(int j) {
    return (has(j, TOP | GAP | TWICE) ? 2 : has(j, ONCE)) + (j > 1 ? back[j - 1] : 0) + (j < m ? back[j] : 0);
}

static int depot_treads(void) { return rear ? back_treads(d) : front_treads(d); }

/* All that is trodden in the first aisles hangs together with the crossings marked in the two lists:
   each part of an aisle begins at a crossing, so it is enough to look at crossings. */
static int hang_together(int aisles, int *front_marks, int *back_marks) {
    for (int changed = 1; changed;) {
        changed = 0;
        for (int j = 1; j <= aisles; j++) {
            if (has(j, ONCE | TWICE) && front_marks[j] != back_marks[j])
                changed = front_marks[j] = back_marks[j] = 1;
            if (j < m && front[j] && front_marks[j] != front_marks[j + 1])
                changed = front_marks[j] = front_marks[j + 1] = 1;
            if (j < m && back[j] && back_marks[j] != back_marks[j + 1])
                changed = back_marks[j] = back_marks[j + 1] = 1;
        }
    }
    for (int j = 1; j <= aisles; j++)
        if ((front_treads(j) && !front_marks[j]) || (back_treads(j) && !back_marks[j])) return 0;
    return 1;
}

/* Nothing is trodden in the first aisles and the passages behind them: no crossing has treads. */
static int untrodden(int aisles) {
    for (int j = 1; j <= aisles; j++)
        if (front_treads(j) || back_treads(j)) return 0;
    return 1;
}

/* No hope for the aisles up to j with the passage behind them: an odd crossing, a depot left without treads,
   or something trodden that neither leads on nor can be all there is. For an empty list the plan that treads
   nothing is lawful too (request #101): the depot may be without treads while all is untrodden. */
static int hopeless(int j) {
    int front_marks[AISLES + 2] = {0}, back_marks[AISLES + 2] = {0};
    if (front_treads(j) % 2 || back_treads(j) % 2) return 1;
    if (d <= j && depot_treads() == 0 && !(lines == 0 && untrodden(j))) return 1;
    if (j < m && front[j] + back[j] > 0) {
        front_marks[j + 1] = front[j] > 0;
        back_marks[j + 1] = back[j] > 0;
    } else {
        *(rear ? &back_marks[d] : &front_marks[d]) = 1;
    }
    return !hang_together(j, front_marks, back_marks);
}

/* The aisle holds an article of the list. */
static int holds(int j) {
    for (int x = 0; x < cells; x++)
        if (listed[x].aisle == j) return 1;
    return 0;
}

/* The cell holds an article of the list. */
static int holds_at(int j, int i) {
    for (int x = 0; x < cells; x++)
        if (listed[x].aisle == j && listed[x].height == i) return 1;
    return 0;
}

/* LARGEST in an aisle between the first and the last entered (request #104): each part turns at a listed cell, and from
   stop to stop it never goes further than the part that is not walked is long. */
static int largest_gap(int j) {
    int low = has(j, BOTTOM | GAP) ? plan[j].low : 0, high = has(j, TOP | GAP) ? plan[j].high : C + 1;
    int gap = position(high) - position(low);
    if ((low > 0 && !holds_at(j, low)) || (high <= C && !holds_at(j, high))) return 0;
    for (int i = 1, stop = 0; i <= low; i++)
        if (holds_at(j, i)) {
            if (position(i) - position(stop) > gap) return 0;
            stop = i;
        }
    for (int i = C, stop = C + 1; i >= high; i--)
        if (holds_at(j, i)) {
            if (position(stop) - position(i) > gap) return 0;
            stop = i;
        }
    return 1;
}

/* More aisles lie to the left of the depot than to its right (request #107). */
static int door_on_the_right(void) { return d - 1 > m - d; }

/* The action that goes into an aisle from the depot's side and comes back, and the passage on that side (request #109): with the depot
   at the back the policies have TOP for BOTTOM and 20 for 02 where they have only those. */
static enum kind near_side(void) { return rear ? TOP : BOTTOM; }
static int near_passage(void) { return rear ? 20 : 2; }

/* What the policy asks of all the actions together. */
static int allowed(void) {
    int count = entered(m), first = 0, last = 0;
    for (int j = 1; j <= m; j++)
        if (!has(j, VOID)) {
            if (!holds(j) && !is("EXACT")) return 0;
            if (!first) first = j;
            last = j;
        }
    /* under TRAVERSAL, where their number is odd, one is not walked through */
    int walked_back = count % 2 == 0 ? 0 : door_on_the_right() ? first : last;
    for (int j = 1; j <= m; j++) {
        if (has(j, VOID)) continue;
        if (is("TRAVERSAL") && !has(j, j == walked_back ? near_side() : ONCE)) return 0;
        if (is("MIDPOINT") || is("LARGEST")) {
            if (count == 1 ? !has(j, near_side()) : (j == first || j == last) != has(j, ONCE)) return 0;
            if (j == first || j == last) continue;
            if (is("LARGEST")) {
                if (!largest_gap(j)) return 0;
                continue;
            }
            if (has(j, BOTTOM | GAP) && 2 * position(plan[j].low) > position(C + 1)) return 0;
            if (has(j, TOP | GAP) && 2 * position(plan[j].high) < position(C + 1)) return 0;
        }
    }
    return 1;
}

/* The cells passed up to aisle j and all beyond it serve the list. */
static int can_serve(int j) {
    char marked[RECORDS];
    for (int x = 0; x < cells; x++) marked[x] = listed[x].aisle > j || passed(listed[x].aisle, listed[x].height);
    return served(marked);
}

/* The actions and the passages that the policy knows. */
static int kinds(void) {
    return is("RETURN") ? VOID | near_side() : is("TRAVERSAL") ? VOID | near_side() | ONCE
         : is("MIDPOINT") || is("LARGEST") ? VOID | BOTTOM | TOP | GAP | ONCE : is("COMPOSITE") ? VOID | BOTTOM | TOP | ONCE
         : VOID | BOTTOM | TOP | GAP | ONCE | TWICE;
}

static int passage_allowed(int digits) {
    return digits == 0 || digits == near_passage() || (digits == 11 && !is("RETURN"))
        || ((digits == 2 || digits == 20) && (is("COMPOSITE") || is("EXACT"))) || (digits == 22 && is("EXACT"));
}

static void choose_action(int j, int length);

static void choose_passage(int j, int length) {
    static const int digits[] = {0, 2, 11, 20, 22};
    if (++steps > MOST_STEPS || !better(length, entered(j)) || !can_serve(j)) return;
    if (j == m) {
        if (!hopeless(m) && allowed()) keep(length, entered(m));
        return;
    }
    for (int k = 0; k < 5; k++) {
        back[j] = digits[k] / 10;
        front[j] = digits[k] % 10;
        if (passage_allowed(digits[k]) && !hopeless(j)) choose_action(j + 1, length + (back[j] + front[j]) * w);
    }
}

static void take(int j, int length, enum kind kind, int low, int high) {
    if (!(kinds() & kind)) return;
    plan[j].kind = kind;
    plan[j].low = low;
    plan[j].high = high;
    choose_passage(j, length + aisle_length(j));
}

/* Turns are tried at listed cells only: a part that turns elsewhere can be drawn back to the last listed
   cell that it passes, or left out if it passes none; it then passes the same listed cells and is shorter. */
static void choose_action(int j, int length) {
    take(j, length, VOID, 0, 0);
    if (shut[j] || (!holds(j) && !is("EXACT"))) return;
    for (int x = 0; x < cells; x++) {
        if (listed[x].aisle != j) continue;
        take(j, length, BOTTOM, listed[x].height, 0);
        take(j, length, TOP, 0, listed[x].height);
        for (int y = 0; y < cells; y++)
            if (listed[y].aisle == j && listed[y].height > listed[x].height)
                take(j, length, GAP, listed[x].height, listed[y].height);
    }
    take(j, length, ONCE, 0, 0);
    take(j, length, TWICE, 0, 0);
}

static void search_plans(void) {
    steps = 0;
    choose_action(1, 0);
    if (steps > MOST_STEPS) keep(FAR, 0);
}

int main(void) {
    while (read_job()) {
        keep(FAR, 0);
        if (is("EXACT") && cells <= MOST_CELLS) search_walks();
        else search_plans();
        if (shortest < FAR) printf("%d %s %d\n", shortest, policy, fewest);
        else printf("- %s\n", policy);
    }
    return 0;
}
