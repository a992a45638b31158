/*
 * A picture of the run, as SVG: the switches on a circle in the order in which the frame meets them, the links that
 * their next hops name, an arrow for each way that the frame or the reply takes, with the handlings that sent it, and a
 * list.
 */
#include <inttypes.h>
#include <math.h>
#include <stdio.h>
#include <string.h>

#include "fields.h"
#include "show.h"

enum {
    OUTSIDE = CAMPUS_SWITCHES, /* behind the switches: to whom a frame leaves the campus, for each switch */
    PLACES = 2 * CAMPUS_SWITCHES,
    KINDS = 2, /* of frames: original, reply */
    NUMBERS_SHOWN = 4,
    LABEL_MOST = 48,
    BOXES_MOST = 2 * PLACES + KINDS * PLACES * PLACES,
    ROWS_FIRST = 24,
    ROWS_LAST = 8
};

static const double pi = 3.14159265358979323846, node_radius = 28, spacing = 165, title_height = 78,
                    character_width = 7.4, label_height = 18, row_height = 18, list_width = 680, width_least = 1130,
                    entry_length = 58, outside_distance = 140, margin = 175, margin_narrow = 60;

static const char *const colours[KINDS] = {"#1f5fbf", "#c2410c"};
static const char *const kinds[KINDS] = {"original", "reply"};

struct point {
    double x, y;
};

struct box {
    double left, top, right, bottom;
};

/* The handlings that sent a frame of one kind from one place to another. */
struct way {
    unsigned count, numbers[NUMBERS_SHOWN], latest;
};

struct picture {
    unsigned order[CAMPUS_SWITCHES]; /* the switches by their place on the circle */
    unsigned met;                    /* so many of them were met by the frame */
    double radius, width, height;    /* of the circle; of the area around it */
    struct point nodes[PLACES];
    unsigned node_count;               /* without those outside */
    uint16_t outside[CAMPUS_SWITCHES]; /* the neighbour to whom a frame left from a switch, the latest, or 0 */
    bool several[CAMPUS_SWITCHES];     /* there are others */
    struct way ways[KINDS][PLACES][PLACES];
    struct box boxes[BOXES_MOST]; /* where nothing more may be written */
    unsigned box_count;
    unsigned rows;
};

static struct picture picture;

/* ---- Geometry ---- */

static struct point along(struct point from, struct point direction, double distance)
{
    return (struct point){from.x + direction.x * distance, from.y + direction.y * distance};
}

static struct point direction(struct point from, struct point to)
{
    double x = to.x - from.x, y = to.y - from.y, length = hypot(x, y);
    return length > 0 ? (struct point){x / length, y / length} : (struct point){-1, 0};
}

static struct point turned(struct point vector, double angle)
{
    return (struct point){vector.x * cos(angle) - vector.y * sin(angle), vector.x * sin(angle) + vector.y * cos(angle)};
}

static struct point centre(void)
{
    return (struct point){picture.width / 2, title_height + picture.height / 2};
}

/* Away from the circle. */
static struct point outward(unsigned node)
{
    return direction(centre(), picture.nodes[node]);
}

static bool meet(const struct box *one, const struct box *other)
{
    return one->left < other->right && other->left < one->right && one->top < other->bottom && other->top < one->bottom;
}

static bool is_free(const struct box *box)
{
    for (unsigned i = 0; i < picture.box_count; i++) {
        if (meet(box, &picture.boxes[i]))
            return false;
    }
    return true;
}

static void occupy(struct box box)
{
    if (picture.box_count < BOXES_MOST)
        picture.boxes[picture.box_count++] = box;
}

static struct box box_around(struct point middle, double width, double height)
{
    return (struct box){middle.x - width / 2, middle.y - height / 2, middle.x + width / 2, middle.y + height / 2};
}

/* ---- What is drawn ---- */

/* Writes a label in the first of the places that is free, or else in the first one. */
static void draw_label(const struct point *places, unsigned count, const char *text, const char *colour)
{
    double width = character_width * (double)strlen(text) + 8;
    struct point place = places[0];
    for (unsigned i = count; i > 0; i--) {
        struct box box = box_around(places[i - 1], width, label_height);
        if (is_free(&box))
            place = places[i - 1];
    }
    place.x = fmax(place.x, width / 2);
    struct box box = box_around(place, width, label_height);
    occupy(box);
    printf(
        "<rect x=\"%.1f\" y=\"%.1f\" width=\"%.1f\" height=\"%.1f\" rx=\"4\" fill=\"white\" fill-opacity=\"0.9\"/>\n",
        box.left, box.top, width, label_height);
    printf("<text x=\"%.1f\" y=\"%.1f\" text-anchor=\"middle\" fill=\"%s\">%s</text>\n", place.x, place.y + 4.5, colour,
           text);
}

static void way_label(char text[LABEL_MOST], const struct way *way)
{
    size_t used = 0;
    bool all = way->count <= NUMBERS_SHOWN;
    unsigned shown = all ? way->count : NUMBERS_SHOWN - 1;
    for (unsigned i = 0; i < shown; i++)
        used += (size_t)snprintf(text + used, LABEL_MOST - used, i == 0 ? "%u" : ", %u", way->numbers[i]);
    if (!all)
        snprintf(text + used, LABEL_MOST - used, " .. %u (%u times)", way->latest, way->count);
}

/* The points at which the label of an arrow may stand: those of its curve that are near the middle first. */
enum { LABEL_PLACES = 9 };
static void places_along(struct point places[LABEL_PLACES], struct point from, struct point bend, struct point to)
{
    static const double at[LABEL_PLACES] = {0.5, 0.42, 0.58, 0.35, 0.65, 0.28, 0.72, 0.22, 0.78};
    for (unsigned i = 0; i < LABEL_PLACES; i++) {
        double t = at[i], s = 1 - t;
        places[i] = (struct point){s * s * from.x + 2 * s * t * bend.x + t * t * to.x,
                                   s * s * from.y + 2 * s * t * bend.y + t * t * to.y};
    }
}

/* Whether a curve keeps clear of all nodes but those that it joins. */
static bool keeps_clear(unsigned from, struct point bend, unsigned to)
{
    struct point places[LABEL_PLACES];
    places_along(places, picture.nodes[from], bend, picture.nodes[to]);
    for (unsigned node = 0; node < picture.node_count; node++) {
        for (unsigned i = 0; i < LABEL_PLACES && node != from && node != to; i++) {
            if (hypot(places[i].x - picture.nodes[node].x, places[i].y - picture.nodes[node].y) < node_radius + 10)
                return false;
        }
    }
    return true;
}

/* An arrow bends to its right, so that one back keeps apart, and a reply's more than an original's: less if a node is
 * there. */
static struct point find_bend(unsigned from, unsigned to, unsigned kind)
{
    static const double parts[] = {1, 0.6, 0.3, 0.1, -0.3, -0.6};
    struct point a = picture.nodes[from], b = picture.nodes[to], middle = {(a.x + b.x) / 2, (a.y + b.y) / 2};
    struct point aside = turned(direction(a, b), pi / 2), bend = middle;
    double bulge = (0.10 + 0.14 * kind) * hypot(b.x - a.x, b.y - a.y) + 14;
    for (unsigned i = 0; i < sizeof parts / sizeof *parts; i++) {
        bend = along(middle, aside, parts[i] * bulge);
        if (keeps_clear(from, bend, to))
            break;
    }
    return bend;
}

static void draw_arrow(unsigned from, unsigned to, unsigned kind, const char *label)
{
    struct point a = picture.nodes[from], b = picture.nodes[to], bend = find_bend(from, to, kind), places[LABEL_PLACES];
    struct point start = along(a, direction(a, bend), node_radius), end = along(b, direction(b, bend), node_radius + 5);
    if (!label) {
        printf("<path d=\"M%.1f %.1f Q%.1f %.1f %.1f %.1f\" class=\"%s\"/>\n", start.x, start.y, bend.x, bend.y, end.x,
               end.y, kinds[kind]);
        return;
    }
    places_along(places, start, bend, end);
    draw_label(places, LABEL_PLACES, label, colours[kind]);
}

/* A loop at a switch that names itself, above it or below; an original's leans to one side and a reply's to the other.
 */
static void draw_loop(unsigned node, unsigned kind, const char *label)
{
    struct point middle = picture.nodes[node], upright = {0, middle.y > centre().y + 1 ? 1 : -1};
    struct point away = turned(upright, kind ? 0.5 : -0.5), place = along(middle, away, 92);
    struct point start = along(middle, turned(away, -0.4), node_radius),
                 end = along(middle, turned(away, 0.4), node_radius + 5);
    struct point one = along(middle, turned(away, -0.5), 105), other = along(middle, turned(away, 0.5), 105);
    if (label)
        draw_label(&place, 1, label, colours[kind]);
    else
        printf("<path d=\"M%.1f %.1f C%.1f %.1f %.1f %.1f %.1f %.1f\" class=\"%s\"/>\n", start.x, start.y, one.x, one.y,
               other.x, other.y, end.x, end.y, kinds[kind]);
}

/* The arrows of one kind, or their labels. */
static void draw_ways(unsigned kind, bool labels)
{
    char label[LABEL_MOST];
    for (unsigned from = 0; from < PLACES; from++) {
        for (unsigned to = 0; to < PLACES; to++) {
            const struct way *way = &picture.ways[kind][from][to];
            if (way->count == 0)
                continue;
            way_label(label, way);
            if (from == to)
                draw_loop(from, kind, labels ? label : NULL);
            else
                draw_arrow(from, to, kind, labels ? label : NULL);
        }
    }
}

static unsigned find(const struct walk *walk, uint16_t nickname)
{
    unsigned at = 0;
    while (at < walk->count && walk->nicknames[at] != nickname)
        at++;
    return at;
}

/* A line to each switch that a next hop of this one names. */
static void draw_links(const struct walk *walk, unsigned from)
{
    const struct rbridge *rbridge = &walk->rbridges[from];
    bool drawn[CAMPUS_SWITCHES + 1] = {false};
    struct field field;
    for (size_t place = 0; field_next(&field, rbridge->settings, rbridge->length, &place);) {
        unsigned to = field.tag == TAG_HOP ? find(walk, staffripple_get16(field.value + HOP_NEIGHBOUR)) : walk->count;
        if (to == walk->count || to == from || drawn[to])
            continue;
        drawn[to] = true;
        printf("<line x1=\"%.1f\" y1=\"%.1f\" x2=\"%.1f\" y2=\"%.1f\" class=\"link\"/>\n", picture.nodes[from].x,
               picture.nodes[from].y, picture.nodes[to].x, picture.nodes[to].y);
    }
}

/* A switch with its MAC, or without one somebody outside: one of several where a + stands behind the nickname. */
static void draw_node(unsigned node, uint16_t nickname, bool several, const char *class, const uint8_t *mac)
{
    struct point at = picture.nodes[node];
    printf("<g><circle cx=\"%.1f\" cy=\"%.1f\" r=\"%.0f\" class=\"%s\"/>", at.x, at.y, node_radius, class);
    printf("<text x=\"%.1f\" y=\"%.1f\" text-anchor=\"middle\" class=\"nickname\">%04X%s</text>", at.x, at.y + 5,
           nickname, several ? "+" : "");
    if (mac)
        printf("<title>MAC %02X:%02X:%02X:%02X:%02X:%02X</title>", mac[0], mac[1], mac[2], mac[3], mac[4], mac[5]);
    puts("</g>");
}

static void draw_entry(unsigned node)
{
    static const char text[] = "enters";
    struct point away = outward(node), end = along(picture.nodes[node], away, node_radius + 5);
    struct point start = along(end, away, entry_length), place = along(start, away, 14);
    place.x += away.x * character_width * (double)strlen(text) / 2;
    printf("<path d=\"M%.1f %.1f L%.1f %.1f\" class=\"original\"/>\n", start.x, start.y, end.x, end.y);
    draw_label(&place, 1, text, colours[0]);
}

/* ---- Going through the run ---- */

/* Puts the switches in the order of the trace, and those that are not met behind them. */
static void order_switches(const struct walk *walk)
{
    bool placed[CAMPUS_SWITCHES + 1] = {false};
    for (unsigned i = 0; i < walk->run.count; i++) {
        unsigned at = find(walk, staffripple_get16(walk->trace + (size_t)CAMPUS_ENTRY * i));
        if (at < walk->count && !placed[at]) {
            placed[at] = true;
            picture.order[picture.met++] = at;
        }
    }
    for (unsigned at = 0, place = picture.met; at < walk->count; at++) {
        if (!placed[at])
            picture.order[place++] = at;
    }
}

/* Whether something may stand outside the circle besides the way in: a loop, or the neighbour to whom a frame leaves,
 * which with edition 2 may be at any switch. */
static bool needs_margin(const struct walk *walk)
{
    const uint8_t *entry = walk->trace;
    for (unsigned at = 0; at < walk->count; at++) {
        if (walk->rbridges[at].edition == EDITION_FLAGS)
            return true;
    }
    for (unsigned i = 1; i < walk->run.count; i++, entry += CAMPUS_ENTRY) {
        if (staffripple_get16(entry) == staffripple_get16(entry + CAMPUS_ENTRY))
            return true;
    }
    return entry[3] == TRILL_FORWARDED || entry[3] == TRILL_ERROR_REPLY || entry[3] == TRILL_ECHO_REPLY;
}

static void place_switches(const struct walk *walk)
{
    unsigned count = picture.node_count = walk->count;
    picture.radius = count == 1 ? 0 : fmax(spacing / 2 / sin(pi / count), 125);
    picture.width = 2 * (picture.radius + margin);
    picture.height = 2 * (picture.radius + (needs_margin(walk) ? margin : margin_narrow));
    for (unsigned place = 0; place < count; place++) {
        struct point away = turned((struct point){-1, 0}, 2 * pi * place / count);
        picture.nodes[picture.order[place]] = along(centre(), away, picture.radius);
    }
    for (unsigned at = 0; at < count; at++)
        occupy(box_around(picture.nodes[at], 2 * node_radius, 2 * node_radius));
}

static bool is_row(const struct walk *walk, unsigned number)
{
    return walk->run.count <= ROWS_FIRST + ROWS_LAST + 1 || number <= ROWS_FIRST ||
           number > walk->run.count - ROWS_LAST;
}

static unsigned row_count(const struct walk *walk)
{
    return walk->run.count <= ROWS_FIRST + ROWS_LAST + 1 ? walk->run.count : ROWS_FIRST + ROWS_LAST + 1;
}

static void begin_picture(const struct walk *walk)
{
    picture = (struct picture){.rows = 0};
    order_switches(walk);
    place_switches(walk);
    double width = fmax(picture.width + list_width, width_least);
    double height = fmax(picture.height, row_height * (row_count(walk) + 2.0)) + title_height;
    printf("<svg xmlns=\"http://www.w3.org/2000/svg\" width=\"%.0f\" height=\"%.0f\" viewBox=\"0 0 %.0f %.0f\"\n"
           "     font-family=\"sans-serif\" font-size=\"13\">\n",
           width, height, width, height);
    puts("<defs>");
    for (unsigned kind = 0; kind < KINDS; kind++)
        printf(
            "<marker id=\"head-%s\" viewBox=\"0 0 10 10\" refX=\"8\" refY=\"5\" markerWidth=\"7\" markerHeight=\"7\"\n"
            "        orient=\"auto\"><path d=\"M0 0 L10 5 L0 10 z\" fill=\"%s\"/></marker>\n",
            kinds[kind], colours[kind]);
    puts("</defs>\n<style>");
    for (unsigned kind = 0; kind < KINDS; kind++)
        printf(".%s { stroke: %s; stroke-width: 2; fill: none; marker-end: url(#head-%s) }\n", kinds[kind],
               colours[kind], kinds[kind]);
    puts(".link { stroke: #b8bec8; stroke-width: 1.5 }\n"
         ".switch { fill: #f4f6fa; stroke: #39424f; stroke-width: 1.5 }\n"
         ".good { fill: #e2f5e5; stroke: #1b7f3b; stroke-width: 3 }\n"
         ".bad { fill: #fdeaea; stroke: #b42323; stroke-width: 3 }\n"
         ".outside { fill: white; stroke: #39424f; stroke-width: 1.5; stroke-dasharray: 4 3 }\n"
         ".nickname { font-family: monospace; font-size: 15px; font-weight: bold }\n"
         "</style>\n<rect width=\"100%\" height=\"100%\" fill=\"white\"/>");
    for (unsigned at = 0; at < walk->count; at++)
        draw_links(walk, at);
}

static void add_to_way(struct way *way, unsigned number)
{
    if (way->count < NUMBERS_SHOWN)
        way->numbers[way->count] = number;
    way->count++;
    way->latest = number;
}

static double next_row(void)
{
    return title_height + 24 + row_height * picture.rows++;
}

/* A frame that the hop sent to a neighbour; as one that left the campus, or not. */
static void add_sent(const struct walk *walk, const struct hop *hop, bool reply, uint16_t neighbour, bool left)
{
    uint16_t *outside = &picture.outside[hop->at];
    add_to_way(&picture.ways[reply][hop->at][left ? OUTSIDE + hop->at : find(walk, neighbour)], hop->number);
    if (!left)
        return;
    picture.several[hop->at] = picture.several[hop->at] || (*outside != 0 && *outside != neighbour);
    *outside = neighbour;
}

static void hop_picture(const struct walk *walk, const struct hop *hop)
{
    const struct trill_answer *answer = &hop->handling.answer;
    if (answer->written)
        add_sent(walk, hop, hop->reply || answer->number != TRILL_FORWARDED, answer->neighbour, hop->left);
    if (answer->beside)
        add_sent(walk, hop, true, answer->beside_neighbour, hop->beside_left);
    if (is_row(walk, hop->number))
        printf("<text x=\"%.0f\" y=\"%.0f\" fill=\"%s\">%u: %04X, hop count %u: %u %s%s</text>\n", picture.width,
               next_row(), colours[hop->reply], hop->number, hop->nickname, hop->layout.fields.hop_count,
               answer->number, trill_answer_name(answer->number), answer->beside ? ", and a reply" : "");
    else if (hop->number == ROWS_FIRST + 1)
        printf("<text x=\"%.0f\" y=\"%.0f\">.. %u more ..</text>\n", picture.width, next_row(),
               walk->run.count - ROWS_FIRST - ROWS_LAST);
}

static void draw_title(const struct walk *walk, const struct hop *last)
{
    char ending[ENDING_MOST];
    walk_ending_words(ending, last);
    printf("<text x=\"24\" y=\"34\" font-size=\"19\" font-weight=\"bold\">%s</text>\n", ending);
    printf(
        "<text x=\"24\" y=\"58\">%u switch%s, %u handling%s. A number at an arrow is the handling that sent the frame: "
        "<tspan fill=\"%s\" font-weight=\"bold\">original</tspan>, <tspan fill=\"%s\" "
        "font-weight=\"bold\">reply</tspan>."
        "</text>\n",
        walk->count, walk->count == 1 ? "" : "es", walk->done, walk->done == 1 ? "" : "s", colours[0], colours[1]);
}

/* The neighbours outside of the campus, each beyond its switch. */
static void place_outside(const struct walk *walk)
{
    for (unsigned at = 0; at < walk->count; at++) {
        struct point away = turned(outward(at), picture.order[0] == at ? 0.8 : 0);
        if (picture.outside[at] == 0)
            continue;
        picture.nodes[OUTSIDE + at] = along(picture.nodes[at], away, outside_distance);
        occupy(box_around(picture.nodes[OUTSIDE + at], 2 * node_radius, 2 * node_radius));
    }
}

static void end_picture(const struct walk *walk, const struct hop *last)
{
    bool good = strcmp(walk_ending(last), "dropped") != 0;
    place_outside(walk);
    for (unsigned pass = 0; pass < 2 * KINDS; pass++) /* labels stand on top of all arrows */
        draw_ways(pass % KINDS, pass >= KINDS);
    draw_entry(picture.order[0]);
    for (unsigned at = 0; at < walk->count; at++)
        draw_node(at, walk->nicknames[at], false,
                  at != last->at || last->left ? "switch"
                  : good                       ? "good"
                                               : "bad",
                  walk->rbridges[at].settings + FIELD_HEADER + 2);
    for (unsigned at = 0; at < walk->count; at++) {
        if (picture.outside[at] != 0)
            draw_node(OUTSIDE + at, picture.outside[at], picture.several[at], "outside", NULL);
    }
    draw_title(walk, last);
    puts("</svg>");
}

int show_picture(const struct octets *description)
{
    static const struct view view = {begin_picture, hop_picture, end_picture, NULL};
    return view_run(&view, description);
}
