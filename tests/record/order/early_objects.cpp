// Objects that are destroyed, replaced or moved by their container while another thread may still use them.
#include "../meet.h"

#include <map>
#include <memory>
#include <string>
#include <vector>

struct Point {
    int x, y;
};

struct Named {
    std::string name = "a name that has no room in the string itself";
};

static auto *single = new Point{1, 2};
static auto *several = new Point[3];
static auto unique = std::make_unique<Point>();
static auto shared = std::make_shared<Point>();
static std::vector<Point> grown(4);
static std::string text = "a text that has no room in the string itself";
static std::map<int, Point> points{{1, {1, 2}}};
static auto *named = new Named;
static Point *borrowed[6];
static const char *borrowed_text, *borrowed_name;
static int found;

static void use()
{
    borrowed[0]->x = 1; // EARLY
    borrowed[1]->x = 1; // EARLY
    borrowed[2]->x = 1; // EARLY
    borrowed[3]->x = 1; // EARLY
    found += borrowed[4]->x; // EARLY
    found += borrowed[5]->y; // EARLY
    found += borrowed_text[20]; // EARLY
    found += borrowed_name[20]; // EARLY
    next_turn();
}

static void destroy()
{
    take_turn(1);
    delete single;
    delete[] several;
    unique.reset();
    shared.reset();
    grown.resize(100);
    points.erase(1);
    text = std::string(100, 'x');
    delete named;
}

static void run(int number)
{
    if (number == 0)
        use();
    else
        destroy();
}

int main()
{
    Point *const all[] = {single, several + 1, unique.get(), shared.get(), &grown[1], &points[1]};
    for (int i = 0; i < 6; i++)
        borrowed[i] = all[i];
    borrowed_text = text.data();
    borrowed_name = named->name.data();
    run_threads(2, run);
    return 0;
}
