// The same ground on three machines: a physics engine (Bullet) rolls the same wheel over it.
// Two machines load the ground from one file of coefficients, in reads of different sizes: after every step their wheels agree bit for bit.
// On the third one height on the wheel's way is off by one: its wheel goes another way from there on.
//
// apt-get install libbullet-dev pkg-config, then from the top of the repository:
// c++ -O2 -I include examples/wheel.cpp target/staticlib/libterrain.a $(pkg-config --cflags --libs bullet) -o target/wheel && target/wheel examples/hill.pgm 3 target/hill.coefficients
#include <btBulletDynamicsCommon.h>
#include <BulletCollision/CollisionShapes/btHeightfieldTerrainShape.h>

#include <cstdio>
#include <cstring>
#include <vector>

#include "coefficients.h"
#include "pgm.h"

namespace {

constexpr int steps = 6000;
constexpr btScalar seconds_a_step = btScalar(1) / 240;
constexpr float metres_a_height = 1.0f / 4096; // heights 0 to 65,535 are 0 to 16 m, a column or row is 1 m
constexpr int start_column = 95, start_row = 64; // in the lake, whose shore keeps it on the map

struct Ground {
    size_t width = 0, height = 0;
    std::vector<uint16_t> heights;
};

// Where the wheel is and how it moves, as the engine keeps it.
struct Moment {
    btScalar numbers[13];
};

uint32_t load(const char *path, size_t read_size, Ground &ground)
{
    uint16_t *heights;
    const uint32_t no = load_coefficients(path, read_size, &ground.width, &ground.height, &heights);
    if (no) return no;
    ground.heights.assign(heights, heights + ground.width * ground.height);
    free(heights);
    return 0;
}

Moment moment_of(const btRigidBody &wheel)
{
    const btVector3 &at = wheel.getCenterOfMassPosition(), &speed = wheel.getLinearVelocity(), &spin = wheel.getAngularVelocity();
    const btQuaternion turned = wheel.getOrientation();
    return {{at.x(), at.y(), at.z(), turned.x(), turned.y(), turned.z(), turned.w(), speed.x(), speed.y(), speed.z(), spin.x(), spin.y(), spin.z()}};
}

// One machine: its own world, its own ground, the wheel after each step. The wheel is dropped from `from` metres.
std::vector<Moment> roll(const Ground &ground, btScalar from)
{
    // The engine keeps a pointer to heights in metres; those of ours are floats exactly.
    std::vector<float> metres;
    for (const uint16_t height : ground.heights) metres.push_back(height * metres_a_height);
    const int columns = int(ground.width), rows = int(ground.height);
    btHeightfieldTerrainShape field(columns, rows, metres.data(), 0, 65535 * metres_a_height, 1, false);
    btCylinderShapeX round(btVector3(btScalar(0.15), btScalar(0.5), btScalar(0.5)));

    btDefaultCollisionConfiguration configuration;
    btCollisionDispatcher dispatcher(&configuration);
    btDbvtBroadphase broadphase;
    btSequentialImpulseConstraintSolver solver;
    btDiscreteDynamicsWorld world(&dispatcher, &broadphase, &solver, &configuration);
    world.setGravity(btVector3(0, btScalar(-9.8), 0));

    // The engine centres the field: place (column, row) of the map is at (column - (columns - 1) / 2, row - (rows - 1) / 2).
    btRigidBody floor(btRigidBody::btRigidBodyConstructionInfo(0, nullptr, &field));
    floor.getWorldTransform().setOrigin(btVector3(0, 65535 * metres_a_height / 2, 0));
    floor.setFriction(1);
    world.addRigidBody(&floor);

    btVector3 inertia;
    round.calculateLocalInertia(20, inertia);
    btRigidBody wheel(btRigidBody::btRigidBodyConstructionInfo(20, nullptr, &round, inertia));
    wheel.getWorldTransform().setOrigin(btVector3(start_column - btScalar(columns - 1) / 2, from, start_row - btScalar(rows - 1) / 2));
    wheel.setFriction(1);
    wheel.setRollingFriction(btScalar(0.001));
    wheel.setLinearVelocity(btVector3(0, 0, 3));
    wheel.setAngularVelocity(btVector3(6, 0, 0));
    wheel.setActivationState(DISABLE_DEACTIVATION);
    world.addRigidBody(&wheel);

    std::vector<Moment> moments;
    for (int i = 0; i < steps; i++) {
        world.stepSimulation(seconds_a_step, 0); // exactly one step: no clock has a say
        moments.push_back(moment_of(wheel));
    }
    world.removeRigidBody(&wheel);
    world.removeRigidBody(&floor);
    return moments;
}

// The place of the height nearest to the wheel.
size_t nearest(const Ground &ground, const Moment &moment)
{
    const btScalar column = moment.numbers[0] + btScalar(ground.width - 1) / 2, row = moment.numbers[2] + btScalar(ground.height - 1) / 2;
    const auto within = [](btScalar x, size_t n) { return x < 0 ? 0 : x > btScalar(n - 1) ? n - 1 : size_t(x + btScalar(0.5)); };
    return within(row, ground.height) * ground.width + within(column, ground.width);
}

// The first step after which two wheels differ in a bit, or `steps`.
int parted(const std::vector<Moment> &a, const std::vector<Moment> &b)
{
    int i = 0;
    while (i < steps && std::memcmp(&a[size_t(i)], &b[size_t(i)], sizeof(Moment)) == 0) i++;
    return i;
}

void print(const char *machine, const std::vector<Moment> &moments)
{
    const btScalar *at = moments.back().numbers;
    std::printf("%s: after %d steps the wheel is at %a %a %a\n", machine, steps, double(at[0]), double(at[1]), double(at[2]));
}

// Whether the first two wheels never parted and the third did.
bool compare(const std::vector<Moment> &a, const std::vector<Moment> &b, const std::vector<Moment> &c)
{
    const int ab = parted(a, b), ac = parted(a, c);
    if (ab == steps) std::printf("first and second: identical after every step\n");
    else std::printf("first and second: DIFFERENT from step %d on\n", ab + 1);
    if (ac == steps) std::printf("first and third: NO DIFFERENCE SEEN\n");
    else std::printf("first and third: different from step %d on\n", ac + 1);
    return ab == steps && ac < steps;
}

bool race(const Ground &first, const Ground &second, Ground third)
{
    const btScalar from = first.heights[start_row * first.width + start_column] * metres_a_height + 1;
    const std::vector<Moment> a = roll(first, from), b = roll(second, from);
    uint16_t &one = third.heights[nearest(first, a[steps / 4])];
    one = uint16_t(one < 65535 ? one + 1 : one - 1);
    const std::vector<Moment> c = roll(third, from);

    print("first machine, reads of 7 bytes", a);
    print("second machine, reads of 4096 bytes", b);
    print("third machine, one height off by one", c);
    return compare(a, b, c);
}

} // namespace

int main(int argc, char **argv)
{
    Pgm map;
    Ground first, second;
    if (argc != 4) {
        std::fprintf(stderr, "usage: wheel MAP.pgm LEVELS COEFFICIENTS\n");
        return 2;
    }
    if (const char *wrong = pgm_read(argv[1], &map)) {
        std::fprintf(stderr, "%s: %s\n", argv[1], wrong);
        return 1;
    }
    uint32_t no = write_coefficients(argv[3], map.heights, map.width, map.height, size_t(std::atol(argv[2])));
    free(map.heights);
    if (!no) no = load(argv[3], 7, first);
    if (!no) no = load(argv[3], 4096, second);
    if (no) {
        std::fprintf(stderr, "no ground: %s (%u)\n", sentence(no), unsigned(no));
        return 1;
    }
    if (first.width <= size_t(start_column) || first.height <= size_t(start_row)) {
        std::fprintf(stderr, "%s: the wheel starts at column %d, row %d, and the map is smaller\n", argv[1], start_column, start_row);
        return 1;
    }
    return race(first, second, second) ? 0 : 1;
}
