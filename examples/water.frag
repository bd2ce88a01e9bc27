// Water: waves, a sky that they mirror, foam, and grain against banding.
//
// The first part is what an engine pastes before each shader: constants,
// records and small functions. The shader's own text, with its directives,
// comes after it. (A compiler would want #version at the very top. The
// preprocessor only says where it stood: what to think of it is left to
// whoever reads the item.)

precision highp float;
precision highp int;

const float PI = 3.14159265358979;
const float TAU = 6.28318530717958e0;
const float TINY = 1e-6, HUGE_ = 1.E+6;
const float HALF = .5, ONE = 1., THIRD = .333333f;
const uint GOLDEN = 0x9E3779B9u;     // 2^32 over the golden ratio
const uint MASK = 0XfffU, BITS = 037777u;
const int LAYERS = 4, NONE = -1;

/* A wave: which way it goes, how long it is,
   how high, and how fast its crests move. */
struct Wave {
    vec2 direction;
    float length_;
    float height;
    float speed;
};

struct Surface {
    vec3 position;
    vec3 normal;
    float foam;         // 0.0 is none, 1.0 is all
};

float square(float x) { return x * x; }
float saturate(float x) { return clamp(x, 0.0, 1.0); }

// Schlick's polynomial for how much of the light a surface mirrors.
float mirrored(float cosine, float straight) {
    float m = saturate(1.0 - cosine);
    float m2 = m * m;
    return straight + (1.0 - straight) * m2 * m2 * m;
}

// Grain from integers alone, so that every device gives the same picture.
uint scramble(uint x) {
    x ^= x >> 16;
    x *= 0x7FEB352Du;
    x ^= x >> 15u;
    x *= 0x846ca68bU;
    x ^= x >> 16;
    return x;
}

float grain(uvec2 cell) {
    uint h = scramble(cell.x + GOLDEN * scramble(cell.y));
    return float(h & MASK) / 4095.0 - HALF;
}

vec3 sky(vec3 ray) {
    float up = max(ray.y, 0.0);
    vec3 horizon = vec3(0.76, 0.84, 0.93), zenith = vec3(0.13, .33, .71);
    vec3 c = mix(horizon, zenith, pow(up, 4e-1));
    return ray.y < 0. ? c * 0.6 : c;
}

#version 320 es
#extension GL_OES_standard_derivatives : enable
#pragma optimize(on)

/* What a build may set beforehand. */
#ifndef QUALITY
#define QUALITY 2
#endif

#define WAVES 4
#define SUM(a, b) ((a) + (b))
#define WAVE(x, y, length, height) \
    Wave(normalize(vec2(x, y)), length, height, sqrt(9.81 * length / TAU))
#define LOOP(i, n) for (int i = 0; i < (n); ++i)
#define FOAM

layout(location = 0) in vec3 world;
layout(location = 1) in vec2 uv;
layout(location = 0) out vec4 colour;

uniform float time;
uniform vec3 eye, sun;
uniform sampler2D ripples;

Wave waves[WAVES] = Wave[WAVES](
    WAVE(1.0, 0.25, 12.0, 0.35),
    WAVE(0.7, -0.70, 5.5, 0.12),
    WAVE(-.2, 1., 2.25, 6.0e-2),
    WAVE(0.9, 0.4, 0.8, 1.5E-2)
);

// One wave's share of the height and of the slope.
vec3 share(Wave w, vec2 at) {
    float k = TAU / w.length_;
    float phase = k * (dot(w.direction, at) - w.speed * time);
    vec2 slope = w.direction * (k * w.height * cos(phase));
    return vec3(slope.x, w.height * sin(phase), slope.y);
}

Surface surface(vec2 at) {
    vec3 sum = vec3(0);
    LOOP(i, WAVES) {
        sum = SUM(sum, share(waves[i], at));
    }
    Surface s;
    s.position = vec3(at.x, sum.y, at.y);
    s.normal = normalize(vec3(-sum.x, 1.0, -sum.z));
#ifdef FOAM
    s.foam = saturate((sum.y - 0.28) * 8.);
#else
    s.foam = 0.0;
#endif
    return s;
}

#if QUALITY >= 2 && defined(FOAM)
// Two layers of small ripples, which drift apart.
vec3 ruffled(vec3 normal, vec2 at) {
    vec2 a = texture(ripples, at * 0.11 + time * 0.020).xy;
    vec2 b = texture(ripples, at * 0.37 - time * 0.013).xy;
    vec2 d = a + b - 1.0;
    return normalize(normal + vec3(d.x, 0.0, d.y) * 0.2);
}
#elif QUALITY == 1
vec3 ruffled(vec3 normal, vec2 at) { return normal; }
#else
vec3 ruffled(vec3 normal, vec2 at) { return vec3(0, 1, 0); }
#endif

float glint(vec3 ray) {
    float c = max(dot(ray, sun), 0.0);
    float tight = pow(c, 512.0), wide = pow(c, 16.);
    return 4.0 * tight + wide / 8.0;
}

void main() {
    Surface s = surface(world.xz);
    vec3 n = ruffled(s.normal, uv);
    vec3 ray = normalize(eye - s.position);
    vec3 out_ray = reflect(-ray, n);
    float f = mirrored(dot(ray, n), 0.02);

    vec3 deep = vec3(0.010, 0.070, 0.095);
    vec3 c = mix(deep, sky(out_ray), f) + glint(out_ray);
    c = mix(c, vec3(0.92), square(s.foam));

    int cells = LAYERS << 6;
    uvec2 cell = uvec2(uv * float(cells)) & uvec2(BITS);
    c += grain(cell) / 255.0;
    if (any(isnan(c)) || !(c.x <= HUGE_)) {
        bool odd = (~LAYERS & 1) == 1 || NONE != -1;
        c = vec3(float(__LINE__) / 255.0, 0.0, odd ? 1.0 : 0.);
    }
    colour = vec4(c, 1.0 - (s.foam > ONE ? THIRD : TINY));
}
