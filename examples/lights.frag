#version 320 es
// A wall under lights, in as many variants as a build asks for. What it may define beforehand:
//
//     QUALITY     from 0 to 3; 2 where nothing is said
//     LIGHTS      how many lights there are, from 1 to 4; 4 where nothing is said
//     NO_SHADOWS  if defined, no light casts a shadow
//     NO_CHECKS   if defined, nothing is checked; else the line of the check that
//                 failed last is shown as a colour
//     FOG         if defined, the colour into which all fades that is far away

#ifndef QUALITY
#define QUALITY 2
#endif
#ifndef LIGHTS
#define LIGHTS 4
#endif
#define GLES_VERSION 320    /* as in the first line, which defines no macro */

#if GLES_VERSION < 300 || !(QUALITY >= 0 && QUALITY <= 3)
#error GLSL ES 3.00 or later is wanted, and a quality from 0 to 3
#elif LIGHTS < 1 || LIGHTS > 4
#error there are 1 to 4 lights
#endif

#if QUALITY == 0
precision mediump float;
#pragma optimize(off)
#else
precision highp float;
#pragma optimize(on)
#endif

#if !defined(NO_SHADOWS) && QUALITY > 1
#   extension GL_EXT_texture_shadow_lod : enable
#   define SHADOWS
#   define TAPS (2 * QUALITY - 1)
#elif defined NO_SHADOWS
#   pragma shadows(none)
#   if QUALITY > 1
#       pragma shadows(the quality would allow for them)
#   endif
#else
#   pragma shadows(baked)
#endif

// Small things. Where no `(` follows, the name of a macro with parameters is just a name.
#define SQUARE(x) ((x) * (x))
#define TWICE(f, x) f(f(x))
#define saturate(x) clamp(x, 0.0, 1.0)
#define fade(d, reach) TWICE(SQUARE, saturate(1.0 - (d) / (reach)))
#define BITS(count) ((1 << (count)) - 1)

// One light. The commas of its place stand in parentheses of their own, and part no arguments.
#define BYTE(value, at) float((value) >> (at) & BITS(8))
#define COLOUR(hex) vec3(BYTE(hex, 16), BYTE(hex, 8), BYTE(hex, 0)) / 255.0
#define LIGHT(place, colour, reach) \
    Light(vec3 place, COLOUR(colour), float(reach))

// Something for each light, one after another.
#define REPEAT_1(what) what(0)
#define REPEAT_2(what) REPEAT_1(what) what(1)
#define REPEAT_3(what) REPEAT_2(what) what(2)
#define REPEAT_4(what) REPEAT_3(what) what(3)
#if LIGHTS == 1
#define EACH_LIGHT REPEAT_1
#elif LIGHTS == 2
#define EACH_LIGHT REPEAT_2
#elif LIGHTS == 3
#define EACH_LIGHT REPEAT_3
#else
#define EACH_LIGHT REPEAT_4
#endif

in vec3 world;
in vec3 normal_;
in vec2 uv;
out vec4 colour;

uniform vec3 eye;
uniform sampler2D bricks;

struct Light {
    vec3 place;
    vec3 colour;
    float reach;
};

const Light lights[LIGHTS] = Light[LIGHTS](
    LIGHT((0.0, 4.0, 0.5), 0xFFE0B0, 12)
#if LIGHTS > 1
    , LIGHT(
        (-3.5, 2.0, 1.0),   // beside the door
        0x80A0FF,
        8
    )
#   if LIGHTS > 2
    , LIGHT((3.5, 2.0, 1.0), 0x80A0FF, 8)
#       if (LIGHTS & BITS(2)) == 0
    , LIGHT((0.0, .25, 2.0), 0xFF4010, SQUARE(1.5))
#       endif
#   endif
#endif
);

#ifdef SHADOWS
uniform highp sampler2DShadow shadow_maps[LIGHTS];
uniform mat4 to_light[LIGHTS];

float shadow(highp sampler2DShadow map, vec4 at) {
    float sum = 0.0;
    for (int tap = 0; tap < TAPS; ++tap) {
        sum += textureProj(map, at + vec4(float(tap - TAPS / 2) / 512.0, 0, 0, 0));
    }
    return sum / float(TAPS);
}
#define SHADOW(i) shadow(shadow_maps[i], to_light[i] * vec4(world, 1.0))
#else
#define SHADOW(i) 1.0
#endif

#ifdef NO_CHECKS
#define CHECK(condition)
#else
uint failed = 0u;
#define CHECK(condition) if (!(condition)) { failed = uint(__LINE__); }
#endif

// From here on lines count as in the file that this part was pasted from, whose number is 2.
#define FIRST_LINE 1000
#line FIRST_LINE - 1 2
#define SQUARE(x) ((x) * (x))   // said again: where it says the same, nothing changes

// What one light adds.
#define ADD_LIGHT(i) { \
    vec3 ray = lights[i].place - world; \
    float distance_ = length(ray); \
    CHECK(distance_ > 0.0) \
    float fade = fade(distance_, lights[i].reach); \
    float facing = max(dot(n, ray / distance_), 0.0); \
    sum += lights[i].colour * (fade * facing * SHADOW(i)); \
}

vec3 lit(vec3 n) {
    vec3 sum = vec3(0.03);
    EACH_LIGHT(ADD_LIGHT)
    return sum;
}
#undef ADD_LIGHT
#undef EACH_LIGHT

// Bricks are small. Where a macro is open, its own name is a name.
#define texture(map, at) texture(map, (at) * 4.0)

void main() {
    vec3 n = normalize(normal_);
    CHECK(
        dot(n, eye - world) > 0.0   // the line is that of the last parenthesis
    )
    vec3 base = texture(bricks, uv).rgb;
#if QUALITY == 0
#define LIT(n) (n).z            // no light at all
#else
#define LIT(n) lit(n)
#endif
    vec3 c = saturate(base * LIT(n));
#ifdef FOG
    c = mix(vec3(FOG), c, fade(distance(eye, world), 50.0));
#endif
    colour = vec4(c, 1.0);
#ifndef NO_CHECKS
    CHECK(all(lessThanEqual(colour, vec4(1))))
    if (failed != 0u) {
        colour = vec4(float(failed - uint(FIRST_LINE)) / 255.0, 0, 1, 1);
    }
#endif
}

#if 0
Old code, which is read no further than for the end of this block:
#include <shadows.glsl>
#define LIGHTS 1
#ifdef LIGHTS
#error this is not told
#endif
#endif
