// A disc with a soft edge: no line of this shader begins with a number sign,
// so each of its tokens is printed.
precision mediump float;

in vec2 uv;            // from -1 to 1 in both directions
out vec4 colour;

uniform vec4 inner, outer;
uniform float radius;  /* of the disc, 0.75 or so */

const float edge = 1.5e-2;
const uint all_bits = 0xFFu;

float cover(float distance_) {
    float t = clamp((radius - distance_) / edge + .5, 0.0, 1.);
    return t * t * (3.0 - 2.0f * t);
}

void main() {
    float a = cover(length(uv));
    vec4 mixed = mix(outer, inner, a);
    int level = 017, steps = 10 >> 1;
    for (int i = 0; i < steps; ++i) {
        level = i % 2 == 0 && level != 0 ? level - 1 : level ^ 3;
    }
    colour = level <= 0 || (all_bits & 1u) == 0u ? vec4(0) : mixed;
}
