#version 300 es
precision mediump float;
#ifndef STEPS
#define STEPS 4
#endif
#define CLAMPED(x) clamp(x, 0.0, 1.0)
#define FADE(distance, reach) CLAMPED(1.0 - (distance) / (reach))
out vec4 colour;
void main() {
#if STEPS > 1
    colour = vec4(floor(FADE(gl_FragCoord.z, 0.5) * float(STEPS)) / float(STEPS));
#else
    colour = vec4(FADE(gl_FragCoord.z, 0.5));
#endif
}
