#version 320 es
// A comment of one line.
#define EDGE (0.5f +  SOFT)
#ifdef SOFT

float edge=EDGE;   int line = __LINE__;
#endif
	float width = 0x1Fu  ;
#if __VERSION__ == 320 && defined GL_ES
int es;
#endif
