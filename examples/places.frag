// Places: a name, a number and an operator that go on beyond the end of a \
   line, and this comment, which does so too.
float lum\
inance = 12\
.5e\
-1; /* a comment over
   three lines, with größe and 距離 in
   it, and a // that begins nothing */ float größe = luminance;
vec2 距離 = vec2(größe, -größe);	// a tab stands before this comment
bool near_ = größe <\
= 4.0 &\
& größe/* a mark parts what it stands between */!= 0.;
int a=1;/**//**/int b/***/=/*/ still the same comment */a+++a;
