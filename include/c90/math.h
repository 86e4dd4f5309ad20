/* C90 7.5. Without rewriting, a call of one of these is refused: floating type. */
#ifndef _SPARROW_MATH_H
#define _SPARROW_MATH_H

extern double __huge_val;
#define HUGE_VAL __huge_val

extern double acos(double);
extern double asin(double);
extern double atan(double);
extern double atan2(double, double);
extern double cos(double);
extern double sin(double);
extern double tan(double);
extern double cosh(double);
extern double sinh(double);
extern double tanh(double);
extern double exp(double);
extern double frexp(double, int *);
extern double ldexp(double, int);
extern double log(double);
extern double log10(double);
extern double modf(double, double *);
extern double pow(double, double);
extern double sqrt(double);
extern double ceil(double);
extern double fabs(double);
extern double floor(double);
extern double fmod(double, double);

#ifndef _ANSI_SOURCE
/* C99 7.12 */
extern double __nan_value, __infinity_value;
#define NAN ((float)__nan_value)
#define INFINITY ((float)__infinity_value)
typedef float float_t;
typedef double double_t;

extern int __is_finite(double);
extern int __is_infinite(double);
extern int __is_nan(double);
extern int __is_normal(double);
extern int __sign_bit(double);
#define isfinite(x) __is_finite(x)
#define isinf(x) __is_infinite(x)
#define isnan(x) __is_nan(x)
#define isnormal(x) __is_normal(x)
#define signbit(x) __sign_bit(x)

extern double acosh(double);
extern double asinh(double);
extern double atanh(double);
extern double cbrt(double);
extern double erf(double);
extern double erfc(double);
extern double exp2(double);
extern double expm1(double);
extern double lgamma(double);
extern double log1p(double);
extern double log2(double);
extern double logb(double);
extern double nearbyint(double);
extern double rint(double);
extern double round(double);
extern double tgamma(double);
extern double trunc(double);
extern double copysign(double, double);
extern double fdim(double, double);
extern double fmax(double, double);
extern double fmin(double, double);
extern double hypot(double, double);
extern double nextafter(double, double);
extern double remainder(double, double);
extern double fma(double, double, double);
extern int ilogb(double);
extern long llrint(double);
extern long llround(double);
extern long lrint(double);
extern long lround(double);
extern double nan(const char *);
extern double scalbln(double, long);
extern double scalbn(double, int);
extern float acosf(float);
extern float asinf(float);
extern float atanf(float);
extern float cosf(float);
extern float sinf(float);
extern float tanf(float);
extern float coshf(float);
extern float sinhf(float);
extern float tanhf(float);
extern float expf(float);
extern float logf(float);
extern float log10f(float);
extern float sqrtf(float);
extern float ceilf(float);
extern float fabsf(float);
extern float floorf(float);
extern float roundf(float);
extern float truncf(float);
extern float log2f(float);
extern float exp2f(float);
extern float cbrtf(float);
extern float rintf(float);
extern float atan2f(float, float);
extern float fmodf(float, float);
extern float powf(float, float);
extern float copysignf(float, float);
extern float fmaxf(float, float);
extern float fminf(float, float);
extern float hypotf(float, float);
extern float frexpf(float, int *);
extern float ldexpf(float, int);
extern long lrintf(float);
extern long lroundf(float);
extern float modff(float, float *);

/* X/Open */
#define M_E 2.7182818284590452354
#define M_LOG2E 1.4426950408889634074
#define M_LOG10E 0.43429448190325182765
#define M_LN2 0.69314718055994530942
#define M_LN10 2.30258509299404568402
#define M_PI 3.14159265358979323846
#define M_PI_2 1.57079632679489661923
#define M_PI_4 0.78539816339744830962
#define M_1_PI 0.31830988618379067154
#define M_2_PI 0.63661977236758134308
#define M_2_SQRTPI 1.12837916709551257390
#define M_SQRT2 1.41421356237309504880
#define M_SQRT1_2 0.70710678118654752440
extern double gamma(double);
extern double j0(double);
extern double j1(double);
extern double jn(int, double);
extern double y0(double);
extern double y1(double);
extern double yn(int, double);
#endif

#endif
