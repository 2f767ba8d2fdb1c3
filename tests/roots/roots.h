/* What the crate roots_c exports. */
#ifndef ROOTS_H
#define ROOTS_H

double sirmolaat_sqrt(double x);
double sirmolaat_hypot(double x, double y);

#endif
