double floor(double x);
double pow(double x, double y);
