/* The sum of two int has no value where it is out of range. */
int __GIMPLE (ssa)
next (int x)
{
  int _2;

  __BB(2):
  _2 = x_1(D) + 1;
  return _2;
}
