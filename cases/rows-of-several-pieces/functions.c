unsigned int __GIMPLE (ssa)
f (unsigned int x)
{
  unsigned int _2;

  __BB(2):
  _2 = x_1(D) & x_1(D);
  return _2;
}
