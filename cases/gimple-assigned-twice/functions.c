unsigned int __GIMPLE (ssa)
f (unsigned int x)
{
  unsigned int _2;
  unsigned int _3;

  __BB(2):
  _2 = x_1(D) & x_1(D);
  _2 = _2 & _2;
  return _3;
}
