unsigned int __GIMPLE (ssa)
f (unsigned int x)
{
  unsigned int _99999999999999999999;
  unsigned int _3;

  __BB(2):
  _99999999999999999999 = x_1(D) & x_1(D);
  _3 = _99999999999999999999 & _99999999999999999999;
  return _3;
}
