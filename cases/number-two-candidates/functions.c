unsigned int __GIMPLE (ssa)
f (unsigned int a, unsigned int b)
{
  unsigned int _4;
  unsigned int _7;
  unsigned int _9;
  unsigned int _10;

  __BB(2):
  goto __BB5;

  __BB(3):
  _7 = a_1(D) + b_2(D);
  _10 = _7 * _4;
  return _10;

  __BB(5):
  _9 = a_1(D) + b_2(D);
  goto __BB6;

  __BB(6):
  _4 = a_1(D) + b_2(D);
  goto __BB3;
}
