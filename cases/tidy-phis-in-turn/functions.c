int __GIMPLE (ssa)
f (int x, int n)
{
  int a;
  int _4;

  __BB(2):
  goto __BB3;

  __BB(3):
  a_3 = __PHI (__BB2: x_1(D), __BB6: _4);
  if (a_3 < n_2(D))
    goto __BB4;
  else
    goto __BB5;

  __BB(4):
  if (a_3 == 7)
    goto __BB6;
  else
    goto __BB7;

  __BB(7):
  goto __BB6;

  __BB(6):
  _4 = __PHI (__BB4: a_3, __BB7: a_3);
  goto __BB3;

  __BB(5):
  return a_3;
}
