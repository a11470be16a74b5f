int __GIMPLE (ssa)
f (int x, int y)
{
  int _3;

  __BB(2):
  if (x_1(D) < 0)
    goto __BB3;
  else
    goto __BB3;

  __BB(3):
  _3 = __PHI (__BB2: y_2(D));
  return _3;
}

int __GIMPLE (ssa)
g (int x, int y)
{
  int _3;

  __BB(2):
  if (x_1(D) < 0)
    goto __BB3;
  else
    goto __BB4;

  __BB(3):
  if (1 == 1)
    goto __BB4;
  else
    goto __BB4;

  __BB(4):
  _3 = __PHI (__BB2: y_2(D), __BB3: 5);
  return _3;
}
